fun main() {
  var n = 1
  while (n <= 20) {
    var x = n
    var steps = 0
    while (x != 1) {
      if (x % 2 == 0) x = x / 2 else x = 3 * x + 1
      steps = steps + 1
    }
    println(steps)
    n = n + 1
  }
}
