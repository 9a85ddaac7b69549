fun main() {
    var n = 2
    while (n < 100) {
        var d = 2
        while (d * d <= n && n % d != 0) d = d + 1
        if (d * d > n) println(n)
        n = n + 1
    }
}
