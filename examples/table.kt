fun main() {
    var row = 1
    while (row <= 9) {
        var column = 1
        while (column <= row) {
            println(row * column)
            column = column + 1
        }
        row = row + 1
    }
}
