fun main() {
    var count: Int
    println(count)
    count = 1
}
