fun main() {
    var total = 40
    println(total)
    total = 42
    val answer: Int = total
    println(answer)
}
