fun main() {
    val x: Int
    x = 2
    x = 2
    println(x)
}
