// Functions, conditions and texts; its last line ends by an exception.
fun half(n: Int): Int {
    require(n >= 0)
    if (n % 2 == 0) return n / 2
    return stop("odd: " + n)
}

fun stop(why: String): Nothing = error(why)

fun sign(n: Int): String = if (n > 0) "plus" else if (n < 0) "minus" else "zero"

fun main() {
    val answer: Int
    if (half(10) < 3 || sign(-4) == "plus") answer = 1 else answer = 2
    println("answer " + answer)
    println(half(7))
}
