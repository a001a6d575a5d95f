// Calls itself until the limit on calls ends the run.
fun main() {
    var step = 0x0F
    step += 2 * (step - 1)
    println(step)
    main()
}
