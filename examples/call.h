/* A call of the environment, as on Linux: the number in a7, the arguments in a0 to a2, the answer in a0. */
static long call(long number, long a, long b, long c) {
    register long a7 asm("a7") = number;
    register long a0 asm("a0") = a;
    register long a1 asm("a1") = b;
    register long a2 asm("a2") = c;
    asm volatile("ecall" : "+r"(a0) : "r"(a7), "r"(a1), "r"(a2) : "memory");
    return a0;
}
