// The calls of the simulator, by their numbers under Linux on RISC-V.

static long call(long number, long first, long second, long third) {
    register long a7 __asm__("a7") = number;
    register long a0 __asm__("a0") = first;
    register long a1 __asm__("a1") = second;
    register long a2 __asm__("a2") = third;
    __asm__ volatile("ecall" : "+r"(a0) : "r"(a7), "r"(a1), "r"(a2) : "memory");
    return a0;
}

static long read_bytes(void *into, long count) { return call(63, 0, (long)into, count); }

static long write_bytes(const void *from, long count) { return call(64, 1, (long)from, count); }

static char *set_break(char *at) { return (char *)call(214, (long)at, 0, 0); }
