__attribute__((section(".text.start"), naked)) void start(void)
{
    __asm__ volatile("call main\n li a7, 0x4F560007\n ecall\n");
}

static int monitor_call(int number, int descriptor, const void *buffer, int length)
{
    register int a0 __asm__("a0") = descriptor;
    register int a1 __asm__("a1") = (int)buffer;
    register int a2 __asm__("a2") = length;
    register int a3 __asm__("a3") = 0x00408000; /* the area */
    register int a6 __asm__("a6") = number;
    register int a7 __asm__("a7") = 0x4F560008; /* CALL */
    __asm__ volatile("ecall" : "+r"(a0) : "r"(a1), "r"(a2), "r"(a3), "r"(a6), "r"(a7) : "memory");
    return a0;
}

static int count = 3;

int main(void)
{
    while (count-- > 0)
        monitor_call(1, 1, "compiled\n", 9);
    return 0;
}
