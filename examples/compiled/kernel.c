__attribute__((section(".text.start"), naked)) void start(void)
{
    __asm__ volatile("lui sp, 0x80008\n call main\n li a7, 4\n ecall\n");
}

static void put(char byte)
{
    register int a0 __asm__("a0") = byte;
    register int a7 __asm__("a7") = 0; /* PUT */
    __asm__ volatile("ecall" : "+r"(a0) : "r"(a7) : "memory");
}

int main(void)
{
    for (const char *byte = "a kernel in C\n"; *byte; byte++)
        put(*byte);
    return 0;
}
