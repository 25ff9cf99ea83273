/* One call of the machine, taken for all of it. */
int main(void)
{
    static const char text[] = "-442704 -65504\n";
    register long a0 __asm__("a0") = 1;
    register const void *a1 __asm__("a1") = text;
    register long a2 __asm__("a2") = sizeof text - 1;
    register long a7 __asm__("a7") = 64;
    __asm__ volatile("ecall" : "+r"(a0) : "r"(a1), "r"(a2), "r"(a7) : "memory");
    return 0;
}
