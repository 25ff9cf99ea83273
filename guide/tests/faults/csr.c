/* The counter of cycles is a register of Zicsr, which the machine doesn't have. */
int main(void)
{
    unsigned cycles;
    __asm__ volatile(".option arch, +zicsr\n\tcsrr %0, cycle" : "=r"(cycles));
    return (int)cycles;
}
