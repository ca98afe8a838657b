/* ADDI and JAL by turns, up to the budget. */
int main(void)
{
    __asm__ volatile("1: addi t0, t0, 1\n j 1b" : : : "t0");
    return 0;
}
