# Where a program begins. The machine has set sp to the end of the window. The topmost bytes of the stack become
# the main thread's block of thread-local storage.
    .section .text.start, "ax"
    .globl _start
_start:
    .option push
    .option norelax
    lui     gp, %hi(__global_pointer$)
    addi    gp, gp, %lo(__global_pointer$)
    .option pop
    lui     t0, %hi(__tls_size)
    addi    t0, t0, %lo(__tls_size)
    sub     sp, sp, t0
    andi    sp, sp, -64
    mv      tp, sp
    mv      a0, sp
    tail    fsu_begin
