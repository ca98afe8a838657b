# Where a thread begins that has storage. a0 points to its record, whose first word is its storage.
    .section .text.entry, "ax"
    .globl fsu_thread_entry
    .balign 4
fsu_thread_entry:
    .option push
    .option norelax
    lui     gp, %hi(__global_pointer$)
    addi    gp, gp, %lo(__global_pointer$)
    .option pop
    lw      tp, 0(a0)
    tail    fsu_thread_main
