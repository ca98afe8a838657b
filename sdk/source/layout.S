# What the linker script says of a program, as one table for C (struct fsu_layout).
    .section .rodata.fsu_layout, "a"
    .globl fsu_layout
    .balign 4
fsu_layout:
    .word __tls_start, __tls_filled, __tls_size
    .word __preinit_array_start, __preinit_array_end
    .word __init_array_start, __init_array_end
    .word __fini_array_start, __fini_array_end
    .word __stacks_start, __stacks_end
