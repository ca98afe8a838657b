/* Where the parts of a program lie in the window of memory, which begins at 0x10000 and has 4 MiB. From the top
   down: the stack of main, the stacks of other threads, the heap. Two sizes can be set when linking, by
   -Wl,--defsym=NAME=BYTES: __main_stack_size and __stacks_size. */
ENTRY(_start)

__window_end = 0x410000;
__stacks_end = __window_end - (DEFINED(__main_stack_size) ? __main_stack_size : 0x20000);
__stacks_start = __stacks_end - (DEFINED(__stacks_size) ? __stacks_size : 0x120000);

SECTIONS
{
    . = 0x10000;
    .text : { *(.text .text.*) }
    . = MAX(ALIGN(4096), 0x20000);
    .rodata : { *(.rodata .rodata.*) *(.srodata .srodata.*) }

    /* What a block of thread-local storage begins with; blocks lie on multiples of 64, as this does. */
    . = ALIGN(64);
    __tls_start = .;
    .tdata : { *(.tdata .tdata.*) }
    .tbss : { *(.tbss .tbss.* .tcommon) }
    __tls_filled = SIZEOF(.tdata);
    __tls_size = ALIGN(ADDR(.tbss) + SIZEOF(.tbss) - __tls_start, 64);

    .data : ALIGN(16) { *(.data .data.*) *(.sdata .sdata.*) }
    .arrays : ALIGN(4)
    {
        __preinit_array_start = .;
        KEEP(*(SORT_BY_INIT_PRIORITY(.preinit_array.*) .preinit_array))
        __preinit_array_end = .;
        __init_array_start = .;
        KEEP(*(SORT_BY_INIT_PRIORITY(.init_array.*)))
        KEEP(*(.init_array))
        __init_array_end = .;
        __fini_array_start = .;
        KEEP(*(SORT_BY_INIT_PRIORITY(.fini_array.*)))
        KEEP(*(.fini_array))
        __fini_array_end = .;
    }
    __global_pointer$ = ADDR(.data) + 0x800;
    . = MAX(ALIGN(4096), 0x30000);
    /* The program's own first: the kit and picolibc have a section for each variable. */
    .bss : { *(.bss) *(.sbss) *(.bss.* .sbss.*) *(COMMON) }
    . = ALIGN(16);
    __heap_start = .;
    __heap_end = __stacks_start;

    /DISCARD/ : { *(.eh_frame .eh_frame.* .note .note.*) }
}

ASSERT(__heap_start <= __heap_end, "the program's code and variables leave no room for the stacks")
