/* The board's memory: code and what is constant from 0 on, with the vectors first, and the stack at 0x20000000. */
ENTRY(begin)
SECTIONS
{
    . = 0;
    .vectors : { KEEP(*(.vectors)) }
    .text : { *(.text*) }
    .rodata : { *(.rodata*) }
    .ARM.exidx : { *(.ARM.exidx*) }
    . = 0x20000000;
    .data : { *(.data*) }
    .bss : { *(.bss*) }
    ASSERT(SIZEOF(.data) == 0 && SIZEOF(.bss) == 0, "nothing may be kept between calls: no start-up code fills it in")
    stack_end = 0x20010000;
}
