/* The nRF51's flash, and RAM up to ram_end, which the link command gives. The stack stands below the
   data: one that grows too large leaves RAM and faults, and overwrites nothing. */
MEMORY {
    FLASH (rx) : ORIGIN = 0, LENGTH = 256K
    RAM (rw) : ORIGIN = 0x20000000, LENGTH = 16K
}
ENTRY(reset)
SECTIONS {
    .text : { KEEP(*(.vectors)) *(.text .text.*) *(.rodata .rodata.*) . = ALIGN(4); } >FLASH
    stack_low = ABSOLUTE(ORIGIN(RAM));
    stack_top = (ram_end - SIZEOF(.data) - SIZEOF(.bss)) & ~7;
    .data stack_top : { data_start = .; *(.data .data.*) . = ALIGN(8); data_end = .; } >RAM AT>FLASH
    data_load = LOADADDR(.data);
    .bss data_end (NOLOAD) : { bss_start = .; *(.bss .bss.* COMMON) . = ALIGN(8); bss_end = .; } >RAM
    ASSERT(stack_low < stack_top && bss_end <= ram_end, "the data do not fit RAM")
    /DISCARD/ : { *(.ARM.exidx* .ARM.extab* .comment) } /* nothing unwinds the stack */
}
