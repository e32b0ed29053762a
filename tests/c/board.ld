/* Where a program stands on the emulated Cortex-M4 board (mps2-an386): code and constants at 0, data in the 16 MiB at 0x21000000. */
ENTRY(_start)

MEMORY
{
    code (rx) : ORIGIN = 0, LENGTH = 4M
    data (rwx) : ORIGIN = 0x21000000, LENGTH = 14M
}

SECTIONS
{
    .text : {
        KEEP(*(.vectors))
        *(.text .text.* .rodata .rodata.*)
        KEEP(*(.init))
        KEEP(*(.fini))
    } > code
    .ARM.exidx : {
        __exidx_start = .;
        *(.ARM.exidx*)
        __exidx_end = .;
    } > code
    .init_array : {
        __preinit_array_start = .;
        KEEP(*(.preinit_array))
        __preinit_array_end = .;
        __init_array_start = .;
        KEEP(*(.init_array*))
        __init_array_end = .;
        __fini_array_start = .;
        KEEP(*(.fini_array*))
        __fini_array_end = .;
    } > code
    .data : {
        *(.data .data.*)
    } > data
    .bss : {
        __bss_start__ = .;
        *(.bss .bss.* COMMON)
        __bss_end__ = .;
    } > data
    end = .;
    __end__ = .;
}
