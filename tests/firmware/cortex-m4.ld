/* mps2-an386: code at 0, data at 20000000h; the emulator loads both. The engine's marks against unwinding go. */
ENTRY(_start)
MEMORY { CODE (rx) : ORIGIN = 0, LENGTH = 4M   DATA (rwx) : ORIGIN = 0x20000000, LENGTH = 4M }
SECTIONS
{
    .text : { KEEP(*(.vectors)) *(.text*) *(.rodata*) } > CODE
    .data : { *(.data*) } > DATA
    .bss : { __bss_start__ = .; *(.bss* COMMON) __bss_end__ = .; } > DATA
    end = .; __end__ = .;
    stack_top = ORIGIN(DATA) + LENGTH(DATA);
    /DISCARD/ : { *(.ARM.exidx*) *(.ARM.extab*) }
}
