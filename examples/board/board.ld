/* A bare Cortex-M board: code where the processor starts, RAM with data at its beginning and the stack at its end. The linker is told
 * CODE_BASE, CODE_SIZE, RAM_BASE and RAM_SIZE. */
ENTRY(reset)

MEMORY {
    CODE (rx) : ORIGIN = CODE_BASE, LENGTH = CODE_SIZE
    RAM (rwx) : ORIGIN = RAM_BASE, LENGTH = RAM_SIZE
}

SECTIONS {
    .text : { KEEP(*(.vectors)) *(.text*) *(.rodata*) } > CODE
    .ARM.exidx : { *(.ARM.exidx*) } > CODE
    data_stored = LOADADDR(.data);
    .data : { data_low = .; *(.data*) . = ALIGN(4); data_high = .; } > RAM AT > CODE
    .bss (NOLOAD) : { bss_low = .; *(.bss*) *(COMMON) . = ALIGN(8); bss_high = .; } > RAM
    stack_top = RAM_BASE + RAM_SIZE;
}
