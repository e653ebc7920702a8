/* Code first, from address 0, then data; the stack goes down from the end of the memory. A program over the C library has besides
   what a thread has of its own, and a heap up to 8192 bytes below the end. */
OUTPUT_ARCH(riscv)
ENTRY(_start)
SECTIONS
{
    . = 0;
    .text : { *(.text.start) *(.text .text.*) }
    . = ALIGN(16);
    .tdata : { *(.tdata .tdata.*) }
    .tbss : { *(.tbss .tbss.*) }
    _thread = ADDR(.tdata);
    . += SIZEOF(.tbss);
    .rodata : { *(.rodata .rodata.*) *(.srodata .srodata.*) }
    .data : { *(.data .data.*) *(.sdata .sdata.*) }
    .bss : { *(.bss .bss.*) *(.sbss .sbss.*) *(COMMON) }
    _end = ALIGN(16);
    __heap_start = _end;
    __heap_end = MEMORY - 8192;
    /DISCARD/ : { *(.comment) *(.riscv.attributes) *(.eh_frame) *(.note*) }
}
