/* Three segments: code that is read and executed, constants that are read, data that is read and written. Each
 * begins on a line of memory of its own (64 bytes), so that written data shares none with constants. What is
 * written or atomic is accessed by words of up to 8 bytes, so .data and .bss end at a multiple of 8. No thread has
 * a thread pointer, so thread-local variables are refused. */
ENTRY(_start)
PHDRS {
    code PT_LOAD FLAGS(5);
    constants PT_LOAD FLAGS(4);
    data PT_LOAD FLAGS(6);
}
SECTIONS {
    . = 0x10000;
    .text : { *(.text.start) *(.text .text.*) } :code
    . = ALIGN(64);
    .rodata : { *(.rodata .rodata.*) *(.srodata .srodata.*) } :constants
    . = ALIGN(64);
    .data : {
        *(.data .data.*)
        *(.got .got.*)
        . = ALIGN(8);
        __global_pointer$ = . + 0x800;
        *(.sdata .sdata.*)
        . = ALIGN(8);
    } :data
    .bss : { *(.sbss .sbss.*) *(.bss .bss.*) *(COMMON) . = ALIGN(8); } :data
    _end = .;
    .tdata : { *(.tdata .tdata.*) *(.tbss .tbss.*) } :data
    ASSERT(SIZEOF(.tdata) == 0, "thread-local variables: tilesim has none")
    /DISCARD/ : { *(.comment) *(.note*) *(.eh_frame*) *(.riscv.attributes) }
}
