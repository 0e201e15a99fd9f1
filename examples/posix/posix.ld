/* Three segments, as in examples/c/tilesim.ld: code, constants, written data, each from a line of memory of its own.
 * What thread-local variables begin with lies among the constants, in a usual segment: an image with a segment for
 * them is refused. start.S gives each thread its copy. */
ENTRY(_start)
PHDRS {
    code PT_LOAD FLAGS(5);
    constants PT_LOAD FLAGS(4);
    data PT_LOAD FLAGS(6);
}
SECTIONS {
    . = 0x10000;
    .text : { *(.text.start) *(.text .text.*) } :code
    . = ALIGN(64);
    .rodata : {
        *(.rodata .rodata.*) *(.srodata .srodata.*)
        . = ALIGN(8);
        constructors_start = .;
        KEEP(*(SORT_BY_INIT_PRIORITY(.init_array.*)))
        KEEP(*(.init_array))
        constructors_end = .;
        . = ALIGN(64);
    } :constants
    .tdata : { *(.tdata .tdata.*) . = ALIGN(8); } :constants
    .tbss : { *(.tbss .tbss.*) . = ALIGN(8); } :constants
    tls_start = ADDR(.tdata);
    tls_filled_end = ADDR(.tdata) + SIZEOF(.tdata);
    tls_bytes = ALIGN(ADDR(.tbss) + SIZEOF(.tbss) - ADDR(.tdata), 16);
    . = ALIGN(64);
    .data : {
        *(.data .data.*)
        *(.got .got.*)
        . = ALIGN(8);
        __global_pointer$ = . + 0x800;
        *(.sdata .sdata.*)
        . = ALIGN(8);
    } :data
    .bss : { *(.sbss .sbss.*) *(.bss .bss.*) *(COMMON) . = ALIGN(8); } :data
    _end = .;
    /DISCARD/ : { *(.comment) *(.note*) *(.eh_frame*) *(.riscv.attributes) *(.fini_array*) }
}
