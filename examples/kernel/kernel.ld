/* The kernel from 1 MB on. What a thread keeps of its own (.tdata, .tbss) only the plain library has. */
ENTRY(_start)
SECTIONS {
    . = 1M;
    .boot : { KEEP(*(.multiboot)) }
    .text : { *(.text .text.*) }
    .rodata : { *(.rodata .rodata.*) }
    own_start = .;
    .tdata : { *(.tdata .tdata.*) }
    .tbss : { *(.tbss .tbss.*) }
    own_length = SIZEOF(.tdata);
    own_size = ALIGN(SIZEOF(.tdata) + SIZEOF(.tbss), 64);
    .data : { *(.data .data.*) *(.got .got.*) }
    .bss : { *(.bss .bss.*) *(COMMON) }
    /DISCARD/ : { *(.eh_frame*) *(.gcc_except_table*) *(.note*) *(.comment*) *(.llvm*) }
}
