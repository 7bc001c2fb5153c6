/* Code and constants from address 0 in IMEM; data and the stack in DMEM.

   IMEM_SIZE and DMEM_SIZE are the sizes in bytes, which `build` takes from the folder's chip file; 64 KiB each without them. They must be
   those of the chip file that the program runs with: in a smaller DMEM than it was linked for the first push traps (mcause 7, mtval just
   below the stack's end), and a larger image than IMEM is refused with `error image size`. */
OUTPUT_ARCH(riscv)
ENTRY(_start)

MEMORY
{
    imem (rx)  : ORIGIN = 0x00000000, LENGTH = DEFINED(IMEM_SIZE) ? IMEM_SIZE : 64K
    dmem (rw)  : ORIGIN = 0x80000000, LENGTH = DEFINED(DMEM_SIZE) ? DMEM_SIZE : 64K
}

SECTIONS
{
    .text   : { *(.text.start) *(.text .text.*) } > imem
    .rodata : { *(.rodata .rodata.* .srodata .srodata.*) . = ALIGN(4); } > imem
    /* The bytes of .data stand behind the code in the image, and the start-up code copies them. */
    .data   : { _data = .; *(.data .data.* .sdata .sdata.*) . = ALIGN(4); _data_end = .; } > dmem AT > imem
    _data_image = LOADADDR(.data);
    .bss (NOLOAD) : { *(.bss .bss.* .sbss .sbss.* COMMON) . = ALIGN(4); _bss_end = .; } > dmem
    _stack = ORIGIN(dmem) + LENGTH(dmem);
    ASSERT(_stack - _bss_end >= 256, "DMEM has no 256 bytes left for the stack")
    /DISCARD/ : { *(.comment .note* .eh_frame .riscv.attributes) }
}
