/* All of the program stands from the beginning of RAM on; the stack comes down from the end of 64 KiB. */
OUTPUT_ARCH(riscv)
ENTRY(_start)
MEMORY { ram (rwx) : ORIGIN = 0x80000000, LENGTH = 64K }
SECTIONS {
  .text : { *(.text.start) *(.text .text.*) } > ram
  .rodata : { *(.rodata .rodata.* .srodata .srodata.*) } > ram
  .data : { *(.data .data.* .sdata .sdata.*) } > ram
  .bss (NOLOAD) : { . = ALIGN(4); __bss_start = .; *(.sbss .sbss.* .bss .bss.* COMMON) . = ALIGN(4); __bss_end = .; } > ram
  __stack = ORIGIN(ram) + LENGTH(ram);
  /DISCARD/ : { *(.comment .note .note.* .riscv.attributes .eh_frame) }
}
