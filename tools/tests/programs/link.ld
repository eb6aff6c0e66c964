/* The program from 80000000 on, its variables behind it; `frames` is the first of them. */
ENTRY(_start)
SECTIONS
{
  . = 0x80000000;
  .text : { *(.text.start) *(.text.page) *(.text*) *(.rodata*) *(.data*) *(.srodata*) *(.sdata*) }
  . = 0x80010000;
  .bss (NOLOAD) : { *(.frames) *(.bss*) *(.sbss*) }
}
