/* Machine level and the kernel from 80000000 on, the programs of user level at 40000000 and behind the kernel in memory. */
ENTRY(_start)
SECTIONS
{
  . = 0x80000000;
  .text : { *(.text.start) *(.text*) *(.rodata*) *(.srodata*) *(.data*) *(.sdata*) }
  user_program = ALIGN(4096);
  .user 0x40000000 : AT(user_program) { *(.user) }
  . = user_program + 4096;
  .bss (NOLOAD) : AT(ADDR(.bss)) { *(.bss*) *(.sbss*) }
}
