/* Code that is in flash, and code in flash that runs in memory. */
ENTRY(_start)
SECTIONS
{
  .flash 0x20000000 : { *(.flash) . = ALIGN(8); }
  routine_in_flash = .;
  .ram 0x80000000 : AT(routine_in_flash) { *(.ram) }
  routine_in_flash_end = routine_in_flash + SIZEOF(.ram);
}
