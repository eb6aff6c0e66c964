"""How `tools/record` makes logs of recorded runs: an idea a file.

`inputs` reads the image and the recording, `pieces` says which bytes may be added to the image, `elf` what an ELF file has of it,
`image` finds what a word says of its row, `written` writes the image and says how the bench takes it, `qemu` and `spike` read the
lines of a recording, `harts` leads them to their harts and sums these up, `columns` and `tracers` read the rows of other logs, `rows`
infers what these do not say, `hart` makes rows of them, `levels` says what level a trap
is likely taken from, `open_traps` keeps the traps whose level is not seen yet, `files` writes the rows, `noticed` says what is wrong
with a recording, and `progress` how far the reading is.
"""
