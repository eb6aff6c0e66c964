"""How `tools/timeline` says where a program was: an idea a file.

`decoded` reads the rows that `decode` prints, `symbols` names places, `calls` says what an instruction does to the stack of functions,
`stack` follows that stack row by row, `traced`, `folded`, `strip` and `covered` write what came of it, and `lines` has the DWARF lines.
"""
