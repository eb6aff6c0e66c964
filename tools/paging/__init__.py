"""How `tools/page` makes a page of an audit, or of what is left of a capture: an idea a file.

`tables` reads a table block by block and says which line is no row of it. `audited`, `salvaged`, `measured`, `listed`,
`compared`, `followed` and `timed` keep what the seven kinds of files say, `spread` counts it over places and in
classes, `figures` draws that, `told` says the same in words and in small tables, `left` does so of a capture without
what was sent, and `made` puts all into `page.html`.
"""
