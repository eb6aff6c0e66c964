"""How `checks/check-docs` compares documents with the crates: a part a file.

`contracts` reads docs/CONTRACTS.md, `definitions` what `tools/definitions` prints, `facts` the tables of
docs/FORMATS.md, and `first_use` the code that documents show.
"""
