"""How `checks/planted-bodies` plants wrong bodies: an idea a file.

`library_bodies`, `thread_bodies`, `program_bodies` and `c_bodies` list them, `bodies` reads the lists, `switches` puts
many into one text, `crates` knows which tests a crate has, `copies` builds tests in a copy, and `runs` runs them.
"""
