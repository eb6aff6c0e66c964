"""Whether each public definition that `tools/definitions` prints has a comment, of its own or of the one before."""
import os

import built

SCRIPT = os.path.join(built.TOP, "tools", "definitions")


def wrong_file(path, own, found):
    """What is wrong with a file, by its own comment and its definitions."""
    if not own:
        yield f"{path}: no comment says what the file has"
    yield from (f"{path}: no comment says what {names[0]} is" for names, comment, _ in found if not comment)


def check():
    of, said = built.script(SCRIPT), []
    for crate in of.crates():
        files = of.files_of(crate)
        said += [f"{crate}: its root does not say what the crate is for"] * (bool(files) and not of.purpose(crate))
        for name, text in files.items():
            said += wrong_file(f"crates/{crate}/specs/{name}.antt", *of.entries(text))
    return said
