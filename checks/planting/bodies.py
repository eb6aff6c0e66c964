"""The wrong bodies, and the texts of their files."""
from dataclasses import dataclass

from planting import c_bodies, library_bodies, program_bodies, thread_bodies


class Unjudged(Exception):
    """Why a body cannot be planted."""


@dataclass(frozen=True)
class Body:
    """A wrong body: of each pair the first text is once in the file, and the second takes its place."""

    name: str
    crate: str
    file: str
    pairs: tuple

    def path(self):
        """The file, from the top of the repository."""
        return f"crates/{self.crate}/src/{self.file}"


def body_of(name, crate, file, *texts):
    """The body of a row of the lists, in which the texts of all pairs are in a row."""
    return Body(name, crate, file, tuple(zip(texts[::2], texts[1::2])))


def all_bodies():
    """Every body, in the order of the lists."""
    lists = (thread_bodies, c_bodies, program_bodies, library_bodies)
    return [body_of(*row) for each in lists for row in each.BODIES]


def replaced(text, pair, file):
    """A text in which the first text of a pair gave way to the second."""
    old, new = pair
    if text.count(old) != 1:
        line = old.strip().splitlines()[0]
        raise Unjudged(f"a text is {text.count(old)} times in {file}, and not once: {line}")
    return text.replace(old, new)


def wrong_text(text, body, pairs=None):
    """The text of a body's file with the body in place, or with some of its pairs."""
    for pair in body.pairs if pairs is None else pairs:
        text = replaced(text, pair, body.file)
    return text
