"""What the user has to put right."""
import sys


class Unusable(Exception):
    """The words, a file or a folder cannot be used, with a text that says why."""


def lacking(module, packages):
    """The text of a module that is not there: which interpreter looked, and what to install for which."""
    return (f"{sys.executable} has no module {module}: install Debian's {packages}, which /usr/bin/python3 finds, or the same by the pip "
            "of this interpreter")
