"""What `tools/unwrap` and `tools/wrap` share: the arguments that name a framing, and how a run ends."""
import argparse
import os
import sys

from framing.declared import Framing
from recording.unusable import Unusable


def setting(text):
    """A name and its number."""
    name, sign, number = text.partition("=")
    if not name.isidentifier() or not number.isascii() or not number.isdigit():
        raise argparse.ArgumentTypeError(f"{text} is not NAME=NUMBER, with a decimal number")
    return name, int(number)


def add_settings(parser):
    parser.add_argument("--set", type=setting, action="append", default=[], metavar="NAME=NUMBER", help="a number for FORMAT, such as a width")
    parser.add_argument("format", metavar="FORMAT", help="a Python file that declares the frames")


def run(tool, given, work):
    """Does the work of a tool over the framing, and returns the exit status."""
    try:
        return work(given, Framing(given.format, dict(given.set)))
    except Unusable as problem:
        print(f"{tool}: {problem}", file=sys.stderr)
        return 2
    except BrokenPipeError:
        os.dup2(os.open(os.devnull, os.O_WRONLY), 1)
        return 3
    except OSError as error:
        print(f"{tool}: {error.filename or 'standard output'}: {error.strerror}", file=sys.stderr)
        return 3
