"""What the tests share: the places of things, images of instructions, and a folder for each test."""
import os
import sys
import tempfile
import unittest

CHECKS = os.path.dirname(os.path.dirname(os.path.abspath(__file__)))
TOP = os.path.dirname(CHECKS)
TOOLS = os.path.join(TOP, "tools")
sys.path[:0] = [CHECKS, os.path.join(CHECKS, "fuzz")]
sys.dont_write_bytecode = True

import reading  # the reading of docs/FORMATS.md that checks/fuzz compares the bench with
from built import BUILT, LIBRARY as OWN_LIBRARY, script

BASE = 0x80000000
NOP = 0x13
TRACEBENCH = os.environ.get("TRACEBENCH") or (BUILT if os.path.exists(BUILT) else None)
LIBRARY = os.environ.get("TRACEBENCH_LIBRARY") or OWN_LIBRARY


def image_of(*words):
    """The bytes of an image of words of 32 bits."""
    return b"".join(word.to_bytes(4, "little") for word in words)


class InFolder(unittest.TestCase):
    """Tests that each have a folder of their own."""

    def setUp(self):
        folder = tempfile.TemporaryDirectory()
        self.addCleanup(folder.cleanup)
        self.folder = folder.name

    def path(self, name):
        return os.path.join(self.folder, name)

    def file(self, name, content):
        """Writes a file, of bytes or of a text, and returns its path."""
        with open(self.path(name), "wb") as file:
            file.write(content if isinstance(content, bytes) else content.encode())
        return self.path(name)
