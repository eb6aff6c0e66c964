"""The scripts of checks/ and tools/: each does nothing when it is imported, and prints its usage when its words cannot be
used."""
import os
import subprocess
import sys
import unittest

from common import TOP

NEED_WORDS = [
    "checks/examples",
    "checks/fuzz/fuzz",
    "checks/fuzz/lost_bytes",
    "checks/fuzz-c/fuzz-c",
    "checks/fuzz-c/texts",
    "checks/let-through",
    "checks/side-by-side",
    "tools/image",
    "tools/page",
    "tools/record",
    "tools/timeline",
    "tools/verdict",
]
NEED_PROGRAM = ["checks/at-scale", "checks/error-lines", "checks/refused-memory", "checks/stack", "checks/worst-captures"]
SCRIPTS = NEED_WORDS + NEED_PROGRAM + [
    "checks/all",
    "checks/check-docs",
    "checks/crate-graph",
    "checks/definitions-below",
    "checks/drill",
    "checks/long-edits/check-functions",
    "checks/long-edits/long-edits",
    "checks/long-tests/long-tests",
    "checks/planted-bodies",
    "checks/proof-times",
    "checks/random-runs/random-runs",
    "checks/second-runs",
    "checks/timing-c/instructions",
    "tools/definitions",
    "tools/from-gate",
]
IMPORT = """
import os, sys
from importlib import machinery, util
path = sys.argv[1]
sys.path.insert(0, os.path.dirname(path))
loader = machinery.SourceFileLoader("script", path)
loader.exec_module(util.module_from_spec(util.spec_from_loader("script", loader)))
"""


def run(*words):
    return subprocess.run([sys.executable, "-B", *words], capture_output=True, text=True)


class Scripts(unittest.TestCase):
    def test_an_import_does_nothing(self):
        for name in SCRIPTS:
            with self.subTest(name):
                ran = run("-c", IMPORT, os.path.join(TOP, name))
                self.assertEqual((ran.returncode, ran.stdout, ran.stderr), (0, "", ""))

    def has_usage(self, name, *words):
        with self.subTest(name):
            ran = run(os.path.join(TOP, name), *words)
            self.assertEqual((ran.returncode, ran.stdout), (2, ""))
            self.assertTrue(ran.stderr.startswith(f"usage: {name} "), ran.stderr)

    def test_too_few_words(self):
        for name in NEED_WORDS:
            self.has_usage(name)

    def test_an_unknown_flag(self):
        for name in SCRIPTS:
            self.has_usage(name, "--none")

    def test_a_program_that_is_not_there(self):
        for name in NEED_PROGRAM:
            self.has_usage(name, "/nowhere/tracebench")
