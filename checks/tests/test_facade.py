"""`etrace` re-exports the definitions that the contracts of its calls cite, but for those under `steps`."""
import glob
import os
import re
import unittest

from common import TOP

from crate_list import content

CRATES = f"{TOP}/crates"
CALLS = re.compile(r"pub use (\w+)::(\{[^}]*\}|\w+)")
ITEM = re.compile(r"\bpub (?:fn|struct|enum|trait) (\w+)")
CITED = re.compile(r"ghost use Rattle\.(\w+\.specs\.[\w.]+)\.\{")


def calls_of_etrace():
    """The names that `etrace` re-exports, by crate."""
    found = {}
    for file in glob.glob(f"{CRATES}/etrace/src/*.rt"):
        for crate, names in CALLS.findall(content(file)):
            found.setdefault(crate, set()).update(re.findall(r"\w+", names))
    return found


def definitions_of_etrace():
    """The files of definitions that it re-exports, as `CRATE.specs.FILE`."""
    return {
        name
        for file in glob.glob(f"{CRATES}/etrace/specs/*.antt")
        for name in re.findall(r"^pub use Rattle\.(\S+)", content(file), re.M)
    }


def cited_by(crate, names):
    """The files of definitions that are cited where the crate has one of these names, and that are a bench's own."""
    for file in glob.glob(f"{CRATES}/{crate}/src/**/*.rt", recursive=True):
        text = content(file)
        if names & {*ITEM.findall(text)}:
            for cited in CITED.findall(text):
                owner, _, place = cited.split(".", 2)
                if os.path.isfile(f"{CRATES}/{owner}/specs/{place}.antt"):
                    yield cited


class Facade(unittest.TestCase):
    def test_what_is_cited_is_reexported(self):
        calls, own = calls_of_etrace(), definitions_of_etrace()
        self.assertGreater(len(calls), 20)
        for crate, names in sorted(calls.items()):
            for cited in sorted({*cited_by(crate, names)}):
                with self.subTest(crate=crate):
                    self.assertIn(cited, own)
