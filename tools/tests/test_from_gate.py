"""`tools/from-gate`: what it refuses; and, where the kit is there, over a repository of three small crates that are proved
as `rt ci` proves them and kept in a folder of the test, that it takes and builds what was proved, and nothing else."""
import hashlib
import io
import os
import shutil
import subprocess
import sys
import tempfile
import unittest
from contextlib import redirect_stderr, redirect_stdout

from support import TOOLS, script

SCRIPT = os.path.join(TOOLS, "from-gate")
HEAD = "//! A crate of a test.\n#![tactic(auto)]\n\nghost use Rattle.std.specs.Prelude.{◌≡◌};\n"
SOURCES = {
    "low/src/lib.rt": """
/// Gives a number back.
pub fn same(number: u32) -> u32
    ensures { result ≡ number }
{
    number
}
""",
    "calls/src/lib.rt": """
use low::same;

/// Gives a number back to C.
#[unsafe(no_mangle)]
pub extern "C" fn small_same(number: u32) -> u32
    ensures { result ≡ number }
{
    same(number)
}
""",
    "app/src/main.rt": """
use low::same;
use std::io;

fn main(rt: HostRuntime) -> io::Result<()> {
    println!(rt; "{}", same(7))
}
""",
}
CALLER = """#include <stdint.h>
uint32_t small_same(uint32_t number);
int main(void) { return (int)small_same(42); }
"""


FROM_GATE = script(SCRIPT)
try:
    WHY = None if FROM_GATE.kit() else None
except FROM_GATE.Unusable as error:
    WHY = str(error)


def write(path, text):
    os.makedirs(os.path.dirname(path), exist_ok=True)
    with open(path, "w", encoding="utf-8") as file:
        file.write(text)


class Refused(unittest.TestCase):
    def ends(self, status, said, *words, path):
        ran = subprocess.run([sys.executable, "-B", SCRIPT, *words], capture_output=True, text=True, check=False,
                             env={**os.environ, "PATH": path})
        self.assertEqual((ran.returncode, ran.stdout), (status, ""))
        self.assertIn(said, ran.stderr)

    def test_words_and_kits(self):
        with tempfile.TemporaryDirectory() as folder:
            self.ends(2, "neither program nor library: archive", "archive", path=folder)
            self.ends(2, "there is no command `rt`", path=folder)
            for text, said in ((HEAD, "cannot be read"), ("class Crate: pass\n", "has no Kept copy_crates")):
                write(f"{folder}/rt", text)
                os.chmod(f"{folder}/rt", 0o755)
                self.ends(2, said, path=folder)


@unittest.skipIf(WHY, WHY)
class Taken(unittest.TestCase):
    @classmethod
    def setUpClass(cls):
        cls.folder = tempfile.mkdtemp()
        cls.addClassCleanup(shutil.rmtree, cls.folder)
        cls.top, cls.rt = f"{cls.folder}/repository", FROM_GATE.kit()
        cls.rt.STORE = f"{cls.folder}/kept"
        write(f"{cls.top}/crates.txt", "low:\ncalls staticlib: low\napp: low\n")
        os.makedirs(f"{cls.top}/.git")
        for path, text in SOURCES.items():
            used = HEAD if "≡" in text else HEAD.split("\nghost")[0]
            write(f"{cls.top}/crates/{path}", used + text)
        cls.prove(f"{cls.folder}/proved")

    @classmethod
    def prove(cls, copy):
        """Proves the crates in a copy as `rt ci` does, and keeps what it keeps."""
        cls.rt.copy_crates(cls.top, copy)
        os.mkdir(f"{copy}/.git")
        cls.rt.rtlib.guarded()
        cls.rt.Crate.cuts_libraries = True
        crates = cls.rt.crates_of(copy)
        kept = cls.rt.Kept(crates)
        if not kept.has_room():
            raise unittest.SkipTest("the disk has no room for what is kept")
        for crate in crates:
            key = kept.key(crate)
            os.makedirs(f"{crate.folder}/out")
            with open(f"{copy}/said", "w+", encoding="utf-8") as crate.out:
                if crate.ci(["--jobs", "1"], False):
                    crate.out.seek(0)
                    raise AssertionError(crate.out.read())
            kept.is_built(crate)
            kept.keep(crate, False, key)

    def make(self, **names):
        """What is printed, or why nothing is made; the crates are as they were."""
        with redirect_stdout(io.StringIO()) as printed, redirect_stderr(io.StringIO()):
            try:
                FROM_GATE.make(self.rt, self.top, **names)
            except FROM_GATE.Lacking as error:
                return str(error)
        return printed.getvalue()

    def tearDown(self):
        for name in "low", "calls", "app":
            shutil.rmtree(f"{self.top}/crates/{name}/out", ignore_errors=True)

    def test_what_was_proved(self):
        printed = self.make(program="app", library="calls").splitlines()
        program, library = f"{self.top}/crates/app/out/app", f"{self.top}/crates/calls/out/libcalls.a"
        for path, line in zip((program, library), printed, strict=True):
            with open(path, "rb") as file:
                self.assertEqual(line, f"{hashlib.sha256(file.read()).hexdigest()}  {os.path.relpath(path)}")
        self.assertEqual(subprocess.run([program], capture_output=True, check=True).stdout, b"7\n")
        self.assertEqual(sorted(os.listdir(f"{self.top}/crates")), ["app", "calls", "low"])
        self.assertEqual(os.listdir(os.path.dirname(library)), ["libcalls.a"])
        if shutil.which("cc"):
            write(f"{self.folder}/caller.c", CALLER)
            subprocess.run(["cc", "-o", f"{self.folder}/caller", f"{self.folder}/caller.c", library], check=True)
            self.assertEqual(subprocess.run([f"{self.folder}/caller"], check=False).returncode, 42)

    def test_one_of_them(self):
        self.assertEqual(len(self.make(program="app").splitlines()), 1)
        self.assertFalse(os.path.exists(f"{self.top}/crates/calls/out"))

    def test_a_file_that_changed(self):
        path = f"{self.top}/crates/low/src/lib.rt"
        with open(path, encoding="utf-8") as file:
            text = file.read()
        self.addCleanup(write, path, text)
        write(path, text + "\n// more\n")
        self.assertEqual(self.make(program="app", library="calls"),
                         "`rt ci` has not proved these files on this machine: low")
        self.assertFalse(os.path.exists(f"{self.top}/crates/calls/out"))

    def test_what_is_kept_and_changed(self):
        """A kept file that changed is not taken, and what stands on it neither."""
        with tempfile.TemporaryDirectory() as folder:
            shutil.copytree(self.rt.STORE, f"{folder}/kept")
            self.addCleanup(setattr, self.rt, "STORE", self.rt.STORE)
            self.rt.STORE = f"{folder}/kept"
            entry = next(name for name in os.listdir(self.rt.STORE) if name.startswith("proof-app-"))
            path = f"{self.rt.STORE}/{entry}/0"
            with open(path, "r+b") as file:
                file.seek(os.path.getsize(path) // 2)
                byte = file.read(1)
                file.seek(-1, os.SEEK_CUR)
                file.write(bytes([byte[0] ^ 1]))
            said = "`rt ci` has not proved these files on this machine: "
            self.assertEqual(self.make(program="app", library="calls"), said + "app")
            shutil.rmtree(next(f"{self.rt.STORE}/{name}" for name in os.listdir(self.rt.STORE) if "proof-calls-" in name))
            self.assertEqual(self.make(library="calls"), said + "calls")


if __name__ == "__main__":
    unittest.main()
