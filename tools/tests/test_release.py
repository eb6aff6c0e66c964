"""`tools/release`: what it refuses, that two runs give the same bytes, where a program and a library are built, and
that the scripts that it installs run. What `tools/release-check` and `tools/as-installed` refuse before they install
anything."""
import os
import shutil
import subprocess
import sys
import tempfile
import unittest
from unittest import mock

from support import LIBRARY, TOOLS, TOP, TRACEBENCH, InFolder, image_of, script

NEEDED = [name for name in ("scdoc", "cc", "objcopy", "dpkg-deb") if not shutil.which(name)]


def release(program, folder):
    words = [sys.executable, "-B", os.path.join(TOOLS, "release"), "--program", program, "--library", LIBRARY, folder]
    return subprocess.run(words, capture_output=True, text=True, check=False)


class Release(unittest.TestCase):
    def test_a_program_that_is_not_there(self):
        with tempfile.TemporaryDirectory() as folder:
            ran = release(os.path.join(folder, "none"), folder)
        self.assertEqual((ran.returncode, ran.stdout), (2, ""))

    @unittest.skipUnless(os.path.isfile(LIBRARY), "no library is built")
    def test_a_program_of_another_version(self):
        with tempfile.TemporaryDirectory() as folder:
            ran = release("/bin/true", folder)
            self.assertEqual((ran.returncode, "of another version" in ran.stderr, os.listdir(folder)), (1, True, []))

    @unittest.skipUnless(TRACEBENCH and os.path.isfile(LIBRARY), "no program or no library is built")
    @unittest.skipIf(NEEDED, f"without {NEEDED}")
    def test_two_runs_give_the_same_bytes(self):
        with tempfile.TemporaryDirectory() as one, tempfile.TemporaryDirectory() as other:
            runs = [release(TRACEBENCH, folder) for folder in (one, other)]
        self.assertEqual([ran.returncode for ran in runs], [0, 0])
        self.assertEqual(runs[0].stdout, runs[1].stdout)
        self.assertEqual(len(runs[0].stdout.splitlines()), 4)

    @unittest.skipUnless(shutil.which("cc") and shutil.which("readelf"), "no compiler")
    def test_the_c_library_that_a_program_wants(self):
        made = script(os.path.join(TOOLS, "release"))
        with tempfile.TemporaryDirectory() as folder:
            program, source = os.path.join(folder, "program"), os.path.join(folder, "program.c")
            with open(source, "w", encoding="utf-8") as file:
                file.write("int main(void) { return 0; }\n")
            subprocess.run(["cc", "-o", program, source], check=True)
            self.assertRegex(made.libc_of(program), r"\Alibc6 \(>= 2\.\d+\)\Z")
            subprocess.run(["cc", "-shared", "-Wl,-soname,libother.so.1", "-o", f"{folder}/libother.so", source], check=True)
            subprocess.run(["cc", "-Wl,--no-as-needed", "-o", program, source, f"{folder}/libother.so"], check=True)
            with self.assertRaisesRegex(SystemExit, "needs libother.so.1"):
                made.libc_of(program)


@unittest.skipUnless(shutil.which("strip"), "no binutils")
class Scripts(InFolder):
    """The scripts as they are installed, without the repository beside them."""

    def setUp(self):
        super().setUp()
        made = script(os.path.join(TOOLS, "release"))
        with mock.patch.object(made, "pages"):
            made.program_files(self.folder, "/bin/true", "usr/")

    def run_script(self, name, *words, given=b""):
        ran = subprocess.run(
            [self.path(f"usr/bin/tracebench-{name}"), *words],
            cwd=self.folder,
            input=given,
            capture_output=True,
            check=False,
        )
        return ran.returncode, ran.stdout.decode(), ran.stderr.decode()

    def test_each_has_its_help(self):
        names = sorted(name for name in os.listdir(self.path("usr/bin")) if name != "tracebench")
        self.assertEqual(
            names, [f"tracebench-{name}" for name in ("image", "record", "timeline", "unwrap", "verdict", "wrap")]
        )
        for name in names:
            status, text, _ = self.run_script(name[len("tracebench-") :], "--help")
            self.assertEqual(
                (status, text.startswith(f"usage: {name} "), name.replace("tracebench-", "tools/") in text),
                (0, True, False),
                name,
            )
            self.assertTrue(os.path.isfile(os.path.join(TOP, f"packaging/man/{name}.1.scd")), name)

    def test_a_timeline(self):
        """Of three plain instructions: one function, which the first address names."""
        self.file("image.bin", image_of(0x13, 0x13, 0x13))
        rows = "addr,itype,priv,cause,tval\n" + "".join(f"{0x80000000 + 4 * at:x},0,3,,\n" for at in range(3))
        status, text, said = self.run_script(
            "timeline", "--folded", "stacks", "80000000", "image.bin", "-", given=rows.encode()
        )
        self.assertEqual((status, text, said), (0, "", ""))
        with open(self.path("stacks"), encoding="utf-8") as file:
            self.assertRegex(file.read(), r"\Ahart 0;\S+ 3\n\Z")

    def test_frames_there_and_back(self):
        """Two messages, without a header, through the frames of the example; without `construct` a line says so."""
        captured = b"".join(
            bytes([hart, 0, *[0] * 8, len(payload)]) + payload for hart, payload in ((0, b"\x1f"), (1, b"\x85\4"))
        )
        form = os.path.join(TOP, "examples/framing/serial.py")
        self.file("sent.capture", captured)
        ran = subprocess.run(
            [self.path("usr/bin/tracebench-wrap"), form, self.path("sent.capture")], capture_output=True, check=False
        )
        if ran.returncode:
            self.assertEqual(ran.returncode, 2)
            self.assertIn("python3-construct", ran.stderr.decode())
            return
        self.assertEqual(ran.stdout, b"\1\0\x1f\2\1\x85\4")
        status, text, said = self.run_script("unwrap", form, "-", given=ran.stdout)
        self.assertEqual((status, text, said), (0, "0 1f\n1 8504\n", "unwrap: 2 messages, 0 frames without one\n"))

    def test_an_image_of_no_elf_file(self):
        self.file("image.bin", image_of(0x13))
        status, text, said = self.run_script("image", "image.bin")
        self.assertEqual((status, text), (2, ""))
        self.assertIn("is no ELF file", said)


class Checks(unittest.TestCase):
    def ends(self, status, words, said):
        """A script ends with this status and says this."""
        ran = subprocess.run([os.path.join(TOOLS, words[0]), *words[1:]], capture_output=True, text=True, check=False)
        self.assertEqual((ran.returncode, ran.stdout), (status, ""))
        self.assertIn(said, ran.stderr)

    def test_a_system_that_is_to_be_kept(self):
        self.ends(2, ["as-installed", "/"], "not a system made for it")

    def test_words_and_sums(self):
        usage = "usage: tools/release-check [--suite SUITE] DIR"
        with tempfile.TemporaryDirectory() as folder:
            for words in [], ["--suite"], ["--suite", "bookworm"], [folder], ["--none", "bookworm", folder]:
                self.ends(2, ["release-check", *words], usage)
            names = "tracebench_1_amd64.deb", "tracebench-1.tar.xz"
            for name in names:
                open(os.path.join(folder, name), "w", encoding="utf-8").close()
            sums = subprocess.run(["sha256sum", *names], cwd=folder, capture_output=True, text=True, check=True).stdout
            for text, said in ((sums.replace("e3b0", "f3b0"), "a sum differs"), (sums.split("\n")[0] + "\n", "no sum of")):
                with open(os.path.join(folder, "SHA256SUMS"), "w", encoding="utf-8") as file:
                    file.write(text)
                for suite in [], ["--suite", "bookworm"]:
                    self.ends(1, ["release-check", *suite, folder], said)


if __name__ == "__main__":
    unittest.main()
