"""`.gitignore`: it has what the commands of README and guide leave at the top of the repository, and no file that git has."""
import glob
import os
import re
import subprocess
import unittest

from common import TOP

# The guide's other commands are run in a folder of their own.
BLOCKS = {"README.md": r"sh|console", **{page: "sh" for page in glob.glob("docs/guide/*.md", root_dir=TOP)}}
# What a page has whose scripts are for a folder of their own.
ELSEWHERE = "repo=/path/to/this/repository"
MADE = re.compile(r"(?:-o |>)([\w.]+)")
# Made by commands that name no file.
ELSE = ["crates/tracebench/out/tracebench", "out/unproved/tracebench", "out/release/SHA256SUMS",
        "examples/python/__pycache__/tracebench.pyc", "checks/__pycache__/built.pyc",
        ".snakemake/log", "results/table.csv"]


def git(*words):
    return subprocess.run(["git", "-C", TOP, *words], capture_output=True, text=True)


def left():
    """The files that commands write where they are run."""
    for path, kinds in BLOCKS.items():
        with open(os.path.join(TOP, path), encoding="utf-8") as file:
            text = file.read()
        for block in re.findall(rf"^```(?:{kinds})\n(.*?)^```$", text, re.M | re.S) if ELSEWHERE not in text else ():
            yield from MADE.findall(block)


@unittest.skipIf(git("rev-parse").returncode, "no checkout of git")
class Ignored(unittest.TestCase):
    def test_what_commands_leave(self):
        found = {*left()}
        self.assertLessEqual({"sent.capture", "round_trip", "libtracebench.so"}, found)
        for name in sorted(found | {*ELSE}):
            with self.subTest(name):
                self.assertEqual(git("check-ignore", "--no-index", "--quiet", name).returncode, 0)

    def test_what_git_has(self):
        self.assertEqual(git("ls-files", "--cached", "--ignored", "--exclude-standard").stdout, "")


if __name__ == "__main__":
    unittest.main()
