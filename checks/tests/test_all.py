"""`checks/all`: each check that it lists is there, what it prints of one that passes, fails or is left out; and that the
README has each script."""
import contextlib
import io
import os
import sys
import unittest
from unittest import mock

from common import CHECKS, TOP, script

ALL = script(f"{CHECKS}/all")


def printed(*checks, words=()):
    """The status and the lines of a run over these checks, each a name, what it needs and a command."""
    listed = mock.patch.object(ALL, "CHECKS", [ALL.Check(*check) for check in checks])
    given = mock.patch.object(sys, "argv", ["all", "--program", "/nowhere", *words])
    with listed, given, contextlib.redirect_stdout(io.StringIO()) as said:
        status = ALL.main()
    return status, said.getvalue().splitlines()


class All(unittest.TestCase):
    def test_each_check_is_there(self):
        for check in ALL.CHECKS:
            first, *others = check.command.split()
            with self.subTest(check.name):
                if first == "python3":
                    self.assertTrue(os.path.isdir(f"{TOP}/{others[-1]}"))
                else:
                    self.assertTrue(os.access(f"{TOP}/{first}", os.X_OK))

    def test_a_line_for_each(self):
        checks = [("good", "", "true"), ("bad", "", "ls /nowhere"), ("apart", "PROGRAM cc-of-none", "true")]
        status, lines = printed(*checks)
        self.assertRegex("\n".join(lines[:2]), r"\Apassed good, \d+ s\nfailed bad, \d+ s\Z")
        self.assertEqual((status, lines[-1]), (1, "1 of 2 passed"))
        self.assertIn("/nowhere", lines[2])
        self.assertEqual(lines[-2], "left out apart: no /nowhere, no cc-of-none")
        status, lines = printed(*checks, words=["good"])
        self.assertEqual((status, len(lines), lines[1]), (0, 2, "1 of 1 passed"))

    def test_when_the_time_is_over(self):
        self.assertEqual(printed(("good", "", "true"), words=["--minutes", "-1"]),
                         (0, ["left out good: -1 minutes are over", "0 of 0 passed"]))


class Readme(unittest.TestCase):
    def test_it_has_each_script(self):
        with open(f"{CHECKS}/README.md", encoding="utf-8") as file:
            told = file.read()
        for folder, _, names in os.walk(CHECKS):
            for name in names:
                path = os.path.join(folder, name)
                if "." not in name and os.access(path, os.X_OK):
                    with self.subTest(path):
                        self.assertIn(f"{os.path.relpath(path, CHECKS)}", told)


if __name__ == "__main__":
    unittest.main()
