"""`tools/definitions`: what it prints of a crate, of a definition and of a word."""
import os
import subprocess
import sys
import unittest

from support import TOOLS, script

SCRIPT = os.path.join(TOOLS, "definitions")
definitions = script(SCRIPT)

NOTIONS = """-- What was sent.
use Rattle.std.specs.Prelude.{ℕ}

-- The first,
-- in two lines.
abbrev pub first : ℕ → ℕ
first n = n

abbrev pub second : ℕ
second = 2

-- Not for others.
abbrev own : ℕ
own = 3

module _ (n : ℕ) where
  -- A | B.
  pub record Third : Type 0 where
    pub one : n ≡ 1
"""


def printed(*words):
    ran = subprocess.run([sys.executable, "-B", SCRIPT, *words], capture_output=True, text=True, check=False)
    return ran.returncode, ran.stdout, ran.stderr


class Definitions(unittest.TestCase):
    def test_the_definitions_of_a_file(self):
        own, found = definitions.entries(NOTIONS)
        self.assertEqual(own, "What was sent.")
        self.assertEqual([(names, comment) for names, comment, _ in found],
                         [(["first", "second"], "The first, in two lines."), (["Third"], "A | B.")])

    def test_the_text_of_a_definition(self):
        texts = [text for _, _, text in definitions.entries(NOTIONS)[1]]
        first = "abbrev pub first : ℕ → ℕ\nfirst n = n\n\nabbrev pub second : ℕ\nsecond = 2"
        self.assertEqual(texts, [first, "  pub record Third : Type 0 where\n    pub one : n ≡ 1"])

    def test_a_definition_without_a_comment_is_kept(self):
        text = "-- A file.\nuse A.{b}\n\nabbrev pub first : ℕ\nfirst = 1\n"
        self.assertEqual([(names, comment) for names, comment, _ in definitions.entries(text)[1]], [(["first"], "")])

    def test_a_file_comes_after_those_that_it_uses(self):
        for crate in definitions.crates():
            seen = set()
            for name, text in definitions.files_of(crate).items():
                own = {other for other in definitions.files_of(crate) if f"use Rattle.{crate}.specs.{other}." in text}
                self.assertLessEqual(own - {name}, seen, name)
                seen.add(name)

    def test_all_are_printed(self):
        status, text, errors = printed()
        self.assertEqual((status, errors), (0, ""))
        for name in "# Words", "# isa", "isa/specs/Privilege.antt", "IsPrivilege":
            self.assertIn(f"{name}\n", text)

    def test_a_crate(self):
        status, text, _ = printed("isa")
        self.assertEqual(status, 0)
        self.assertEqual(text.split("\n")[0], "# isa")
        self.assertIn("  IsAddress\n    An even number of 64 bits.", text)

    def test_a_definition(self):
        status, text, _ = printed("IsAddress")
        self.assertEqual((status, text.split("\n")[0]), (0, "isa/specs/Address.antt"))
        self.assertIn("\nabbrev pub IsAddress : ", text)

    def test_a_word(self):
        status, text, _ = printed("lost")
        self.assertEqual((status, text.split(",")[0]), (0, "lost"))
        self.assertIn(".antt: ", text)

    def test_a_name_that_nothing_has(self):
        self.assertEqual(printed("nothing_of_this_name"), (1, "", ""))


if __name__ == "__main__":
    unittest.main()
