"""`checks/check-docs manual completions`: that each kind of disagreement with the grammar is seen."""
import os
import shutil
import subprocess
import unittest
from unittest import mock

import common

from documents import completions, grammar, manual

BASH = [("sal", "salvage"), ("list --s", "--symbols --salvage"), ("list --sy", "--symbols"), ("help de", "decode"), ("list --base 8", ""),
        ("list --f", "--format"), ("compare --a", "--also"), ("compare --also 1", "")]
LIST = "&[SEARCH, ONLY, SYMBOLS, CAPTURE_PROGRESS, CAPTURE]"
# A file of the crates, a text of it, what stands in its place, and what some line says then.
CHANGES = [
    (grammar.GRAMMAR, LIST, "&[FULL, CAPTURE]", "tracebench-dump.1.scd: OPTIONS has"),
    (grammar.GRAMMAR, LIST, "&[FULL, CAPTURE]", "no struct `dump [--full] CAPTURE`"),
    (grammar.GRAMMAR, LIST, "&[FULL, CAPTURE]", "help.transcript: the help of dump has"),
    (grammar.GRAMMAR, LIST, "&[IMAGE]", "tracebench-dump.1.scd: ARGUMENTS has"),
    (grammar.GRAMMAR, LIST, "&[IMAGE]", "tracebench-dump.1.scd: SYNOPSIS is not"),
    (grammar.GRAMMAR, "as text\"", "as lines\"", "tracebench-dump.1.scd: NAME does not say"),
    (grammar.GRAMMAR, '"salvage",', '"rescue",', "tracebench-rescue.1.scd: no page for"),
    (grammar.GRAMMAR, '"salvage",', '"rescue",', "tracebench-salvage.1.scd: no subcommand has this page"),
    (grammar.GRAMMAR, "about: \"Write what is left", "about: \"Print what is left", "tracebench.1.scd: SUBCOMMANDS has"),
    (grammar.RULES, '"16"', '"17"', "help.transcript: the help of bench has"),
    (grammar.RULES, "Reading::Repeated(", "Reading::Text(", "tracebench-check.1.scd: SYNOPSIS is not"),
    (grammar.RULES, '"B2=FILE"', '"FILE"', "help.transcript: the help of list has"),
    (manual.HEADER, "tracebench_pack(", "tracebench_packed(", "tracebench.3.scd: no word of tracebench_packed"),
    ("tools/record", '"--user"', '"--users"', "tracebench-record.1.scd: OPTIONS has"),
    ("tools/timeline", '"--strip"', '"--strips"', "tracebench-timeline.1.scd: OPTIONS has"),
    ("tools/framing/settings.py", '"--set"', '"--sets"', "tracebench-wrap.1.scd: OPTIONS has"),
    ("tools/framing/settings.py", '"--set"', '"--sets"', "tracebench-unwrap.1.scd: OPTIONS has"),
]


def changed(path, old, new):
    """The crates as they are, but for one text of one file."""
    content = grammar.content
    return mock.patch.object(grammar, "content", lambda each: content(each).replace(old, new) if each == path else (
        content(each)))


class Manual(unittest.TestCase):
    def test_a_grammar_that_disagrees(self):
        for path, old, new, wanted in CHANGES:
            with self.subTest(new), changed(path, old, new):
                self.assertTrue(any(wanted in line for line in manual.check()))

    def test_a_page_that_disagrees(self):
        page = manual.page
        for old, new, wanted in [("default 16", "default 17", "--capacity does not say"),
                                 ("@statuses@", "", "EXIT STATUS has no line @statuses@")]:
            with self.subTest(old), mock.patch.object(manual, "page", lambda name: page(name).replace(old, new)):
                self.assertTrue(any(wanted in line for line in manual.check()))

    def test_a_form_that_is_not_read(self):
        with changed(grammar.RULES, "Reading::Required(\"base\", \"B\")", "other()"), self.assertRaises(grammar.Unread):
            manual.check()

    @unittest.skipUnless(shutil.which("scdoc"), "no scdoc")
    def test_each_page_is_converted(self):
        names = [*manual.OTHERS, *(f"tracebench-{one.name}.1" for one in grammar.subcommands())]
        for name in names:
            with self.subTest(name):
                text = manual.full(manual.page(name))
                ran = subprocess.run(["scdoc"], input=text, capture_output=True, text=True, check=False)
                self.assertEqual((ran.returncode, ran.stderr, "@" in text), (0, "", False))


class Completions(unittest.TestCase):
    def test_a_grammar_that_grows(self):
        with changed(grammar.GRAMMAR, LIST, "&[FULL, CAPTURE]"):
            self.assertEqual(len(completions.check()), len(completions.FILES))

    @unittest.skipUnless(shutil.which("bash"), "no bash")
    def test_bash(self):
        script = 'source "$0"; COMP_WORDS=(tracebench "$@"); COMP_CWORD=$#; _tracebench; echo "${COMPREPLY[*]}"'
        path = os.path.join(common.TOP, completions.FOLDER, "tracebench.bash")
        for words, wanted in BASH:
            with self.subTest(words):
                given = ["bash", "-c", script, path, *words.split()]
                ran = subprocess.run(given, capture_output=True, text=True, check=True)
                self.assertEqual(ran.stdout, wanted + "\n")


if __name__ == "__main__":
    unittest.main()
