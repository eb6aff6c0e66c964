"""`checks/check-docs`: that the documents agree, and that each kind of disagreement is seen."""
import os
import subprocess
import sys
import unittest
from unittest import mock

from common import CHECKS

import calls
from documents import contracts, definitions, facts, first_use, lengths



def call(*names, nameless=0, needs=False, fields=()):
    heads = [("ensures", name) for name in names] + [("ensures", "")] * nameless + [("requires", "")] * needs
    return calls.Call("one.rt", heads, False, fields)


PUBLIC = {
    "etrace::one": {
        "go": call("text", "begun", needs=True),
        "Port::send": call("sent"),
        "Port::finish": call(nameless=1, fields=("gone", "left")),
        "wait": call(),
    },
    "etrace::laws": {"a_theorem": call("complete")},
}
GOOD = """# Contracts

## `etrace::one`

**`go`**. Needs: an outlet.
- The text was appended (`text`), or a prefix (`begun`). Under 2 (see `go`).

**`Port::send`, `finish`**
- One message more (`sent`).
- The port is gone.

**`wait`**
- It has no clause.

## `etrace::laws`

- `a_theorem`: of all (`complete`).

## What no contract says

- Nothing (`else`).
"""
SOURCE = '''\
impl<'a> Port<'a> {
    /// Sends.
    pub fn send<W: Write>(
        &mut self,
        sink: &mut W,
    ) -> Result<(), Fault>
        requires { 1 ≤ self.old.left }
        ensures sent { OnOk result (Appends sink.old
            sink.new) }
        // A comment.
        ensures refused { IfErr result (λ why. why ≡ Fault.Full) }
    {
        let ensures = 1;
    }

    fn own(&self) -> u8 {
        1
    }

    pub fn finish(self) -> u64 {
        0
    }

    pub fn settle(&mut self)
        ensures { Settles self.old
            self.new }
    {
    }
}

pub trait Gate {
    /// Waits.
    fn before(&self)
        ensures { Unit }
        ensures kept { self.now ≡ self.now };
}

pub fn go()
    ensures text { Unit }
{}

impl Gate for Port<'_> {
    fn before(&self) {}
}
'''
RECORDS = {"Settles": ["sent", "taken"]}
# A text of docs/FORMATS.md or of the help, what stands in its place, and the line that is said then.
CHANGES = [
    ("open of another mode`", "open of a mode`", "docs/FORMATS.md: no error line has `open of another mode`"),
    ("`out of memory` | 3", "`no memory` | 3", "docs/FORMATS.md: no definition has `no memory`"),
    ("at most 31 |", "at most 32 |", "docs/FORMATS.md: the outcomes of a packet: at most 32, and "),
    ("default 16", "default 17", "crates/cli/src/rules.rt: the help of --capacity does not say"),
    ("  2  The arguments", "  2  The words", "crates/cli/src/help.rt: status 2 is not `The arguments"),
    ("| `--search` |", "| `--find` |", "docs/FORMATS.md: no option --find of dump"),
    ("[--search] [--only", "[--only", "docs/FORMATS.md: no line: tracebench dump"),
    ("| data trace |", "| data traces |", "README.md: no word of what is left out: data traces"),
]


class Agreeing(unittest.TestCase):
    def test_the_documents_agree(self):
        for part in ("contracts", "definitions", "lengths", "facts", "first_use", "manual", "completions"):
            with self.subTest(part):
                words = [sys.executable, "-B", os.path.join(CHECKS, "check-docs"), part]
                ran = subprocess.run(words, capture_output=True, text=True, check=False)
                self.assertEqual((ran.returncode, ran.stdout, ran.stderr), (0, "", ""))

    def test_a_part_that_is_none(self):
        words = [sys.executable, "-B", os.path.join(CHECKS, "check-docs"), "none"]
        ran = subprocess.run(words, capture_output=True, text=True, check=False)
        self.assertEqual((ran.returncode, ran.stdout), (2, ""))


class Calls(unittest.TestCase):
    def test_the_calls_of_a_file(self):
        found = dict(calls.calls_in("port.rt", SOURCE.split("\n"), {"Port", "Gate", "go"}, RECORDS))
        seen = {name: (call.clauses, call.nameless, call.needs, call.of_trait, call.fields) for name, call in found.items()}
        wanted = {
            "Port::send": ({"sent", "refused"}, 0, True, False, set()),
            "Port::finish": (set(), 0, False, False, set()),
            "Port::settle": (set(), 1, False, False, {"sent", "taken"}),
            "Gate::before": ({"kept"}, 1, False, True, set()),
            "go": ({"text"}, 0, False, False, set()),
        }
        self.assertEqual(seen, wanted)
        self.assertEqual([name for name, call in found.items() if call.is_bare()], ["Port::finish"])

    def test_what_the_root_does_not_hand_on(self):
        self.assertEqual([name for name, _ in calls.calls_in("port.rt", SOURCE.split("\n"), {"go"}, RECORDS)], ["go"])


class Contracts(unittest.TestCase):
    def says(self, text, *wanted):
        self.assertEqual(contracts.wrong(text, PUBLIC), [f"docs/CONTRACTS.md{line}" for line in wanted])

    def test_a_good_document(self):
        self.says(GOOD)

    def test_a_clause_that_is_left_out(self):
        left_out = GOOD.replace(", or a prefix (`begun`)", "")
        self.says(left_out, ": `go` of `etrace::one` has no word of `begun`")
        self.says(left_out.replace("Under 2", "See the contract, under 2").replace("See the", "see the"))
        self.says(GOOD.replace(" (`complete`)", ""), ":17: no clause is named for: `a_theorem`: of all.",
                  ": `a_theorem` of `etrace::laws` has no word of `complete`")

    def test_a_call_of_which_no_clause_is_named(self):
        self.says(GOOD.replace("One message more (`sent`).", "One more: see the contract; no clause."),
                  ": `Port::send` of `etrace::one` has no word of `sent`")

    def test_the_fields_of_a_record(self):
        self.says(GOOD.replace("gone.", "gone (`gone`)."), ": `Port::finish` of `etrace::one` has no word of `left`")
        self.says(GOOD.replace("gone.", "gone (`gone`), and none is left (`left`)."))

    def test_a_clause_that_is_none(self):
        self.says(GOOD.replace("(`begun`)", "(`begun`, `ended`)"), ":5: no clause of `go`: `ended`")

    def test_a_clause_of_another_call(self):
        self.says(GOOD.replace("(`begun`)", "(`begun`, `sent`)"), ":5: no clause of `go`: `sent`")

    def test_a_line_that_no_clause_says(self):
        self.says(GOOD.replace("- The port is gone.", "- The port is gone.\n- It takes no memory."),
                  ":8: no clause is named for: It takes no memory.")
        self.says(GOOD.replace("- The port is gone.", "- The port is gone.\n- Its memory is in no clause."))
        self.says(GOOD.replace("- The port is gone.\n", "- The port is gone.\n\nIt is safe.\n"),
                  ":8: no clause is named for: It is safe.")

    def test_a_call_without_clauses(self):
        self.says(GOOD.replace("It has no clause.", "It waits."), ":12: no clause is named for: It waits.",
                  ":12: a call of `wait` has no clause, and that is not said")

    def test_what_a_call_needs(self):
        self.says(GOOD.replace(" Needs: an outlet.", ""), ":5: what `go` needs is not said")

    def test_more_points_than_are_read(self):
        self.says(GOOD.replace("- One", "- One message more (`sent`).\n" * 6 + "- One"), ":8: more than 6 lines")

    def test_a_call_that_is_left_out(self):
        self.says(GOOD.replace(", `finish`", "").replace("- The port is gone.\n", ""),
                  ": no item for `Port::finish` of `etrace::one`")

    def test_a_call_that_is_none(self):
        self.says(GOOD.replace("`finish`", "`finish`, `stop`"), ":8: no call `Port::stop` of `etrace::one`")

    def test_a_call_in_two_items(self):
        other = "**`go`** needs more\n- A prefix (`begun`).\n\n**`wait`**"
        self.says(GOOD.replace(", or a prefix (`begun`)", "").replace("**`wait`**", other))

    def test_what_the_modules_re_export(self):
        names = contracts.sections()
        self.assertTrue({"check", "LegalLog::new", "ProgramOver::add"} <= names["etrace::logs"].keys())
        self.assertIn("listed_rows_are_read_back", names["etrace::laws"])
        self.assertTrue({"command"} <= names["commands"].keys() and {"tracebench_push_all"} <= names["ffi"].keys())


class Lengths(unittest.TestCase):
    def says(self, text, *wanted):
        self.assertEqual(list(lengths.wrong("A.md", text, 3)), [f"A.md{line}" for line in wanted])

    def test_what_may_be(self):
        self.says("a" * 300 + "\n| " + "a" * 198 + "\n\n")
        self.says("```\n" + "a" * 400 + "\n```\n")

    def test_what_is_too_long(self):
        self.says("a" * 301 + "\n| " + "a" * 199 + "\n", ":1: 301 characters, more than 300",
                  ":2: 201 characters, more than 200")
        self.says("a\n\na\na\n", ": 4 lines, more than 3")


class Definitions(unittest.TestCase):
    def says(self, own, found, *wanted):
        self.assertEqual(list(definitions.wrong_file("isa/specs/One.antt", own, found)),
                         [f"isa/specs/One.antt: no comment says {what}" for what in wanted])

    def test_a_definition_without_a_comment(self):
        self.says("All.", [(["first", "second"], "The first.", "")])
        self.says("All.", [(["first", "second"], "", "")], "what first is")
        self.says("", [(["first"], "The first.", "")], "what the file has")


class Facts(unittest.TestCase):
    def test_the_number_of_a_limit(self):
        limits = {"at most 16,777,216 bytes": 1 << 24, "1 to 18 bytes": 18, "below 2^63": 1 << 63, "at most 31": 31}
        self.assertEqual({limit: facts.number_of(limit) for limit in limits}, limits)

    def test_the_tables_have_rows(self):
        counts = {"Exit statuses": 4, "Limits": 19, "What of E-Trace is left out": 12}
        self.assertEqual({title: len(facts.rows(title)) for title in counts}, counts)
        self.assertEqual(facts.rows("Exit statuses")[0], ["0", "All is written, and all is good"])

    def test_a_text_that_disagrees(self):
        content = facts.content
        for old, new, wanted in CHANGES:
            changed = mock.patch.object(facts, "content", lambda path: content(path).replace(old, new))
            with self.subTest(old), changed:
                self.assertEqual(len([line for line in facts.check() if line.startswith(wanted)]), 1)

    def test_a_constant(self):
        self.assertEqual((facts.value("payload", "MOST_BYTES"), facts.value("payload", "MOST_NONE")), (18, None))


class FirstUse(unittest.TestCase):
    def test_the_excerpt_is_of_the_file(self):
        lines = first_use.code()
        self.assertTrue(all(not line or line in lines or "    " + line in lines for line in first_use.excerpt()))


if __name__ == "__main__":
    unittest.main()
