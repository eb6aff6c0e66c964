"""Each must-fail edit, in the gate and beside it, can be applied: its texts are once in their files."""
import glob
import io
import os
import re
import shutil
import tempfile
import unittest
from contextlib import redirect_stdout

from common import CHECKS, TOP, script

from crate_list import content

LINE = re.compile(r"^(file|old|new): ?(.*)$", re.M)


def reason_against(edit, crate):
    """Why an edit cannot be applied to a crate, or None."""
    file, old, texts = None, None, {}
    for what, said in LINE.findall(content(edit)):
        if what == "file":
            file = f"{TOP}/crates/{crate}/{said}"
            texts.setdefault(file, content(file))
        elif what == "old":
            old = said
        elif texts[file].count(old) != 1:
            return f"{texts[file].count(old)} times: {old}"
        else:
            texts[file] = texts[file].replace(old, said)
    return None if any(text != content(file) for file, text in texts.items()) else "changes nothing"


class Edits(unittest.TestCase):
    def can_be_applied(self, pattern, place):
        edits = glob.glob(f"{TOP}/{pattern}")
        self.assertGreater(len(edits), 20)
        for edit in edits:
            crate = edit.split("/")[place]
            with self.subTest(crate=crate, edit=os.path.basename(edit)):
                self.assertIsNone(reason_against(edit, crate))

    def test_those_of_the_gate(self):
        self.can_be_applied("crates/*/must-fail/*.edit", -3)

    def test_those_beside_it(self):
        self.can_be_applied("checks/long-edits/*/*.edit", -2)


CODE = """//! Some code.

const MOST: usize = 3;

fn plain(most: usize) -> usize {
    most
}

impl<'a> Shelf<'a> {
    /// A comment.
    pub(crate) fn put(&mut self)
        requires { 1 }
    {
        self.count += 1;
    }
}

impl<'a> Task<Row> for Shelf<'a> {
    fn call(&self) -> usize {
        self.count
    }
}

impl<W: Deref<Target = Vec<u8>>> fmt::Display for Fault<'_, W> {
    fn fmt(&self) -> usize {
        self.text
    }
}

impl<'s> Task<Group, Result<Vec<u8>, row::Failed>> for Rows<'s> {
    fn call(&self) -> usize {
        self.rows
    }
}

pub trait Named {
    fn name(&self) -> usize {
        0
    }
}

pub extern "C" fn called() -> usize {
    4
}
"""


class Functions(unittest.TestCase):
    """Which function `long-edits --alone` checks."""

    def test_where_a_text_is(self):
        edits = script(f"{CHECKS}/long-edits/long-edits")
        for text, wanted in [
            ("MOST: usize", None),
            ("fn plain(most", "plain"),
            ("    most\n", "plain"),
            ("impl<'a> Shelf", None),
            ("requires { 1 }", "Shelf::put"),
            ("count += 1", "Shelf::put"),
            ("        self.count\n", "ShelfTaskRow::call"),
            ("        self.text\n", "FaultDisplay::fmt"),
            ("        self.rows\n", "RowsTaskGroupResultVecU8RowFailed::call"),
            ("        0\n", None),
            ("    4\n", "called"),
        ]:
            with self.subTest(text):
                self.assertEqual(edits.function_at(CODE, CODE.index(text)), wanted)


SMALL = """//! A crate of a test.
#![tactic(auto)]

ghost use Rattle.std.specs.Prelude.{◌≡◌};

/// Gives a number back.
pub fn same(number: u32) -> u32
    ensures { result ≡ number }
{
    number
}

/// Gives it back by another call.
pub fn again(number: u32) -> u32
    ensures { result ≡ number }
{
    same(number)
}
"""


def written(path, text):
    os.makedirs(os.path.dirname(path), exist_ok=True)
    with open(path, "w", encoding="utf-8") as file:
        file.write(text)


@unittest.skipUnless(shutil.which("rt"), "the kit is not there")
class OfGate(unittest.TestCase):
    """Edits over what `rt ci` proved, of a crate that has no other below it."""

    def tried(self, body, times=1, caller=None):
        """What is said of an edit with another body, and of one of the function that calls it, if there is one; and whether
        all are refused, the last of so many times."""
        edits, here = script(f"{CHECKS}/long-edits/long-edits"), os.getcwd()
        rt = script(f"{TOP}/tools/from-gate").kit(used=edits.USED)
        with tempfile.TemporaryDirectory() as folder:
            rt.STORE = f"{folder}/kept"
            for name in ("checkout", "copy"):
                written(f"{folder}/{name}/crates.txt", "low:\n")
                written(f"{folder}/{name}/HANDLES", "Handles allowed: none.\n")
                written(f"{folder}/{name}/crates/low/src/lib.rt", SMALL)
            for name, old, new in [("another", "number", body)] + [("caller", "same(number)", caller)] * bool(caller):
                text = f"file: src/lib.rt\nold:     {old}\nnew:     {new}\n"
                written(f"{folder}/checkout/crates/low/must-fail/{name}.edit", text)
            for _ in range(times):
                with redirect_stdout(io.StringIO()) as said:
                    is_refused = edits.try_those_of_gate(f"{folder}/copy", 1, f"{folder}/checkout", rt)
            os.chdir(here)
            return said.getvalue(), is_refused

    def test_a_wrong_body_is_refused(self):
        said, is_refused = self.tried("number / 2")
        self.assertIn("must-fail low/another.edit: refused: fn low::same: no proof", said)
        self.assertIn("1 of 1 edits refused, 0 of them by an earlier run", said)
        self.assertTrue(is_refused)

    def test_it_is_not_tried_again(self):
        if not hasattr(script(f"{TOP}/tools/from-gate").kit(used=()), "Kept"):
            self.skipTest("the kit keeps nothing")
        said, is_refused = self.tried("number / 2", times=2)
        self.assertIn("1 of 1 edits refused, 1 of them by an earlier run", said)
        self.assertTrue(is_refused)

    def test_a_body_that_is_right_is_told(self):
        said, is_refused = self.tried("number + 0", times=2)
        self.assertIn("must-fail low/another.edit: NOT REFUSED", said)
        self.assertIn("0 of 1 edits refused, 0 of them by an earlier run", said)
        self.assertFalse(is_refused)

    def test_a_caller_is_refused_for_its_own_body(self):
        said, is_refused = self.tried("number / 2", caller="if number == 7 { return 8; } same(number)")
        self.assertIn("must-fail low/caller.edit: refused: fn low::again: no proof: expected answers", said)
        self.assertIn("2 of 2 edits refused", said)
        self.assertTrue(is_refused)

    def test_a_caller_that_is_right_is_told(self):
        said, is_refused = self.tried("number / 2", caller="same(number + 0)")
        self.assertIn("must-fail low/another.edit: refused", said)
        self.assertIn("must-fail low/caller.edit: NOT REFUSED", said)
        self.assertFalse(is_refused)
