"""How `checks/planted-bodies` puts many wrong bodies into one text, and that each can be planted."""
import tempfile
import unittest

import common

import crate_list
from crate_list import content
from kept import Kept, sum_of
from planting import switches
from planting.bodies import Body, Unjudged, all_bodies, wrong_text
from planting.crates import Crates

TEXT = """use a::{B};

pub(crate) const SIZE: u32 = 3;

/// Has a clause.
pub fn first<A: Read>(
    a: A,
) -> u32
where
    A: Send,
    requires { a ≡ 1 }
{
    let found = a;
    found
}

trait Named {
    fn name(&self) -> u8;

    fn nothing(&self) {}
}

impl Named for B {
    fn name(&self) -> u8 {
        if self.a {
            return 1;
        }
        2
    }
}
"""


def body(*pairs, name="x"):
    return Body(name, "c", "f.rt", pairs)


class Spans(unittest.TestCase):
    def test_bodies_of_functions_and_of_methods(self):
        bodies = [TEXT[start:end] for start, end in switches.body_spans(TEXT)]
        self.assertEqual(bodies, [
            "    let found = a;\n    found\n",
            "        if self.a {\n            return 1;\n        }\n        2\n",
        ])

    def test_each_function_of_the_crates_is_whole(self):
        """As many braces are closed as are opened, but for those in texts: only such functions are looked at."""
        for each in {body.path() for body in all_bodies()}:
            text = content(f"{crate_list.TOP}/{each}")
            for start, end in switches.body_spans(text):
                if '"' not in text[start:end] and "'" not in text[start:end]:
                    self.assertEqual(text.count("{", start, end), text.count("}", start, end), each)


class Switches(unittest.TestCase):
    def switched(self, *bodies):
        return switches.switched(TEXT, list(enumerate(bodies, 1)), "p")

    def test_two_bodies_of_one_function(self):
        end = ("\n    found\n}", "\n    let _ = found;\n    1\n}")
        text, alone = self.switched(body(("    found\n", "    0\n")), body(end))
        self.assertEqual(alone, {})
        self.assertIn("""    requires { a ≡ 1 }
{
    if p(1) {
    return {
    let found = a;
    0
    };
    }
    if p(2) {
    return {
    let found = a;
    let _ = found;
    1
    };
    }
    let found = a;
    found
}
""", text)
        self.assertTrue(text.endswith('\nunsafe extern "C" {\n    safe fn p(number: u32) -> bool;\n}\n'))
        rows = text.split("\n")
        line = rows.index("    let _ = found;") + 1
        self.assertEqual(switches.number_at(text, line, "p"), 2)
        self.assertIsNone(switches.number_at(text, rows.index("trait Named {") + 1, "p"))

    def test_a_body_over_two_functions(self):
        text, alone = self.switched(body(("    found\n", "    0\n"), ("        2\n", "        3\n")))
        self.assertEqual((alone, text.count("if p(1) {")), ({}, 2))

    def test_names_and_items_are_there_for_all(self):
        item = ("\n/// Has", "\nstruct C;\n\n/// Has")
        both = body(("use a::{B};", "use a::{B, C};"), item, ("    found\n", "    C\n"))
        text, alone = self.switched(both, both)
        self.assertEqual(alone, {})
        self.assertEqual([text.count(each) for each in ("use a::{B, C};", "struct C;", "if p(")], [1, 1, 2])

    def test_a_constant_or_a_signature_is_planted_alone(self):
        constant, signature = body(("= 3;", "= 4;")), body((") -> u32\n", ") -> u16\n"), name="y")
        text, alone = self.switched(constant, signature)
        self.assertEqual((text, {*alone}), (TEXT, {constant, signature}))


class Bodies(unittest.TestCase):
    def test_each_can_be_planted(self):
        for each in all_bodies():
            with self.subTest(each.name):
                text = content(f"{crate_list.TOP}/{each.path()}")
                self.assertNotEqual(wrong_text(text, each), text)

    def test_each_has_a_name_of_its_own(self):
        names = [each.name for each in all_bodies()]
        self.assertEqual(sorted({*names}), sorted(names))

    def test_a_text_that_is_not_there_is_reported(self):
        with self.assertRaisesRegex(Unjudged, "a text is 0 times in f.rt, and not once: none"):
            wrong_text(TEXT, body(("none", "some")))

    def test_each_crate_with_bodies_has_tests(self):
        crates = Crates()
        for crate in {each.crate for each in all_bodies()}:
            self.assertTrue(crates.tests_of(crate), crate)
        self.assertEqual(crates.tests_of("listing")[0], "path_vectors")
        self.assertEqual(crates.tests_of("funnel")[0], "channel_vectors")


class KeptResults(unittest.TestCase):
    def test_what_is_kept_is_read_again(self):
        with tempfile.TemporaryDirectory() as folder:
            kept = Kept(f"{folder}/kept")
            kept.keep(sum_of("code", body(name="one")), failed="a::b")
            kept.keep(sum_of("code", body(name="other")), failed=None)
            again = Kept(f"{folder}/kept")
            self.assertEqual(again.row(sum_of("code", body(name="one")))["failed"], "a::b")
            self.assertIsNone(again.row(sum_of("code", body(name="other")))["failed"])
            self.assertIsNone(again.row(sum_of("other code", body(name="one"))))

    def test_the_sum_of_a_crate_is_that_of_its_files(self):
        code = crate_list.sum_of_code({"isa"}, "src")
        self.assertEqual(code, crate_list.sum_of_code({"isa"}, "src"))
        self.assertNotEqual(code, crate_list.sum_of_code({"isa", "retire"}, "src"))
        self.assertNotEqual(code, crate_list.sum_of_code({"isa"}, "src", "specs"))
