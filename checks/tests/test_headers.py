"""`checks/check-docs headers`: that the headers of the library agree with the crates, and each disagreement is seen; and
that the example in the comment of each call compiles."""
import re
import shutil
import subprocess
import unittest
from unittest import mock

import common  # for the path of checks
from documents import grammar, headers

# A call of the header, its comment before it; and a call in an example.
COMMENTED = re.compile(r"/\*((?:(?!\*/).)*)\*/\n[\w ]+[ *](tracebench_\w+)\((.*?)\)(?:;| \{)", re.DOTALL)
CALLED = re.compile(r"(tracebench_\w+)\((.*?)\)(?:;|\);)", re.DOTALL)

# A change, and the line that it makes, as it begins.
CHANGES = (
    ('pub extern "C" fn tracebench_resume(', 'pub extern "C" fn tracebench_go_on(',
     "crates/tracebench_c: tracebench_go_on is not as in crates/ffi"),
    ('VERSION: &str = "1.0.0', 'VERSION: &str = "1.0.1', "include/tracebench.h: TRACEBENCH_VERSION is not 1.0.1"),
    ('*b"1.0.0"', '*b"1.0.1"', "crates/ffi/src/version.rt: the version is not 1.0.0"),
    ('text = codes "1.0.0"', 'text = codes "1.0.1"', "crates/ffi/specs/VersionText.antt: the version is not"),
    ("STATUS(GAP, 98u", "STATUS(GAP, 95u", "include/tracebench.h: GAP is 95"),
    ("pub const EMPTY: u32 = 32", "pub const EMPTY: u32 = 31", "include/tracebench.h: EMPTY is 32"),
    ("/// No packet of the profile has these", "/// None has these", "include/tracebench.h: the text of NO_PACKET"),
    ('REPEAT, 97u, "repeat"', 'REPEAT, 97u, "again"', "include/tracebench.h: the text of REPEAT"),
    ("    STATUS(BAD_STATE, ", "    // ", "include/tracebench.h: the text of BAD_STATE is None"),
    ("BadLength = BAD_LENGTH", "BadLength = SHORT", "include/tracebench.h: the text of SHORT"),
    ("    NoEvent = TRACEBENCH_NO_EVENT,\n", "", "include/tracebench.hpp: [('NoEvent', 'NO_EVENT')] are not"),
    ("Gap = TRACEBENCH_GAP", "Gaps = TRACEBENCH_GAP", "include/tracebench.hpp: [('Gap', 'GAP'), ('Gaps', 'GAP')] are"),
    ("    uint64_t log;\n    uint64_t row;\n", "    uint64_t row;\n    uint64_t log;\n",
     "include/tracebench.h: struct tracebench_log_place: row uint64, and crates/ffi has log uint64"),
    ("header sent_header;     /* the header of SENT */\n    struct tracebench_header received_header; /* that of",
     "header received_header; /* that of */\n    struct tracebench_header sent_header; /* that of",
     "include/tracebench.h: struct tracebench_path_end: received_header header, and crates/ffi has sent_header"),
    ("    pub offset: u64,\n    /// How many there are, 1 or more.\n    pub count: u64,",
     "    pub count: u64,\n    pub offset: u64,",
     "include/tracebench.h: struct tracebench_byte_run: offset uint64, and crates/ffi has count uint64"),
    ("    pub hart: u16,\n}", "    pub hart: u32,\n}",
     "include/tracebench.h: struct tracebench_arrival: hart uint16, and crates/ffi has hart uint32"),
    ("    harts: u16,\n    capture: &[u8],", "    capture: &[u8],\n    harts: u16,",
     "include/tracebench.h: tracebench_decode_all: harts uint16, and crates/ffi has const * capture uint8"),
    ("uint32_t version, uint32_t mode,", "uint32_t mode, uint32_t version,",
     "include/tracebench.h: tracebench_capture_of_lines: mode uint32, and crates/ffi has version uint32"),
    ("struct tracebench_lost_run {", "struct tracebench_run_lost {", "include/tracebench.h: run_lost is not one struct"),
    ("TOO_SMALL = 1,", "TOO_SMALL = 2,", "include/tracebench.sv: TOO_SMALL is 2"),
    ("NOTIFY = 2;", "NOTIFY = 2, FORMAT = 0;", "include/tracebench.sv: FORMAT is 0"),
    ("dpi_pack = function", "dpi_packed = function", "include/tracebench.sv: tracebench_dpi_packed is no function of"),
)


class Headers(unittest.TestCase):
    def test_they_agree(self):
        self.assertEqual(headers.check(), [])

    def test_structs_of_the_simulator_have_the_size_of_those_of_the_library(self):
        asserted = re.findall(r"sizeof\(struct tracebench_(\w+)\) == (\d+)",
                              grammar.content("include/tracebench_dpi.c"))
        lies = re.findall(r"^(\w+)_lies : Lies \S+ (\d+)", grammar.content("crates/ffi/proofs/Offsets.antt"), re.MULTILINE)
        self.assertGreater(len(asserted), 10)
        self.assertEqual(set(asserted) - set(lies), set())

    def test_each_disagreement_is_seen(self):
        content = grammar.content
        for old, new, wanted in CHANGES:
            with self.subTest(new), mock.patch.object(grammar, "content", lambda path: content(path).replace(old, new)):
                said = headers.check()
                self.assertTrue(any(line.startswith(wanted) for line in said), said)

    def test_texts_of_the_definitions(self):
        wanted = headers.wanted_texts()
        told = {name: wanted[name] for name in ("UNSUPPORTED", "GAP", "WRONG_EPC", "TOO_MANY_ROWS", "NO_EVENT")}
        self.assertEqual(told, {
            "UNSUPPORTED": {"bad packet: Unsupported"}, "GAP": {"gap"}, "WRONG_EPC": {"WrongEpc"},
            "TOO_MANY_ROWS": {"more than 16777216 rows"}, "NO_EVENT": {"no event has these numbers"}})


def examples():
    """The parameters of each call of the header, and the example in its comment."""
    found = {}
    for comment, name, parameters in COMMENTED.findall(grammar.content(headers.HEADER)):
        lines = re.findall(r"^ \*     +(\S.*?)(?: \*/)?$", comment, re.MULTILINE)
        found[name] = [" ".join(each.split()) for each in parameters.split(",")], "\n".join(lines)
    return found


def variables(example, parameters):
    """The variables of an example, each as the parameters say at which it is handed in."""
    found = {"status": "uint32_t status"}
    for name, words in CALLED.findall(example):
        for word, parameter in zip(words.split(","), parameters[name][0]):
            of, pointer = re.match(r"(?:const )?((?:struct )?\w+) (\*?)", parameter).groups()
            names = re.findall(r"(?<![\w.])(?!sizeof)[a-z]\w*", word)
            if "." in word:
                found.setdefault(names[0], f"struct tracebench_encoder_state {names[0]}")
            elif names and "sizeof" not in word:
                many = "[64]" if pointer and "&" not in word else ""
                found.setdefault(names[0], f"{of} {names[0]}{many}")
                for other in names[1:]:
                    found.setdefault(other, f"size_t {other}")
    return "".join(f"    static {each};\n" for each in found.values())


def refused(example, parameters, *compiler):
    """What a compiler has against an example."""
    text = f"#include <stdio.h>\n#include <tracebench.h>\nvoid example(void);\nvoid example(void) {{\n" \
           f"{variables(example, parameters)}    {{\n{example}\n    }}\n    (void)status;\n}}\n"
    words = *compiler, "-Wall", "-Wextra", "-Werror", "-Wno-unused-variable", "-Iinclude", "-fsyntax-only", "-"
    return subprocess.run(words, input=text, cwd=common.TOP, capture_output=True, text=True, check=False).stderr


class Examples(unittest.TestCase):
    def test_each_call_has_one_that_compiles(self):
        found = examples()
        self.assertEqual(set(headers.contracts("ffi")) - set(found), set())
        self.assertEqual(len(found), 29 + 6)
        compilers = ("cc", "-std=c11", "-x", "c"), ("c++", "-std=c++17", "-x", "c++")
        for compiler in (compiler for compiler in compilers if shutil.which(compiler[0])):
            for name, (_, example) in found.items():
                with self.subTest(name, by=compiler[0]):
                    self.assertIn(f"{name}(", example)
                    self.assertLessEqual(example.count("\n"), 2)
                    self.assertEqual(refused(example, found, *compiler), "")

    @unittest.skipUnless(shutil.which("cc"), "no compiler")
    def test_one_that_does_not_compile_is_seen(self):
        found = examples()
        for old, new in ((", 64", ""), ("3, events", "events, 3"), ("&taken, &count", "&taken"), ("status =", "status +")):
            example = found["tracebench_feed_all"][1]
            self.assertIn(old, example)
            self.assertNotEqual(refused(example.replace(old, new), found, "cc", "-std=c11", "-x", "c"), "", new)


if __name__ == "__main__":
    unittest.main()
