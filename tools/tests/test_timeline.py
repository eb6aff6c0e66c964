"""`tools/timeline`: what an instruction does to the stack, what a recorded program did by its source, and that each file is well made."""
import collections
import json
import os
import shutil
import subprocess
import sys
import tempfile
import unittest

from support import BASE, MRET, NOP, RECORDED, RET, TOOLS, at, image_of, record, recorded

from following import calls, symbols
from following.stack import MOST_FRAMES, Place, Stack
from recording.image import Image

try:
    import jsonschema
except ImportError:
    jsonschema = None
HAS_ELF = subprocess.run([sys.executable, "-c", "import elftools"], capture_output=True).returncode == 0
EVENT = {
    "type": "object",
    "required": ["ph", "pid", "name"],
    "properties": {
        "ph": {"enum": ["B", "E", "i", "M"]}, "pid": {"type": "integer"}, "tid": {"type": "integer"},
        "ts": {"type": "integer", "minimum": 0}, "name": {"type": "string"}, "cat": {"enum": ["function", "trap", "message"]},
        "s": {"const": "t"}, "args": {"type": "object"}},
    "additionalProperties": False,
}
ENDS = {**EVENT, "required": ["ph", "pid", "tid", "ts"]}


def jalr(link, source):
    return link << 7 | source << 15 | 0x67


def jal(offset, link=1):
    return (offset >> 20 & 1) << 31 | (offset >> 1 & 0x3FF) << 21 | (offset >> 11 & 1) << 20 | (offset >> 12 & 0xFF) << 12 | link << 7 | 0x6F


class Kinds(unittest.TestCase):
    """By the E-Trace specification's table of jump types, for the link registers x1 and x5."""

    def test_jumps_to_a_register(self):
        for link, source, want in (
            (0, 1, calls.RETURN), (0, 5, calls.RETURN), (10, 1, calls.RETURN), (0, 6, calls.JUMP), (10, 10, calls.JUMP),
            (1, 10, calls.CALL), (5, 10, calls.CALL), (1, 1, calls.CALL), (5, 5, calls.CALL), (1, 5, calls.SWAP), (5, 1, calls.SWAP),
        ):
            self.assertEqual(calls.kind_of(jalr(link, source)), want, (link, source))

    def test_compressed_jumps_to_a_register(self):
        c_jr, c_jalr = (lambda source: source << 7 | 0x8002), (lambda source: source << 7 | 0x9002)
        for word, want in (
            (c_jr(1), calls.RETURN), (c_jr(5), calls.RETURN), (c_jr(10), calls.JUMP),
            (c_jalr(1), calls.CALL), (c_jalr(5), calls.SWAP), (c_jalr(10), calls.CALL), (0x9002, calls.PLAIN),
        ):
            self.assertEqual(calls.kind_of(word), want, hex(word))

    def test_others(self):
        for word, want in (
            (jal(8), calls.CALL), (jal(8, 5), calls.CALL), (jal(8, 0), calls.JUMP), (jal(8, 10), calls.JUMP), (0xA001, calls.JUMP),
            (0x00000463, calls.BRANCH), (0xC081, calls.BRANCH), (MRET, calls.FROM_TRAP), (0x10200073, calls.FROM_TRAP), (NOP, calls.PLAIN),
        ):
            self.assertEqual(calls.kind_of(word), want, hex(word))


class Told:
    """Keeps the stack after each row, as names."""

    def __init__(self):
        self.events = []

    def begin(self, stack, frame):
        self.events.append(("begin", frame.name, stack.rows))

    def end(self, stack, frame):
        self.events.append(("end", frame.name, stack.rows))

    def trap(self, stack, name, address):
        self.events.append(("trap", name, stack.rows))

    def gap(self, stack, text):
        self.events.append(("gap", text, stack.rows))


class Stacks(unittest.TestCase):
    """Rows by hand. A function has 8 words: `a` from 0 on, `b` from 8 on and so on."""

    def run_of(self, words, rows, with_symbols=True):
        """The stack after each row: a place of the image, ("trap", place), or "gap"."""
        image = [NOP] * 64
        for place, word in words.items():
            image[place] = word
        program = Image(BASE, image_of(*image))
        names = symbols.Symbols(b"".join(b"%x T %c\n" % (at(8 * place), ord("a") + place) for place in range(8)) if with_symbols else b"")
        self.told = Told()
        stack, stacks = Stack(0, names, self.told), []
        for row in rows:
            if row == "gap":
                stack.gap("gap: 1 messages")
            elif isinstance(row, tuple):
                stack.trap(at(row[1]), 2, 7)
            else:
                itype = 6 if image[row] & 0x7F == 0x67 else 0
                stack.retire(Place(program, names, at(row), itype))
            stacks.append(" ".join(frame.name.replace("interrupt 7", "!") for frame in stack.frames))
        return stacks

    def test_calls_and_returns(self):
        words = {1: jal(28), 9: jal(28), 17: RET, 10: RET}
        self.assertEqual(self.run_of(words, [0, 1, 8, 9, 16, 17, 10, 2]), ["a", "a", "a b", "a b", "a b c", "a b c", "a b", "a"])

    def test_a_recursion(self):
        words = {1: jal(28), 9: jal(-4), 10: RET}
        stacks = self.run_of(words, [1, 8, 9, 8, 9, 8, 10, 10, 10, 2])
        self.assertEqual(stacks, ["a", "a b", "a b", "a b b", "a b b", "a b b b", "a b b b", "a b b", "a b", "a"])

    def test_tail_calls(self):
        words = {1: jal(28), 9: jal(28, 0), 17: jalr(0, 6), 25: RET}
        self.assertEqual(self.run_of(words, [1, 8, 9, 16, 17, 24, 25, 2]), ["a", "a b", "a b", "a c", "a c", "a d", "a d", "a"])

    def test_a_jump_within_a_function(self):
        self.assertEqual(self.run_of({1: jal(8, 0)}, [0, 1, 3]), ["a"] * 3)

    def test_a_jump_over_frames(self):
        words = {1: jal(28), 9: jal(28), 17: jal(28), 25: RET}
        self.assertEqual(self.run_of(words, [1, 8, 9, 16, 17, 24, 25, 3])[-2:], ["a b c d", "a"])

    def test_a_return_to_what_was_not_seen(self):
        self.assertEqual(self.run_of({1: RET, 9: RET}, [0, 1, 8, 9, 16]), ["a", "a", "b", "b", "c"])

    def test_a_routine_whose_link_register_is_x5(self):
        self.assertEqual(self.run_of({1: jal(28, 5), 9: jalr(0, 5)}, [1, 8, 9, 2]), ["a", "a b", "a b", "a"])

    def test_coroutines(self):
        words = {1: jal(28, 5), 9: jalr(1, 5), 3: jalr(5, 1)}
        self.assertEqual(self.run_of(words, [1, 8, 9, 2, 3, 10]), ["a", "a b", "a b", "a a", "a a", "a b"])

    def test_traps(self):
        words = {1: jal(28), 17: MRET, 10: RET}
        stacks = self.run_of(words, [1, 8, ("trap", 9), 16, 17, 9, 10, 2])
        self.assertEqual(stacks, ["a", "a b", "a b !", "a b ! c", "a b ! c", "a b", "a b", "a"])
        self.assertIn(("trap", "interrupt 7", 2), self.told.events)

    def test_a_trap_in_a_handler(self):
        stacks = self.run_of({17: MRET, 25: MRET}, [0, ("trap", 1), 16, ("trap", 17), 24, 25, 17, 1])
        self.assertEqual(stacks, ["a", "a !", "a ! c", "a ! c !", "a ! c ! d", "a ! c ! d", "a ! c", "a"])

    def test_a_trap_right_behind_another(self):
        self.assertEqual(self.run_of({25: MRET, 17: MRET}, [0, ("trap", 1), ("trap", 16), 24, 25, 16, 17, 1]),
                         ["a", "a !", "a ! !", "a ! ! d", "a ! ! d", "a ! c", "a ! c", "a"])

    def test_a_handler_does_not_unwind_what_it_interrupted(self):
        words = {1: jal(28), 17: RET}
        self.assertEqual(self.run_of(words, [1, 8, ("trap", 9), 16, 17, 2])[-1], "a b ! a")

    def test_a_handler_that_goes_to_another_task(self):
        words = {1: jal(28), 17: MRET}
        self.assertEqual(self.run_of(words, [1, 8, ("trap", 9), 16, 17, 32])[-1], "e")

    def test_a_return_from_no_trap(self):
        self.assertEqual(self.run_of({1: MRET}, [0, 1, 8]), ["a", "a", "b"])

    def test_a_trap_where_a_call_led(self):
        self.assertEqual(self.run_of({1: jal(28), 17: MRET}, [1, ("trap", 8), 16, 17, 8]), ["a", "a b !", "a b ! c", "a b ! c", "a b"])

    def test_a_call_to_what_has_no_rows(self):
        self.assertEqual(self.run_of({1: jalr(1, 10)}, [0, 1, 2]), ["a", "a", "a"])

    def test_a_gap(self):
        self.assertEqual(self.run_of({1: jal(28)}, [1, 8, "gap", 17]), ["a", "a b", "", "c"])

    def test_without_symbols_functions_are_where_calls_lead(self):
        stacks = self.run_of({1: jal(28), 10: RET}, [1, 8, 9, 10, 2], with_symbols=False)
        self.assertEqual(stacks, ["80000004", *["80000004 80000020"] * 3, "80000004"])

    def test_a_stack_has_an_end(self):
        stacks = self.run_of({8: jal(0)}, [8] * (MOST_FRAMES + 100))
        self.assertEqual(len(stacks[-1].split()), MOST_FRAMES)


class Messages(unittest.TestCase):
    """The messages of a capture over the rows, by a table of `list`."""

    LOG = "addr,itype,priv,cause,tval\n80000000,0,3,,\n80000004,0,3,,\n80000008,0,3,,\n8000000c,0,3,,\n"
    TABLE = ("place,hart,number,packet,added,first_row,last_row,first,last\n0,0,0,open,0,,,,\n1,0,1,sync,1,1,1,80000000,80000000\n"
             "2,0,2,address,0,,,,\n3,0,3,close,3,2,4,80000004,8000000c\n")

    def ran(self, option, table, *words):
        with tempfile.TemporaryDirectory() as folder:
            for name, content in (("image", NOP.to_bytes(4, "little") * 4), ("log", self.LOG.encode()), ("table", table.encode())):
                with open(os.path.join(folder, name), "wb") as file:
                    file.write(content)
            ran = subprocess.run([sys.executable, os.path.join(TOOLS, "timeline"), option, "out", "--list", "table", *words, f"{BASE:x}",
                                  "image", "log"], capture_output=True, text=True, cwd=folder)
            if ran.returncode:
                return ran.returncode, ran.stderr
            with open(os.path.join(folder, "out")) as file:
                return json.load(file)["traceEvents"]

    def shown(self, *words):
        events = self.ran("--trace", self.TABLE, *words)
        return [(event["ph"], event["ts"], event.get("name")) for event in events if event["pid"] == 1 and event["ph"] != "M"]

    def test_each_is_a_slice_of_the_rows_that_it_settles(self):
        self.assertEqual(self.shown(), [("B", 0, "sync 1"), ("E", 1, None), ("B", 1, "close 3"), ("E", 4, None)])

    def test_some_rows_alone(self):
        self.assertEqual(self.shown("--rows", "1-2"), [("B", 1, "close 3"), ("E", 3, None)])

    def test_what_cannot_be_used(self):
        for said, table in (("line 1: no table of `list --format csv` with columns of rows", "place,hart\n"),
                            ("line 2: no row of `list --format csv`", "hart,number,packet,first_row,last_row\n0,x,sync,1,1\n")):
            self.assertEqual(self.ran("--trace", table), (2, f"timeline: table: {said}\n"))
        self.assertEqual(self.ran("--folded", self.TABLE)[0], 2)


@unittest.skipUnless(HAS_ELF, "pyelftools is not there")
class Recorded(unittest.TestCase):
    """`programs/functions.c`, a run of two harts in QEMU. How often a function is called is read in its source."""

    @classmethod
    def setUpClass(cls):
        cls.kept = tempfile.TemporaryDirectory()
        cls.folder = cls.kept.name
        cls.elf = os.path.join(RECORDED, "functions.elf")
        record("qemu", "--image", cls.path("raw"), cls.elf, "-", cls.folder, given=recorded("functions.log.xz"))
        cls.logs = [cls.path(f"hart0{hart}.csv") for hart in (0, 1)]

    @classmethod
    def tearDownClass(cls):
        cls.kept.cleanup()

    @classmethod
    def path(cls, name):
        return os.path.join(cls.folder, name)

    def lines(self, path):
        with open(path) as file:
            return sum(1 for _ in file)

    def ran(self, *words):
        return subprocess.run([sys.executable, os.path.join(TOOLS, "timeline"), *words], capture_output=True, text=True)

    def made(self, option, *words):
        ran = self.ran(option, self.path("out"), *words)
        self.assertEqual((ran.returncode, ran.stderr), (0, ""))
        with open(self.path("out")) as file:
            return file.read()

    def folded(self, *words):
        lines = self.made("--folded", *words).splitlines()
        return {tuple(line.rpartition(" ")[0].split(";")): int(line.rpartition(" ")[2]) for line in lines}

    def slices(self, text):
        """The slices of each hart: (names from the lowest on, first row, row behind), each begun and ended in order."""
        found, open_, last = [], collections.defaultdict(list), collections.Counter()
        for event in json.loads(text)["traceEvents"]:
            if event["ph"] in "BE":
                self.assertGreaterEqual(event["ts"], last[event["tid"]])
                last[event["tid"]] = event["ts"]
            if event["ph"] == "B":
                open_[event["tid"]].append((event["name"], event["ts"]))
            elif event["ph"] == "E":
                names = tuple(name for name, _ in open_[event["tid"]])
                found.append((event["tid"], names, open_[event["tid"]].pop()[1], event["ts"]))
        self.assertFalse(any(open_.values()))
        return found

    def test_folded_stacks(self):
        found = self.folded(self.elf, *self.logs)
        rows = [self.lines(log) - 1 for log in self.logs]
        for hart in (0, 1):
            self.assertEqual(sum(count for names, count in found.items() if names[0] == f"hart {hart}"), rows[hart])
        stacks = {names[1:] for names in found if names[0] == "hart 0" and not any(name.startswith("interrupt") for name in names)}
        user, trap = ("in_user",), ("in_user", "exception 8")
        self.assertEqual(stacks, {
            ("_start",), ("_start", "begin"), ("_start", "enter"), user, user + ("work",), user + ("work", "leaf"), user + ("tail",),
            user + ("leaf",), *(user + ("depth",) * times for times in range(1, 7)),
            *(user + ("depth",) * times + ("leaf",) for times in range(1, 7)), user + ("catcher",), user + ("catcher", "mark"),
            user + ("catcher", "leaf"), user + ("catcher", "thrower"), user + ("catcher", "thrower", "leaf"),
            user + ("catcher", "thrower", "thrown"), user + ("catcher", "thrower", "thrown", "leaf"),
            user + ("catcher", "thrower", "thrown", "jump_to"), trap, trap + ("machine_trap",), trap + ("machine_trap", "on_mtrap"),
            trap + ("machine_trap", "at_machine"), trap + ("machine_trap", "at_machine", "leaf")})

    def test_slices(self):
        text = self.made("--trace", self.elf, *self.logs)
        slices = self.slices(text)
        counts = collections.Counter(names[-1] for hart, names, *_ in slices if hart == 0)
        # Six turns of the loop: work 40, tail 1, depth twice for each of 6, thrown 1 or 2, thrower 0 or 1, catcher 1, at_machine 1.
        self.assertEqual(counts["leaf"], 6 * (40 + 1 + 12 + 1 + 1 + 1) + 3 * 2)
        self.assertEqual([counts[name] for name in ("tail", "depth", "catcher", "thrower", "thrown", "jump_to")], [6, 36, 6, 6, 6, 3])
        self.assertEqual(counts["exception 8"], 6)
        for hart in (0, 1):
            with open(self.logs[hart]) as file:
                traps = [(row, line.split(",")[0]) for row, line in enumerate(file, -1) if line.split(",")[1] in "12"]
            events = json.loads(text)["traceEvents"]
            self.assertEqual([(event["ts"], event["args"]["epc"]) for event in events if event["ph"] == "i" and event["tid"] == hart], traps)

    def test_slices_of_some_rows(self):
        """Those of a window are the parts of all that lie in it."""
        first, last = 500, 900
        cut = [(hart, names, max(begin, first), min(end, last + 1))
               for hart, names, begin, end in self.slices(self.made("--trace", self.elf, *self.logs))]
        found = self.slices(self.made("--trace", self.elf, *self.logs, "--rows", f"{first}-{last}"))
        for slices in (cut, found):
            slices[:] = sorted(part for part in slices if part[2] < part[3])
        self.assertEqual(found, cut)

    @unittest.skipUnless(jsonschema, "jsonschema is not there")
    def test_events_are_of_the_schema(self):
        events = json.loads(self.made("--trace", self.elf, *self.logs))["traceEvents"]
        end, other = jsonschema.Draft7Validator(ENDS), jsonschema.Draft7Validator(EVENT)
        for event in events[::7]:
            (end if event["ph"] == "E" else other).validate(event)

    def counted(self):
        """How often each address retired, and each branch was taken and not, by the logs alone."""
        rows, sides = collections.Counter(), collections.Counter()
        for log in self.logs:
            with open(log) as file:
                for line in list(file)[1:]:
                    address, itype = line.split(",")[:2]
                    rows[int(address, 16)] += itype not in "12"
                    if itype in "45":
                        sides[int(address, 16), itype == "5"] += 1
        return rows, sides

    def test_a_table(self):
        text = self.made("--coverage", "--symbols", self.path("raw.symbols"), f"{BASE:x}", self.path("raw"), *self.logs)
        rows, sides = self.counted()
        found = {}
        for kind, address, name, count, entered, taken, not_taken, _, run in (line.split(",") for line in text.splitlines()[1:]):
            if kind == "branch":
                address = int(address, 16)
                self.assertEqual((int(count), int(taken), int(not_taken)), (rows[address], sides[address, True], sides[address, False]))
            else:
                found[name.strip('"')] = int(count), int(entered), int(run)
        self.assertEqual(sum(count for count, _, _ in found.values()), sum(rows.values()))
        self.assertEqual(found["sleep_for_good"], (0, 0, 0))
        self.assertEqual([found[name][1] for name in ("tail", "depth", "thrown", "jump_to", "begin")], [12, 72, 12, 6, 2])

    def test_lcov(self):
        text = self.made("--coverage", self.elf, *self.logs)
        rows, sides = self.counted()
        lines = text.splitlines()
        self.assertEqual([line for line in lines if line.startswith("SF:")], ["SF:bench.c", "SF:bench.h", "SF:functions.c", "SF:start.S"])
        for line in (line for line in lines if line.startswith("BRDA:")):
            _, address, side, count = line[5:].split(",")
            at_all = rows[int(address)]
            self.assertEqual(count, str(sides[int(address), side == "0"]) if at_all else "-")
        with open(os.path.join(os.path.dirname(RECORDED), "programs/functions.c")) as file:
            source = [next((name for name in ("leaf", "tail", "depth", "work") if f" {name}(uint64_t n) {{" in line or f" {name}(void) {{" in line), None)
                      for line in file]
        declared = {line.split(",")[1]: int(line[3:].split(",")[0]) for line in lines if line.startswith("FN:")}
        for number, name in enumerate(source, 1):
            if name:
                self.assertEqual(declared[name], number)
        self.assertIn("FNDA:72,depth", lines)
        self.assertIn("FNDA:0,sleep_for_good", lines)

    @unittest.skipUnless(shutil.which("genhtml"), "lcov is not there")
    def test_lcov_is_read_by_genhtml(self):
        self.made("--coverage", self.elf, *self.logs)
        words = ["genhtml", "--branch-coverage", "-o", self.path("html"), self.path("out")]
        ran = subprocess.run(words, capture_output=True, text=True, cwd=os.path.join(os.path.dirname(RECORDED), "programs"))
        self.assertEqual(ran.returncode, 0, ran.stderr)
        self.assertIn("functions..: 70.0% (14 of 20 functions)", ran.stdout)

    def test_decoded_text(self):
        """What `decode` prints of both, and the same with a gap."""
        parts = []
        for hart, log in enumerate(self.logs):
            with open(log) as file:
                parts.append(f"hart {hart}\n" + file.read())
        both = "".join(parts)
        with open(self.path("decoded"), "w") as file:
            file.write(both)
        self.assertEqual(self.folded(self.elf, self.path("decoded")), self.folded(self.elf, *self.logs))
        with open(self.path("decoded"), "w") as file:
            file.write("hart 3\nbad: number 1 at 0000001c: closing, but number 2 came\nstretch: 2 events\naddr,itype,priv,cause,tval\n80000000,0,3,,\n80000004,0,3,,\ngap: 2 messages\n"
                       "stretch: 1 events\naddr,itype,priv,cause,tval\n80000000,0,3,,\n")
        events = json.loads(self.made("--trace", self.elf, self.path("decoded")))["traceEvents"]
        self.assertEqual([(event["ph"], event["ts"]) for event in events if event["ph"] != "M"],
                         [("i", 0), ("B", 0), ("E", 2), ("i", 2), ("B", 2), ("E", 3)])

    def test_what_cannot_be_used(self):
        def refused(said, text, *words):
            with open(self.path("bad"), "w") as file:
                file.write(text)
            ran = self.ran("--folded", self.path("out"), *words)
            self.assertEqual((ran.returncode, ran.stdout), (2, ""))
            self.assertEqual(ran.stderr.replace(self.folder + "/", ""), f"timeline: {said}\n")

        log, raw = self.path("bad"), (f"{BASE:x}", self.path("raw"))
        refused("bad: line 1: neither a row nor a line of `decode`", "some text\n", *raw, log)
        refused("80000000,0: no row of a log", "80000000,0\n", *raw, log)
        refused("70000000: a row outside the image", "70000000,0,3,,\n", *raw, log)
        refused("bad: no symbol of code: give it what nm prints", "none\n", "--symbols", log, *raw, log)
        self.assertEqual(self.ran("--trace", self.path("out"), "--rows", "9-1", *raw, log).returncode, 2)
        self.assertEqual(self.ran(*raw, log).returncode, 2)


if __name__ == "__main__":
    unittest.main()
