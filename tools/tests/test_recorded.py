"""Recorded runs of the programs in `programs`: each trap has the place, the cause, the value and the level that the program's own
handler saw, and each log is legal."""
import glob
import os
import subprocess
import tempfile
import unittest

from support import BASE, RECORDED, TRACEBENCH, first_illegal, reading, record, recorded


NAMES = "behind_mret behind_sret behind_trap nested delegated faults sleeps leaves two four".split()
ECALL_FROM_USER = ["8", "0"]  # cause and level
MRET, SRET = "mret", "sret"


def frames_of(name, hart):
    """What the handlers of a hart saw, those of each level in their order: cause, epc, level, value."""
    of_handler = {"3": [], "1": []}
    for line in recorded(f"{name}.frames").decode().splitlines():
        number, handler, *frame = line.split()
        if int(number, 16) == hart:
            of_handler[handler].append(frame)
    return of_handler


def traps_of(text):
    """The traps of a log, in the form of frames."""
    traps = []
    for row in text.splitlines()[1:]:
        address, itype, level, cause, value = row.split(",")
        if itype in "12":
            is_interrupt = (itype == "2") << 63
            traps.append([f"{int(cause, 16) | is_interrupt:x}", address, level, value or "0"])
    return traps


class Recorded(unittest.TestCase):
    """Each program is recorded once for all tests."""

    @classmethod
    def setUpClass(cls):
        cls.kept = tempfile.TemporaryDirectory()
        cls.ran, cls.logs = {}, {}
        for name in NAMES:
            folder = os.path.join(cls.kept.name, name)
            os.mkdir(folder)
            image = os.path.join(RECORDED, f"{name}.bin")
            cls.ran[name] = record("qemu", f"{BASE:x}", image, "-", folder, given=recorded(f"{name}.log.xz"))
            cls.logs[name] = {}
            for path in sorted(glob.glob(f"{folder}/*.csv")):
                with open(path) as file:
                    cls.logs[name][os.path.basename(path)] = file.read()

    @classmethod
    def tearDownClass(cls):
        cls.kept.cleanup()

    def rows(self, name, hart=0):
        return [row.split(",") for row in self.logs[name][f"hart{hart:02}.csv"].splitlines()[1:]]

    def compare(self, name, harts, is_kept=lambda trap: True):
        """The traps of each hart are the frames of its handlers, each handler's in their order and none left."""
        self.assertEqual(sorted(self.logs[name]), [f"hart{hart:02}.csv" for hart in range(harts)])
        for hart in range(harts):
            left = frames_of(name, hart)
            self.assertTrue(left["3"] or left["1"])
            for trap in filter(is_kept, traps_of(self.logs[name][f"hart{hart:02}.csv"])):
                handler = next((level for level in left if left[level][:1] == [trap]), None)
                self.assertIsNotNone(handler, f"{name}: hart {hart}: no handler saw {trap} next")
                left[handler].pop(0)
            self.assertEqual(left, {"3": [], "1": []})

    def summary(self, name):
        return self.ran[name].stdout.decode().splitlines()

    def behind(self, name, hart, is_before):
        """The levels of the interrupts right behind such rows."""
        rows = self.rows(name, hart)
        return {after[2] for before, after in zip(rows, rows[1:]) if is_before(before) and after[1] == "2"}

    def test_interrupts_behind_mret(self):
        self.compare("behind_mret", 1)
        self.assertEqual(self.behind("behind_mret", 0, lambda row: row[1] == "3"), {"0", "1", "3"})

    def test_interrupts_behind_sret(self):
        self.compare("behind_sret", 1)
        self.assertEqual(self.behind("behind_sret", 0, lambda row: row[1] == "3"), {"0", "1"})

    def test_interrupts_behind_a_trap(self):
        """The calls of the user program are handled without frames."""
        self.compare("behind_trap", 1, lambda trap: [trap[0], trap[2]] != ECALL_FROM_USER)
        self.assertEqual(self.behind("behind_trap", 0, lambda row: row[1] == "1"), {"1"})

    def test_a_level_that_no_return_shows_is_counted(self):
        self.assertIn("; 1 levels guessed", self.summary("behind_trap")[0])

    def test_nested_handlers(self):
        self.compare("nested", 1)

    def test_delegated_and_vectored_interrupts(self):
        self.compare("delegated", 1)
        self.assertEqual({trap[2] for trap in frames_of("delegated", 0)["1"]}, {"0", "1"})

    def test_faults_on_the_instruction_itself(self):
        self.compare("faults", 1)
        causes = {(trap[0], trap[2]) for trap in traps_of(self.logs["faults"]["hart00.csv"])}
        self.assertTrue({(cause, level) for cause in "1235" for level in "013"} <= causes)

    def test_closed_pages_behind_mret_and_sret(self):
        rows = self.rows("faults")
        words = {MRET: 0, SRET: 0}
        program = reading.Program(BASE, recorded("faults.bin"))
        for before, after in zip(rows, rows[1:]):
            if before[1] == "3" and after[:4] == ["80001000", "1", "0", "1"]:
                words[program.at(int(before[0], 16))[0]] += 1
        self.assertEqual(words, {MRET: 1, SRET: 1})

    def test_waiting_for_interrupts(self):
        self.compare("sleeps", 1)

    def test_two_harts(self):
        self.compare("two", 2)

    def test_four_harts(self):
        self.compare("four", 4)

    def test_a_hart_that_leaves_the_image(self):
        self.assertEqual(self.ran["leaves"].returncode, 1)
        [line] = self.summary("leaves")
        self.assertIn(": left the image at 80020000;", line)
        self.assertEqual(self.rows("leaves")[-1][1], "6")
        self.assertEqual(traps_of(self.logs["leaves"]["hart00.csv"]), frames_of("leaves", 0)["3"][:1])

    def test_the_others_are_whole(self):
        for name in NAMES:
            if name != "leaves":
                self.assertEqual((self.ran[name].returncode, self.ran[name].stderr), (0, b""), name)
                for line in self.summary(name):
                    self.assertIn(": end of the recording;", line)

    def test_only_the_last_interrupt_behind_a_trap_is_guessed(self):
        for name in NAMES:
            if name != "behind_trap":
                for line in self.summary(name):
                    self.assertTrue(line.endswith("; 0 levels guessed"), line)

    def test_summaries_count_rows_and_traps(self):
        for name in NAMES:
            for line, text in zip(self.summary(name), self.logs[name].values()):
                rows, traps = len(text.splitlines()) - 1, len(traps_of(text))
                self.assertIn(f": {rows} rows, {rows - traps} retirements, {traps} traps; ", line)

    def test_all_logs_are_legal_by_the_other_reading(self):
        for name in NAMES:
            program = reading.Program(BASE, recorded(f"{name}.bin"))
            for log, text in self.logs[name].items():
                self.assertIsNone(first_illegal(program, text), f"{name}/{log}")

    @unittest.skipUnless(TRACEBENCH, "TRACEBENCH does not name the program")
    def test_all_logs_are_legal_by_the_program(self):
        for name in NAMES:
            folder = os.path.join(self.kept.name, name)
            image = os.path.join(RECORDED, f"{name}.bin")
            paths = [os.path.join(folder, log) for log in self.logs[name]]
            ran = subprocess.run([TRACEBENCH, "check", "--base", f"{BASE:x}", image, *paths], capture_output=True, text=True)
            self.assertEqual(ran.returncode, 0, ran.stdout)
            self.assertEqual(len(ran.stdout.splitlines()), len(paths))


