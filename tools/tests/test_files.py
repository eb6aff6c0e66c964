"""The files that rows go to: the row limit, pieces, and digits that are set later."""
import unittest

from support import BASE, MACHINE, MRET, NOP, USER, Run, image_of, interrupt, reading, trace, traces

from recording import files

IMAGE = image_of(*[NOP] * 30, MRET)


class Limit(unittest.TestCase):
    def run_of(self, lines, limit=4, **how):
        return Run(IMAGE, lines, row_limit=limit, **how)

    def test_the_limits_are_those_of_the_formats(self):
        self.assertEqual((files.ROW_LIMIT, files.LONG_ROW_LIMIT), (16_777_216, 4_294_967_295))

    def test_a_run_has_the_limit_of_short_logs(self):
        run = Run(IMAGE, traces(range(2), USER))
        self.assertEqual(run.harts.found[0].files.row_limit, 16_777_216)

    def test_a_log_that_is_just_full_is_whole(self):
        run = self.run_of(traces(range(5), USER))
        self.assertEqual((len(run.rows()), run.harts.are_whole()), (4, True))

    def test_a_row_more_cuts_the_log(self):
        run = self.run_of(traces(range(6), USER))
        self.assertEqual((len(run.rows()), run.harts.are_whole()), (4, False))
        want = "hart 0: 4 rows, 4 retirements, 0 traps; last at 8000000c: row limit; 0 levels guessed"
        self.assertEqual(run.summary(), want)

    def test_a_trap_that_has_no_room(self):
        run = self.run_of(traces(range(4), USER) + [interrupt(7, 4)] + traces((30, 5), MACHINE))
        self.assertEqual(run.rows()[-1], "8000000c,0,0,,")
        self.assertIn(": 4 rows, 4 retirements, 0 traps; ", run.summary())

    def test_an_open_trap_that_has_no_room(self):
        run = self.run_of(traces((28, 29, 30), MACHINE) + [trace(0, MACHINE), interrupt(7, 1)] + traces((30, 5), MACHINE))
        self.assertIn(": 4 rows, 4 retirements, 0 traps; ", run.summary())

    def test_pieces(self):
        run = self.run_of(traces(range(11), USER), has_pieces=True)
        self.assertEqual(run.names(), ["hart00_0001.csv", "hart00_0002.csv", "hart00_0003.csv"])
        rows = [row for name in run.names() for row in run.rows(name)]
        self.assertEqual(rows, [f"{BASE + 4 * place:x},0,0,," for place in range(10)])
        self.assertTrue(run.harts.are_whole())
        want = "hart 0: 10 rows in 3 files, 10 retirements, 0 traps; last at 80000024: end of the recording; 0 levels guessed"
        self.assertEqual(run.summary(), want)

    def test_each_piece_is_legal_by_itself(self):
        lines = 5 * (traces((28, 29, 30), MACHINE) + traces((0, 1, 2), USER) + [interrupt(7, 3)])
        run = self.run_of(lines, has_pieces=True)
        self.assertGreater(len(run.names()), 5)
        for name in run.names():
            self.assertIsNone(run.first_illegal(name))

    def test_no_piece_is_begun_for_nothing(self):
        self.assertEqual(self.run_of(traces(range(5), USER), has_pieces=True).names(), ["hart00_0001.csv"])


class Digits(unittest.TestCase):
    def run_of(self, limit):
        """An interrupt behind MRET, whose handler is interrupted itself and then goes back to user level."""
        lines = traces((29, 30), MACHINE) + [interrupt(7, 4)] + traces(range(10, 20), MACHINE) + [interrupt(3, 20)]
        lines += traces(range(10, 31), MACHINE) + traces(range(20, 31), MACHINE) + traces(range(4, 20), USER)
        return Run(IMAGE, lines, has_pieces=True, row_limit=limit)

    def test_in_the_last_piece(self):
        self.assertEqual(self.run_of(1000).rows("hart00_0001.csv")[2], "80000010,2,0,7,")

    def test_in_any_earlier_piece(self):
        for limit in range(1, 12):
            run = self.run_of(limit)
            rows = [row for name in run.names() for row in run.rows(name)]
            self.assertEqual((len(rows), rows[2]), (61, "80000010,2,0,7,"), limit)

    def test_of_a_long_address(self):
        base = (1 << 64) - 0x1000
        places = [base + 4 * place for place in range(31)]
        lines = [trace(places[30], MACHINE)]
        lines += [f"riscv_cpu_do_interrupt: hart:0, async:1, cause:{7:016x}, epc:0x{places[4]:016x}, tval:0x{0:016x}, desc="]
        lines += [trace(places[30], MACHINE), trace(places[4], USER), trace(places[5], USER)]
        run = Run(IMAGE, lines, base=base)
        self.assertEqual(run.rows()[1], "fffffffffffff010,2,0,7,")

    def test_rows_are_as_the_formats_spell_them(self):
        text = self.run_of(1000).text("hart00_0001.csv")
        self.assertEqual(reading.log_text(reading.read_log(text.encode())), text)
