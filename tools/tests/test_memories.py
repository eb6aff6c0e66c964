"""Programs in several memories: `--also`, the pieces of an image, and a run that was recorded from reset on."""
import importlib.util
import os
import subprocess
import unittest

from support import (
    BASE, BEQ_8, ECALL, MACHINE, NOP, RECORDED, RET, TOOLS, TRACEBENCH, USER, InFolder, Run, first_illegal, image_of, reading, record,
    recorded, trace, traces,
)

from recording.image import LARGEST_IMAGE, Image
from recording.inputs import image_at
from recording.pieces import test_piece as try_piece
from recording.unusable import Unusable

ROM, FLASH = 0x1000, 0x20000000
CALL = 0x000280E7  # JALR ra, 0(t0)
C_NOP = b"\x01\x00"


def words_at(base, *places):
    """Addresses of words of 32 bits behind a base."""
    return [base + 4 * place for place in places]


class Pieces(unittest.TestCase):
    def setUp(self):
        self.image = Image(BASE, b"0123", also=[(FLASH, b"ab"), (FLASH + 2, b"cde"), (ROM, b""), (BASE + 4, b"")])

    def test_what_is_inside(self):
        inside = [BASE, BASE + 3, FLASH, FLASH + 1, FLASH + 2, FLASH + 4]
        outside = [0, ROM, FLASH - 1, FLASH + 5, BASE - 1, BASE + 4, (1 << 64) - 1]
        self.assertEqual([address for address in inside + outside if address in self.image], inside)

    def test_bytes_in_a_row(self):
        places = {(BASE, 4): b"0123", (BASE + 3, 4): b"3", (FLASH, 4): b"abcd", (FLASH + 1, 2): b"bc", (FLASH + 3, 9): b"de"}
        self.assertEqual({place: self.image.bytes_at(*place) for place in places}, places)
        self.assertEqual([self.image.bytes_at(address, 4) for address in (ROM, BASE + 4, FLASH + 5)], [b""] * 3)

    def test_the_first_piece_has_the_base(self):
        self.assertEqual((self.image.base, self.image.content), (BASE, b"0123"))

    def test_a_word_across_two_pieces_that_touch(self):
        """A branch 8 bytes on, whose halves come in two pieces."""
        word = BEQ_8.to_bytes(4, "little")
        found = Image(BASE, word[:2], also=[(BASE + 2, word[2:])]).instruction(None, BASE, MACHINE)
        self.assertEqual((found.next, found.target, found.row), (BASE + 4, BASE + 8, b"80000000,4,3,,\n"))

    def test_a_call_across_two_pieces_is_written_over_in_both(self):
        word = ECALL.to_bytes(4, "little")
        image = Image(BASE, C_NOP + word[:2], is_user=True, also=[(BASE + 4, word[2:])])
        self.assertEqual(image.instruction(None, BASE + 2, USER).next, BASE + 6)
        self.assertEqual([bytes(piece.content) for piece in image.pieces], [C_NOP + image_of(NOP)[:2], image_of(NOP)[2:]])

    def test_half_a_call_is_not_written_over(self):
        image = Image(BASE, b"\x73\0", is_user=True)
        image.instruction(None, BASE, USER)
        self.assertEqual(image.content, b"\x73\0")

    def test_a_thousand_pieces(self):
        word = image_of(NOP)
        image = Image(BASE, word, also=[(BASE + 8 * place, word) for place in range(999, 0, -1)])
        self.assertTrue(all(image.bytes_at(BASE + 8 * place, 8) == word for place in range(1000)))
        self.assertFalse(any(BASE + 8 * place + 4 in image for place in range(1000)))


class Rows(unittest.TestCase):
    """A run that goes from one piece to another and back: in flash NOP, JALR, NOP, NOP, and in memory NOP, RET."""

    LINES = [*(trace(address, MACHINE) for address in words_at(FLASH, 0, 1)), *traces((0, 1), MACHINE)]
    LINES += [trace(address, MACHINE) for address in words_at(FLASH, 2, 3)]
    IN_FLASH = ["20000000,0,3,,", "20000004,6,3,,"]
    IN_MEMORY = ["80000000,0,3,,", "80000004,6,3,,"]
    BEHIND = ["20000008,0,3,,"]

    def run_of(self, base, image, also, **how):
        run = Run(image, self.LINES, base=base, also=also, **how)
        self.assertIsNone(run.first_illegal())
        return run.rows(), run.harts.found[0].why_ended, run.warnings

    def test_rows_in_two_pieces(self):
        flash, memory = (FLASH, image_of(NOP, CALL, NOP, NOP)), (BASE, image_of(NOP, RET))
        want = self.IN_FLASH + self.IN_MEMORY + self.BEHIND, "end of the recording", []
        self.assertEqual(self.run_of(*flash, [memory]), want)
        self.assertEqual(self.run_of(*memory, [flash]), want)

    def test_without_the_piece_the_log_ends(self):
        self.assertEqual(self.run_of(FLASH, image_of(NOP, CALL, NOP, NOP), ()), (self.IN_FLASH, "left the image at 80000000", []))

    def test_inside_goes_on_without_the_piece(self):
        found = self.run_of(FLASH, image_of(NOP, CALL, NOP, NOP), (), has_inside=True)
        self.assertEqual(found, (self.IN_FLASH + self.BEHIND, "end of the recording", []))

    def test_pieces_of_a_byte_and_more_act_as_one(self):
        whole = image_of(NOP, CALL, NOP, NOP)
        cuts = [whole[place : place + 2] for place in range(0, len(whole), 2)]
        pieces = [(FLASH + 2 * place, part) for place, part in enumerate(cuts)]
        also = [*reversed(pieces), (BASE, image_of(NOP, RET))]
        self.assertEqual(self.run_of(*also[0], also[1:])[0], self.IN_FLASH + self.IN_MEMORY + self.BEHIND)


class Given(InFolder):
    """`--also B2=FILE`: what is taken, and what is refused with which text."""

    def setUp(self):
        super().setUp()
        self.image = self.file("image.bin", image_of(NOP, NOP))
        self.piece = self.file("piece.bin", image_of(NOP))
        self.large = os.path.join(self.folder, "large.bin")
        with open(self.large, "wb") as file:
            file.truncate(LARGEST_IMAGE)

    def pieces(self, *also, base="80000000"):
        return [(piece.base, len(piece.content)) for piece in image_at(base, self.image, also=also).pieces]

    def refused(self, want, *also, base="80000000"):
        with self.assertRaises(Unusable) as problem:
            image_at(base, self.image, also=also)
        self.assertEqual(str(problem.exception), want)

    def test_pieces_that_are_taken(self):
        for word in ("20000000", "0x20000000", "0X0020000000"):
            self.assertEqual(self.pieces(f"{word}={self.piece}"), [(BASE, 8), (FLASH, 4)])

    def test_pieces_that_touch(self):
        also = [f"7ffffffc={self.piece}", f"80000008={self.piece}"]
        self.assertEqual(self.pieces(*also), [(BASE, 8), (BASE - 4, 4), (BASE + 8, 4)])

    def test_the_first_sign_parts_base_and_file(self):
        other = self.file("other=piece.bin", image_of(NOP))
        self.assertEqual(self.pieces(f"20000000={other}"), [(BASE, 8), (FLASH, 4)])

    def test_no_number(self):
        for word in ("x", "", "1" * 17, "-2"):
            self.refused(f"{word}: base is not a hexadecimal number", f"{word}={self.piece}")
        self.refused(f"{self.piece}: base is not a hexadecimal number", self.piece)

    def test_an_odd_base(self):
        self.refused(f"{self.piece}: base is odd", f"20000001={self.piece}")

    def test_the_last_address(self):
        self.refused(f"{self.piece}: runs past the last address", f"fffffffffffffffc={self.piece}")
        self.assertEqual(self.pieces(f"fffffffffffffffa={self.piece}")[1], ((1 << 64) - 6, 4))

    def test_the_largest_piece(self):
        self.assertEqual(self.pieces(f"20000000={self.large}")[1], (FLASH, LARGEST_IMAGE))
        with open(self.large, "ab") as file:
            file.write(b"\0")
        self.refused(f"{self.large}: more than 16777216 bytes", f"20000000={self.large}")

    def test_an_overlap(self):
        for base in ("7ffffffe", "80000000", "80000006"):
            self.refused(f"{self.piece}: overlaps", f"{base}={self.piece}")
        self.refused(f"{self.piece}: overlaps", f"20000000={self.image}", f"20000006={self.piece}")

    def test_an_empty_piece_overlaps_nothing(self):
        empty = self.file("empty.bin", b"")
        self.assertEqual(self.pieces(f"80000002={empty}", f"80000002={empty}")[1:], [(BASE + 2, 0)] * 2)

    def test_all_bytes(self):
        """Three large pieces and the image leave room for 16777208 bytes more."""
        large = [f"{base}={self.large}" for base in ("10000000", "20000000", "30000000")]
        most = self.file("most.bin", bytes(16777208))
        self.assertEqual(sum(count for _, count in self.pieces(*large, f"40000000={most}")), 67108864)
        more = self.file("more.bin", bytes(16777209))
        self.refused(f"{more}: more than 67108864 bytes in all", *large, f"40000000={more}")

    def test_most_pieces(self):
        also = [f"{FLASH + 8 * place:x}={self.piece}" for place in range(1024)]
        self.assertEqual(len(self.pieces(*also[1:])), 1024)
        self.refused("more than 1024 pieces", *also)

    def test_what_is_refused_first(self):
        """The base, all other bases, the image, and then one piece after the other."""
        odd, bad, absent = f"20000001={self.piece}", f"x={self.piece}", "20000000=absent.bin"
        self.refused("y: base is not a hexadecimal number", bad, base="y")
        self.refused("x: base is not a hexadecimal number", odd, bad, base="80000001")
        self.refused("80000001: base is odd", odd, absent, base="80000001")
        self.refused(f"{self.piece}: base is odd", odd, absent)
        self.refused("absent.bin: No such file or directory", absent, odd)

    def test_an_elf_file_is_refused(self):
        path = os.path.join(RECORDED, "memories.elf")
        self.refused(f"{path} is an ELF file, and --also takes raw bytes", f"20000000={path}")

    def test_reasons_by_number(self):
        """In their order, where several apply."""
        before = [(0, bytes(LARGEST_IMAGE))] * 4 + [(FLASH, b"")] * 1020
        larger = bytes(LARGEST_IMAGE + 1)
        for base, content, want in (
            (1, larger, "it: base is odd"), ((1 << 64) - 2, larger, "it: more than 16777216 bytes"),
            ((1 << 64) - 2, b"12", "it: runs past the last address"), (2, b"12", "it: overlaps"),
            (FLASH, b"12", "it: more than 67108864 bytes in all"), (FLASH, b"", "more than 1024 pieces"),
        ):
            with self.assertRaises(Unusable) as problem:
                try_piece(base, content, "it", before)
            self.assertEqual(str(problem.exception), want)


# What the hart does from reset on, by the words of the memories: the boot ROM, flash with a loop that copies, the routine in memory,
# ECALL in flash, its handler in memory, and WFI, after which nothing comes.
PLAIN, UNINFERABLE, TAKEN, NOT_TAKEN, BACK = "0,3,,", "6,3,,", "5,3,,", "4,3,,", "3,3,,"


def plain(*addresses):
    return [(address, PLAIN) for address in addresses]


COPY = plain(0x20000018, 0x2000001C, 0x20000020, 0x20000022)
ADD = plain(0x80000004, 0x80000006)
ROWS = [
    *plain(0x1000, 0x1004, 0x1008, 0x100C, 0x1010), (0x1014, UNINFERABLE),
    *plain(0x20000000, 0x20000004, 0x20000008, 0x2000000C, 0x20000010, 0x20000014),
    *3 * [*COPY, (0x20000024, TAKEN)], *COPY, (0x20000024, NOT_TAKEN),
    *plain(0x20000028, 0x2000002C, 0x20000030, 0x20000034, 0x20000038, 0x2000003A, 0x2000003E), (0x20000042, UNINFERABLE),
    *plain(0x80000000, 0x80000002), *2 * [*ADD, (0x80000008, TAKEN)], *ADD, (0x80000008, NOT_TAKEN), (0x8000000A, UNINFERABLE),
    (0x20000044, "1,3,b,0"),
    *plain(0x8000000C, 0x80000010, 0x80000012), (0x80000016, BACK),
]
ARGUMENTS = [f"{FLASH:x}={RECORDED}/memories_flash.bin", f"{BASE:x}={RECORDED}/memories_ram.bin"]
ALSO = [word for argument in ARGUMENTS for word in ("--also", argument)]


class FromReset(InFolder):
    """QEMU's `virt` machine, whose boot ROM goes to flash: each memory is a file that its monitor wrote."""

    def setUp(self):
        super().setUp()
        self.rom = os.path.join(RECORDED, "memories_rom.bin")

    def log(self, *words):
        """The log, and what is printed."""
        ran = record("qemu", *words, "-", self.folder, given=recorded("memories.log.xz"))
        self.assertEqual((ran.returncode, ran.stderr), (0, b""), ran.stderr)
        with open(os.path.join(self.folder, "hart00.csv")) as file:
            return file.read(), ran.stdout.decode().splitlines()

    def test_each_instruction_from_the_first_at_reset_has_a_row(self):
        text, [line] = self.log(*ALSO, "1000", self.rom)
        self.assertEqual(text, reading.HEADER + "\n" + "".join(f"{address:x},{rest}\n" for address, rest in ROWS))
        self.assertTrue(line.startswith("hart 0: 57 rows, 56 retirements, 1 traps; last at 80000016: end of the recording; "))

    def test_the_log_is_legal_by_the_other_reading(self):
        also = [(base, recorded(f"memories_{name}.bin")) for base, name in ((FLASH, "flash"), (BASE, "ram"))]
        program = reading.Program(ROM, recorded("memories_rom.bin"), also)
        text, _ = self.log(*ALSO, "1000", self.rom)
        self.assertIsNone(first_illegal(program, text))

    def test_the_pieces_are_written(self):
        path = os.path.join(self.folder, "program.bin")
        _, lines = self.log(*ALSO, "--image", path, "1000", self.rom)
        files = {path: "rom", f"{path}.20000000": "flash", f"{path}.80000000": "ram"}
        for name, memory in files.items():
            with open(name, "rb") as file:
                self.assertEqual(file.read(), recorded(f"memories_{memory}.bin"))
        self.assertEqual(lines[:-1], [
            f"image: base 1000, 40 bytes; written to {path}",
            f"image: also 20000000, 80 bytes; written to {path}.20000000",
            f"image: also 80000000, 32 bytes; written to {path}.80000000",
            f"image: the arguments are --base 1000 --also 20000000={path}.20000000 --also 80000000={path}.80000000 {path}",
        ])

    @unittest.skipUnless(importlib.util.find_spec("elftools"), "pyelftools is not there")
    def test_the_segments_of_an_elf_file_are_pieces(self):
        text, lines = self.log("--also", f"1000={self.rom}", os.path.join(RECORDED, "memories.elf"))
        self.assertEqual(len(text.splitlines()), 1 + len(ROWS))
        self.assertEqual(lines[:-1], [
            "image: base 20000000, 80 bytes", "image: also 80000000, 32 bytes", "image: also 1000, 40 bytes"])

    @unittest.skipUnless(TRACEBENCH, "TRACEBENCH does not name the program")
    def test_the_program_has_the_verdict(self):
        self.log(*ALSO, "1000", self.rom)
        log = os.path.join(self.folder, "hart00.csv")
        ran = subprocess.run([TRACEBENCH, "check", "--base", "1000", *ALSO, self.rom, log], capture_output=True, text=True)
        self.assertEqual((ran.returncode, ran.stdout, ran.stderr), (0, f"{log}: legal, 57 events\n", ""))
        words = [os.path.join(TOOLS, "verdict"), *ALSO, "--program", TRACEBENCH, "--periods", "1,1024", "1000", self.rom, log]
        ran = subprocess.run(words, capture_output=True, text=True)
        self.assertEqual((ran.returncode, ran.stdout.splitlines()[-1], ran.stderr), (0, "verdict: good", ""))
