"""ELF files: the image and the symbols that they give, and what is refused."""
import importlib.util
import os
import struct
import subprocess
import sys
import unittest
from unittest import mock

from support import BASE, NOP, RECORDED, TOOLS, TRACEBENCH, InFolder, image_of, record, recorded

from recording import elf
from recording.image import LARGEST_IMAGE
from recording.inputs import image_at
from recording.pieces import MOST_BYTES
from recording.unusable import Unusable

HAS_LIBRARY = importlib.util.find_spec("elftools") is not None
RISCV, EXECUTABLE_FILE, SHARED = 243, 2, 3
READ_EXECUTE, READ_WRITE = 5, 6
FLASH = 0x20000000


def elf_of(*segments, machine=RISCV, kind=EXECUTABLE_FILE, entry=0):
    """An ELF file with no sections. A segment is its address, its bytes and its flags."""
    file = kind, machine, 1, entry, 64, 0, 0, 64, 56, len(segments), 0, 0, 0
    head = struct.pack("<4s5B7xHHIQQQIHHHHHH", b"\x7fELF", 2, 1, 1, 0, 0, *file)
    place, table, content = 64 + 56 * len(segments), b"", b""
    for address, data, flags in segments:
        at = place + len(content)
        table += struct.pack("<IIQQQQQQ", 1, flags, at, address, address, len(data), len(data) + 100, 1)
        content += data
    return head + table + content


@unittest.skipUnless(HAS_LIBRARY, "pyelftools is not there")
class Read(InFolder):
    def image(self, content, base=None):
        found = image_at(base, self.file("program.elf", content))
        return found.base, found.content

    def refused(self, content, want, base=None):
        with self.assertRaisesRegex(Unusable, want):
            self.image(content, base)

    def test_a_segment(self):
        self.assertEqual(self.image(elf_of((BASE, image_of(NOP), READ_EXECUTE))), (BASE, image_of(NOP)))

    def pieces(self, *segments, **how):
        found = image_at(None, self.file("program.elf", elf_of(*segments, **how)))
        return [(piece.base, bytes(piece.content)) for piece in found.pieces]

    def test_each_segment_is_a_piece(self):
        flash, ram = (FLASH, image_of(NOP), READ_EXECUTE), (BASE, b"data", READ_WRITE)
        self.assertEqual(self.pieces(ram, flash), [(FLASH, image_of(NOP)), (BASE, b"data")])

    def test_nothing_is_between_segments(self):
        pieces = self.pieces((BASE + 8, b"\x01\x02", READ_WRITE), (BASE, image_of(NOP), READ_EXECUTE))
        self.assertEqual(pieces, [(BASE, image_of(NOP)), (BASE + 8, b"\x01\x02")])

    def test_segments_that_touch_are_one_piece(self):
        rest, first = (BASE + 4, b"\x01\x02\x03", READ_WRITE), (BASE, image_of(NOP), READ_EXECUTE)
        self.assertEqual(self.pieces(rest, first, (BASE + 7, b"\x04", 4)), [(BASE, image_of(NOP) + b"\x01\x02\x03\x04")])

    def test_the_piece_with_the_entry_point_is_the_first(self):
        segments = [(FLASH, b"rom ", 4), (FLASH + 8, image_of(NOP, NOP), READ_EXECUTE), (BASE, b"data", READ_WRITE)]
        for entry in (FLASH + 8, FLASH + 15):
            self.assertEqual([base for base, _ in self.pieces(*segments, entry=entry)], [FLASH + 8, FLASH, BASE])
        for entry in (FLASH + 3, FLASH + 5, FLASH + 16):
            self.assertEqual([base for base, _ in self.pieces(*segments, entry=entry)], [FLASH, FLASH + 8, BASE])

    def test_the_first_byte_at_an_odd_address_is_left_out(self):
        pieces = self.pieces((BASE, image_of(NOP), READ_EXECUTE), (BASE + 9, b"\x01\x02\x03", 4), (BASE + 17, b"\x04", 4))
        self.assertEqual(pieces, [(BASE, image_of(NOP)), (BASE + 10, b"\x02\x03")])

    def test_a_large_segment_is_several_pieces(self):
        content = bytes(range(256)) * (LARGEST_IMAGE // 256) + b"the rest"
        self.assertEqual(self.pieces((BASE, content, READ_EXECUTE)), [
            (BASE, content[:LARGEST_IMAGE]), (BASE + LARGEST_IMAGE, b"the rest")])

    def test_a_segment_without_bytes_is_nothing(self):
        content = elf_of((0x100, b"", READ_WRITE), (BASE, image_of(NOP), READ_EXECUTE))
        self.assertEqual(self.image(content), (BASE, image_of(NOP)))

    def test_data_are_left_out_where_all_is_too_large(self):
        code = (FLASH, image_of(NOP), READ_EXECUTE)
        data = (BASE, bytes(MOST_BYTES - 3), READ_WRITE)
        self.assertEqual(self.pieces(code, data), [(FLASH, image_of(NOP))])

    def test_all_bytes_that_there_may_be(self):
        code = (FLASH, image_of(NOP), READ_EXECUTE)
        pieces = self.pieces(code, (BASE, bytes(MOST_BYTES - 4), READ_WRITE))
        self.assertEqual([len(content) for _, content in pieces], [4, *3 * [LARGEST_IMAGE], LARGEST_IMAGE - 4])

    def test_code_that_is_too_large(self):
        self.refused(elf_of((BASE, bytes(MOST_BYTES + 1), READ_EXECUTE)), "do not lie within 67108864 bytes")

    def test_too_many_segments(self):
        segments = [(BASE + 4 * place, b"\x01\0", READ_EXECUTE) for place in range(1025)]
        self.refused(elf_of(*segments), "more than 1024 pieces")
        self.assertEqual(len(self.pieces(*segments[1:])), 1024)

    def test_headers_that_are_loaded_are_left_out(self):
        """The first segment of this file begins with the file's own headers, and the file has no sections."""
        content = bytearray(elf_of((BASE, image_of(NOP), READ_EXECUTE)))
        struct.pack_into("<QQQQ", content, 64 + 8, 0, BASE - 120, BASE - 120, 124)
        self.assertEqual(self.image(bytes(content)), (BASE, image_of(NOP)))

    def test_nothing_that_is_loaded(self):
        self.refused(elf_of(), "do not lie within")

    def test_another_machine(self):
        self.refused(elf_of((BASE, b"1234", READ_EXECUTE), machine=62), "another machine than RISC-V")

    def test_no_fixed_address(self):
        self.refused(elf_of((0, b"1234", READ_EXECUTE), kind=SHARED), "has no fixed address")

    def test_a_base_is_refused(self):
        self.refused(elf_of((BASE, b"1234", READ_EXECUTE)), "which has its own base: leave 80000000 out", "80000000")

    def test_a_file_that_is_cut(self):
        whole = elf_of((BASE, b"1234", READ_EXECUTE))
        for length in (4, 40, 64, 100):
            self.refused(whole[:length], "is no whole ELF file")

    def test_symbols(self):
        """They are those that `riscv64-unknown-elf-nm` prints."""
        want = "100b0 T _start, 100d4 t text, 110da T __DATA_BEGIN__, 110da T __SDATA_BEGIN__, 110da T __bss_start, 110da T _edata, "
        want += "110e0 T __BSS_END__, 110e0 T _end, 118da A __global_pointer$"
        lines = elf.symbols_in(os.path.join(RECORDED, "user.elf")).splitlines()
        self.assertEqual(", ".join(line.lstrip("0") for line in lines), want)
        self.assertEqual({len(line.split()[0]) for line in lines}, {16})

    def test_a_recording(self):
        """The program of user level writes ten lines, and its calls are plain words of the image that is written."""
        for version in ("7.2", "10.0"):
            logs, image = os.path.join(self.folder, version), os.path.join(self.folder, version + ".bin")
            os.mkdir(logs)
            words = ["qemu", "--user", "--image", image, os.path.join(RECORDED, "user.elf"), "-", logs]
            ran = record(*words, given=recorded(f"user_{version}.log.xz"))
            self.assertEqual((ran.returncode, ran.stderr), (0, b""))
            first, second = ran.stdout.decode().splitlines()
            self.assertTrue(first.startswith("image: base 100b0, 42 bytes; "), first)
            self.assertTrue(first.endswith(f"; written to {image}, symbols to {image}.symbols"))
            self.assertTrue(second.startswith("hart 0: 83 rows, 83 retirements, 0 traps; last at 100cc: "), second)
            with open(image, "rb") as file:
                content = file.read()
            self.assertEqual(content[0x12:0x16] + content[0x20:0x24], image_of(NOP, NOP))
            self.assertEqual(content[:0x12], recorded("user.elf")[0xB0:0xC2])
            with open(image + ".symbols") as file:
                self.assertIn("T _start\n", file.read())


class Image(InFolder):
    def ran(self, *words):
        ran = subprocess.run([sys.executable, os.path.join(TOOLS, "image"), *words], capture_output=True, text=True, cwd=self.folder)
        return ran.returncode, ran.stdout, ran.stderr

    @unittest.skipUnless(HAS_LIBRARY, "pyelftools is not there")
    def test_the_arguments_and_the_files(self):
        self.file("program.elf", elf_of((FLASH, image_of(NOP), READ_EXECUTE), (BASE, b"data", READ_WRITE), entry=FLASH))
        self.assertEqual(self.ran("program.elf"), (0, "--base 20000000 --also 80000000=program.elf.bin.80000000 program.elf.bin\n", ""))
        self.assertEqual(self.ran("program.elf", "raw"), (0, "--base 20000000 --also 80000000=raw.80000000 raw\n", ""))
        for name, content in (("raw", image_of(NOP)), ("raw.80000000", b"data"), ("program.elf.bin", image_of(NOP))):
            with open(os.path.join(self.folder, name), "rb") as file:
                self.assertEqual(file.read(), content)
        self.assertTrue(os.path.exists(os.path.join(self.folder, "raw.symbols")))

    @unittest.skipUnless(HAS_LIBRARY and TRACEBENCH, "pyelftools or the program is not there")
    def test_the_program_takes_them(self):
        self.file("program.elf", elf_of((FLASH, image_of(NOP, NOP), READ_EXECUTE), (BASE, b"data", READ_WRITE), entry=FLASH))
        with open(os.path.join(self.folder, "log.csv"), "w") as file:
            file.write("addr,itype,priv,cause,tval\n20000000,0,3,,\n20000004,0,3,,\n")
        words = [TRACEBENCH, "check", *self.ran("program.elf")[1].split(), "log.csv"]
        self.assertEqual(subprocess.run(words, capture_output=True, text=True, cwd=self.folder).stdout, "log.csv: legal, 2 events\n")

    def test_what_is_no_elf_file(self):
        self.file("program.elf", b"1234")
        self.assertEqual(self.ran("program.elf"), (2, "", "image: program.elf is no ELF file; a raw image needs no other form\n"))
        self.assertEqual(self.ran("none"), (2, "", "image: none: No such file or directory\n"))


class WithoutTheLibrary(InFolder):
    def test_the_line_to_use(self):
        path = self.file("program.elf", elf_of((BASE, image_of(NOP), READ_EXECUTE)))
        with mock.patch.dict("sys.modules", {"elftools": None, "elftools.elf.elffile": None, "elftools.common.exceptions": None}):
            with self.assertRaisesRegex(Unusable, f"{sys.executable} has no module elftools: .*python3-pyelftools.*: riscv64-unknown-elf-objcopy -O binary .*program.elf"):
                image_at(None, path)
