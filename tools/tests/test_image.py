"""Which row a word gives, compared with the table of docs/FORMATS.md as checks/fuzz reads it."""
import random
import unittest

from support import BASE, MRET, NOP, SRET, image_of, reading

from recording.image import Image

TYPES = {"plain": "0", "jump": "0", "branch": "45", "uninferable": "6"}


def entry(word, level=3, base=BASE):
    return Image(base, word.to_bytes(4, "little")).instruction(None, base, level)


def where(found):
    return found.next, found.target


class Entries(unittest.TestCase):
    def test_a_plain_word(self):
        found = entry(NOP)
        self.assertEqual((found.address, found.level, where(found)), (BASE, 3, (BASE + 4, None)))
        self.assertEqual((found.row, found.taken, found.highest), (b"80000000,0,3,,\n", b"80000000,0,3,,\n", None))

    def test_a_compressed_word_is_two_bytes_long(self):
        self.assertEqual(where(entry(0x0001)), (BASE + 2, None))

    def test_a_branch_has_a_target_and_two_rows(self):
        found = entry(0x00000463, level=0)
        self.assertEqual((where(found), found.row, found.taken), ((BASE + 4, BASE + 8), b"80000000,4,0,,\n", b"80000000,5,0,,\n"))
        self.assertEqual([found.row_before(BASE + 4), found.row_before(BASE + 8)], [b"80000000,4,0,,\n", b"80000000,5,0,,\n"])
        self.assertEqual([found.leads_to(BASE + away) for away in (0, 4, 8, 12)], [False, True, True, False])

    def test_a_branch_backwards(self):
        self.assertEqual(entry(0xFE000EE3).target, BASE - 4)

    def test_a_compressed_branch(self):
        self.assertEqual(where(entry(0xC011)), (BASE + 2, BASE + 4))

    def test_a_target_wraps_at_the_last_address(self):
        top = (1 << 64) - 8
        self.assertEqual(Image(top, image_of(0x00000463)).instruction(None, top, 3).target, 0)

    def test_returns_lead_anywhere_and_so_high(self):
        for word, highest in ((MRET, 3), (SRET, 1)):
            found = entry(word)
            self.assertEqual((found.level, found.row, found.highest), (3, b"80000000,3,3,,\n", highest))
            self.assertTrue(found.leads_anywhere())

    def test_a_jump_through_x0_is_inferable(self):
        found = entry(0x00000067)
        self.assertEqual((found.row, where(found)), (b"80000000,0,3,,\n", (None, 0)))
        self.assertEqual(where(entry(0xFFF00067)), (None, (1 << 64) - 2))

    def test_jumps_through_registers(self):
        for word in (0x00008067, 0x8082, 0x9282):  # JALR x0, 0(ra); C.JR ra; C.JALR t0
            found = entry(word)
            self.assertEqual((found.row, found.leads_anywhere()), (b"80000000,6,3,,\n", True))

    def test_calls_of_a_program_of_user_level_are_plain_words(self):
        of = Image(BASE, image_of(NOP, 0x73, 0x73), is_user=True)
        self.assertEqual(where(of.instruction(None, BASE + 4, 0)), (BASE + 8, None))
        self.assertEqual(of.content, image_of(NOP, NOP, 0x73))

    def test_a_breakpoint_is_no_jump(self):
        self.assertEqual(entry(0x9002).row, b"80000000,0,3,,\n")

    def test_what_is_inside(self):
        of = Image(BASE, image_of(NOP))
        self.assertEqual([address in of for address in (BASE - 1, BASE, BASE + 3, BASE + 4)], [False, True, True, False])

    def test_random_words_have_the_types_and_targets_of_the_formats(self):
        draw = random.Random(46)
        seen = set()
        for _ in range(30000):
            word = draw.getrandbits(32)
            if draw.random() < 0.3:
                word = word & ~0x7F | draw.choice((0x63, 0x67, 0x6F, 0x73))
            kind, target, _ = reading.Program(BASE, word.to_bytes(4, "little")).at(BASE)
            if kind in TYPES:
                seen.add(kind)
                self.compare(word, TYPES[kind], target if kind in ("branch", "jump") else None)
        self.assertEqual(seen, {"plain", "jump", "branch", "uninferable"})

    def compare(self, word, types, target):
        found = entry(word)
        rows = [found.row, found.taken] if len(types) == 2 else [found.row]
        self.assertEqual([row.split(b",")[1].decode() for row in rows], list(types), hex(word))
        self.assertEqual(found.target, target, hex(word))
        self.assertEqual(found.next is not None, types in ("0", "45") and (target is None or types == "45"), hex(word))
