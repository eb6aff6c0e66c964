"""The image, and what its words say of the rows of a log."""
from bisect import bisect_right

SRET, MRET, ECALL, EBREAK, NOP = 0x10200073, 0x30200073, 0x73, 0x100073, 0x13
COMPRESSED_EBREAK = 0x9002
NOWHERE = -1  # an address to which nothing leads
HIGHEST_LEVEL = {SRET: 1, MRET: 3}  # that a return leads to
LARGEST_IMAGE = 16_777_216  # bytes, and of each other piece
NONE, BACK_FROM_TRAP, NOT_TAKEN, TAKEN_BRANCH, UNINFERABLE = 0, 3, 4, 5, 6  # the types of retirements


def bits(word, high, low):
    return word >> low & (1 << high - low + 1) - 1


def signed(number, width):
    return number - (number >> width - 1 << width)


def branch_offset(word):
    """How far a conditional branch leads when it is taken; None for any other word."""
    if word & 0x7F == 0x63 and bits(word, 14, 12) not in (2, 3):
        far = bits(word, 31, 31) << 12 | bits(word, 7, 7) << 11
        return signed(far | bits(word, 30, 25) << 5 | bits(word, 11, 8) << 1, 13)
    if word & 3 == 1 and bits(word, 15, 13) in (6, 7):
        far = bits(word, 12, 12) << 8 | bits(word, 6, 5) << 6 | bits(word, 2, 2) << 5
        return signed(far | bits(word, 11, 10) << 3 | bits(word, 4, 3) << 1, 9)
    return None


def jump_target(word, address):
    """Where a jump leads whose target its word says; None for any other word."""
    if word & 0x7F == 0x6F:
        far = bits(word, 31, 31) << 20 | bits(word, 19, 12) << 12 | bits(word, 20, 20) << 11
        return address + signed(far | bits(word, 30, 21) << 1, 21)
    if word & 3 == 1 and bits(word, 15, 13) == 5:
        far = bits(word, 12, 12) << 11 | bits(word, 8, 8) << 10 | bits(word, 10, 9) << 8 | bits(word, 6, 6) << 7
        far |= bits(word, 7, 7) << 6 | bits(word, 2, 2) << 5 | bits(word, 11, 11) << 4
        return address + signed(far | bits(word, 5, 3) << 1, 12)
    if word & 0xFF07F == 0x67:
        return signed(bits(word, 31, 20), 12) & ~1
    return None


def is_uninferable(word):
    """Whether the word is JALR with a source register other than x0, C.JR or C.JALR."""
    if word & 0x707F == 0x67:
        return bits(word, 19, 15) != 0
    return word & 3 == 2 and bits(word, 15, 13) == 4 and bits(word, 6, 2) == 0 and bits(word, 11, 7) != 0


def is_jump_and_link_of_rv32(word):
    """Whether the word is C.JAL of RV32, which is C.ADDIW of RV64."""
    return word & 3 == 1 and bits(word, 15, 13) == 1


def retires(word):
    """Whether a word may retire: calls and breakpoints trap, and what is no instruction does too."""
    return word not in (ECALL, EBREAK, COMPRESSED_EBREAK, 0) and word & 0x1F != 0x1F


class Instruction:
    """A retirement of one hart: an instruction of the image at a level. `next` is the address behind it and `target` that
    of its jump or its taken branch, each None where it does not lead there; where both are None it may lead anywhere, and
    where the word does not retire, `next` is `NOWHERE`. `row` is its row, `taken` its row where the next event is at
    `target`, and `highest` the highest level that a return leads to, None for what is no return. `usual` is the instruction that followed it last, and `usual_row` its row before that one."""

    __slots__ = ("hart", "address", "level", "next", "target", "row", "taken", "highest", "usual", "usual_row")
    is_inside, is_trap = True, False

    def __init__(self, hart, address, level, word):
        self.hart, self.address, self.level = hart, address, level
        self.next = self.target = self.usual = self.usual_row = None
        self.highest = HIGHEST_LEVEL.get(word)
        itype = NONE if self.highest is None else BACK_FROM_TRAP
        offset, jump = branch_offset(word), jump_target(word, address)
        if offset is not None:
            itype, self.next, self.target = NOT_TAKEN, behind(address, word), address + offset & (1 << 64) - 1
        elif jump is not None:
            self.target = jump & (1 << 64) - 1
        elif not retires(word):
            self.next = NOWHERE
        elif is_uninferable(word):
            itype = UNINFERABLE
        elif self.highest is None:
            self.next = behind(address, word)
        self.row = self.taken = row(address, itype, level)
        if offset is not None:
            self.taken = row(address, TAKEN_BRANCH, level)

    def leads_anywhere(self):
        return self.next is None and self.target is None

    def leads_to(self, address):
        return address in (self.next, self.target) or self.leads_anywhere()

    def row_before(self, address):
        """Its row, where the next event stands at an address."""
        return self.taken if address == self.target else self.row

    def is_certain(self):
        """Whether its row is the same whatever follows."""
        return self.next is None or self.target is None

    def levels_behind(self):
        """The lowest and the highest level of an event behind it."""
        if self.highest is not None:
            return 0, self.highest
        return self.level, self.level


class Outside:
    """Any instruction of one hart outside the image at a level: it has no row."""

    __slots__ = ("hart", "level", "usual", "usual_row")
    is_inside, highest = False, None

    def __init__(self, hart, level):
        self.hart, self.level, self.usual, self.usual_row = hart, level, None, None


class Nothing:
    """What a line announces that was not looked into yet, or is no line of an instruction."""

    usual = usual_row = None


def behind(address, word):
    return address + (4 if word & 3 == 3 else 2) & (1 << 64) - 1


def row(address, itype, level):
    return b"%x,%d,%d,,\n" % (address, itype, level)


class Piece:
    """Bytes of a program from an address on."""

    __slots__ = ("base", "content")

    def __init__(self, base, content):
        self.base, self.content = base, content

    def end(self):
        """The address behind the last byte."""
        return self.base + len(self.content)


class Image:
    """The bytes of a program: a piece from its base address on, and others, each with its own. No two of them overlap, and
    those that touch act as one. Of a program of user level alone, whose calls no trap shows, each call that is executed is
    written over with a word that does nothing."""

    def __init__(self, base, content, is_user=False, also=()):
        self.is_user = is_user
        self.pieces = [Piece(at, bytearray(data) if is_user else data) for at, data in ((base, content), *also)]
        self.first = self.pieces[0]
        self.by_address = sorted((piece for piece in self.pieces if piece.content), key=lambda piece: piece.base)
        self.bases = [piece.base for piece in self.by_address]

    @property
    def base(self):
        return self.first.base

    @property
    def content(self):
        return self.first.content

    def piece_at(self, address):
        """The piece that has the byte at an address; None where none has."""
        place = bisect_right(self.bases, address) - 1
        return self.by_address[place] if place >= 0 and address < self.by_address[place].end() else None

    def __contains__(self, address):
        return self.piece_at(address) is not None

    def bytes_at(self, address, count):
        """So many bytes from an address on, or as many as there are in a row."""
        found = b""
        while len(found) < count and (piece := self.piece_at(address + len(found))):
            place = address + len(found) - piece.base
            found += piece.content[place : place + count - len(found)]
        return found

    def write_over(self, address, data):
        """Puts other bytes from an address on, where there are some."""
        for at, byte in enumerate(data, address):
            piece = self.piece_at(at)
            piece.content[at - piece.base] = byte

    def word(self, address):
        """The word at an address of the image: 16 bits of it, or 32 where its two lowest bits are 11."""
        found = self.bytes_at(address, 4)
        word = int.from_bytes(found, "little")
        if word == ECALL and self.is_user and len(found) == 4:
            self.write_over(address, NOP.to_bytes(4, "little"))
            word = NOP
        return word if word & 3 == 3 else word & 0xFFFF

    def instruction(self, hart, address, level):
        return Instruction(hart, address, level, self.word(address))
