"""The files that the rows of one hart go to."""
import os

ROW_LIMIT = 16_777_216  # the most rows of a log that `tracebench` takes
LONG_ROW_LIMIT = 4_294_967_295  # the same of its subcommands that have `--long`, where that is given
KEPT_BYTES = 1 << 15  # of a file, before they are written, so that most digits are set in memory
HEADER = b"addr,itype,priv,cause,tval\n"


class Files:
    """The rows of one hart, at most `row_limit` in a file: `hart00.csv`, or in pieces `hart00_0001.csv`, `hart00_0002.csv` and so
    on."""

    def __init__(self, folder, hart, has_pieces=False, row_limit=ROW_LIMIT):
        self.folder, self.hart, self.has_pieces, self.row_limit = folder, hart, has_pieces, row_limit
        self.rows = 0  # in all pieces
        self.last_row = None
        self.is_full = False  # a row had no room
        self.piece = -1
        self.file = None
        self.begin_piece()

    def path(self, piece):
        number = f"_{piece + 1:04}" if self.has_pieces else ""
        return os.path.join(self.folder, f"hart{self.hart:02}{number}.csv")

    def begin_piece(self):
        self.close()
        self.piece += 1
        self.file = open(self.path(self.piece), "wb", buffering=0)
        self.kept, self.written = bytearray(HEADER), 0
        self.room = self.row_limit

    def make_room(self):
        """Begins a piece where the last one is full; where there are no pieces, no row has room any more."""
        if self.room == 0 and self.has_pieces:
            self.begin_piece()
        self.is_full = self.room == 0

    def write(self, rows):
        """Writes rows, as many as have room."""
        while rows:
            self.make_room()
            if self.is_full:
                return
            part, rows = rows[: self.room], rows[self.room :]
            self.kept += b"".join(part)
            if len(self.kept) > KEPT_BYTES:
                self.write_kept()
            self.room -= len(part)
            self.rows += len(part)
            self.last_row = part[-1]

    def write_kept(self):
        while self.kept:
            count = self.file.write(self.kept)
            self.written += count
            del self.kept[:count]

    def place_of_last(self):
        """The piece and the offset that the last row begins at."""
        return self.piece, self.written + len(self.kept) - len(self.last_row)

    def set_digit(self, place, digit):
        """Sets one digit of a row that was written."""
        piece, offset = place
        if piece != self.piece:
            with open(self.path(piece), "r+b") as earlier:
                os.pwrite(earlier.fileno(), b"%d" % digit, offset)
        elif offset < self.written:
            os.pwrite(self.file.fileno(), b"%d" % digit, offset)
        else:
            self.kept[offset - self.written] = ord("0") + digit

    def close(self):
        if self.file:
            self.write_kept()
            self.file.close()
