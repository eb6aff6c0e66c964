"""The messages of a capture and the rows of its hart that each settles, by the table of `tracebench list --format csv`."""
import csv

from recording.unusable import Unusable

WANTED = {"hart", "number", "packet", "first_row", "last_row"}


def messages_in(path):
    """Of each message that settles rows: its hart, its name, and the first row and the last, from 1."""
    with open(path, newline="", encoding="utf-8", errors="replace") as file:
        table = csv.DictReader(file)
        if not WANTED <= {*(table.fieldnames or ())}:
            raise Unusable(f"{path}: line 1: no table of `list --format csv` with columns of rows")
        for row in table:
            if not row["first_row"]:
                continue
            try:
                hart, number, first, last = (int(row[name]) for name in ("hart", "number", "first_row", "last_row"))
            except (TypeError, ValueError):
                raise Unusable(f"{path}: line {table.line_num}: no row of `list --format csv`") from None
            yield hart, f"{row['packet']} {number}", first, last
