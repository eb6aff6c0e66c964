"""Tables that the program prints, read by Python's `csv`, and where it is installed by `pandas`, which has to find the
same."""

import csv
import io

try:
    import pandas
except ImportError:
    pandas = None


class NotTheText(Exception):
    """A table does not say what the text does, or is none."""


def rows_of(table, columns):
    """The rows of a table, which is bytes, by the names of its columns."""
    names, *rows = csv.reader(io.StringIO(table.decode("utf-8", "surrogateescape"), newline="")) if table else [()]
    if tuple(names) != columns:
        raise NotTheText("other columns")
    if wrong := [row for row in rows if len(row) != len(columns)]:
        raise NotTheText(f"{len(wrong[0])} fields: {wrong[0]}")
    if pandas and rows:
        # It is asked for texts: of a column with empty fields it makes doubles before it makes numbers, and numbers of
        # messages may be above 2^53.
        frame = pandas.read_csv(io.BytesIO(table), encoding_errors="surrogateescape", keep_default_na=False, dtype=str)
        if frame.values.tolist() != rows or tuple(frame.columns) != columns:
            raise NotTheText("pandas reads other fields")
    return [dict(zip(columns, row)) for row in rows]
