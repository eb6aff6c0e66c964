"""What a script found, a line for each thing that it tried, so that a later run need not try it again."""
import hashlib
import json
import os


def sum_of(*parts):
    """A sum of texts, numbers and the like."""
    return hashlib.sha256(repr(parts).encode()).hexdigest()


class Kept:
    """A file of what was found, or none: rows by the sums of what they were found over."""

    def __init__(self, path):
        self.path, self.rows = path, {}
        if path and os.path.exists(path):
            with open(path, encoding="utf-8") as file:
                self.rows = {row["sum"]: row for row in map(json.loads, file)}

    def row(self, code):
        """What was found over this, or None."""
        return self.rows.get(code)

    def keep(self, code, **found):
        """Keeps what was found over this."""
        self.rows[code] = {"sum": code, **found}
        if self.path:
            with open(self.path, "a", encoding="utf-8") as file:
                file.write(json.dumps(self.rows[code]) + "\n")
