"""Which flags the runs of a kind have to take, so that each of them is tried."""

import comparisons

PERIODS = ("--period 1", "--period 3", "--period 8", "--period 1024", "--period 65535")
FORMS = ("--v1", "--hex", "--full")
FEW_HARTS = ("--harts 1", "--harts 2", "--harts 3")
FEW_CAPACITIES = ("--capacity 1", "--capacity 2", "--capacity 16")
FEW_PARTS = ("--of 1", "--of 2", "--of 3", "--of 5", "--of 8")

# The flags that the runs of a kind have to take, but for the base: each at least once, and with each of these values.
FLAGS = {
    "captures": (*FEW_HARTS, "--lossy"),
    "logs": (*FORMS, *PERIODS, "--symbols symbols", "--explain"),
    "audits": ("--packets", "--summary"),
    "measures": ("--hex", "--full", "--period 2", *PERIODS),
    "lists": (*FEW_HARTS, "--symbols symbols", "--rows", "--format csv"),
    "salvages": (*FEW_HARTS, "--summary", "--lossy", "--format csv"),
    "treated": (*FEW_HARTS, "--salvage", "--format csv"),
    "lines": ("--v1", "--full", "--period 7", *(f"--harts {count}" for count in (1, 2, 64, 65, 1024))),
    "dumps": ("--search",),
    "unnumbered": ("--unnumbered", "--packets", "--summary"),
    "parts": (*FORMS, *PERIODS, *FEW_PARTS, *(f"--first {hart}" for hart in range(8))),
    "live": ("--live", "--packets", "--summary", *(f"--window {count}" for count in range(1, 9))),
    "tables": ("--format text", "--format csv", "--packets", "--summary", "--unnumbered"),
    "comparisons": ("--explain", "--long", "--progress", *(f"--harts {count}" for count in comparisons.ASKED_HARTS)),
    "threads": ("--full", *PERIODS, *FEW_CAPACITIES),
    "only": (*FEW_HARTS, "--only", "--lossy", "--salvage", "--search", "--summary", "--packets", "--unnumbered", "--format csv"),
    "memories": (
        *("--also", "--explain", "--hex", "--full", "--lossy", "--salvage", "--format csv"),
        *(*FEW_HARTS, *PERIODS, *FEW_CAPACITIES),
    ),
}
# The flags that a value follows.
VALUED = ("--base", "--period", "--harts", "--symbols", "--first", "--of", "--format", "--capacity", "--window")


def flags_of(words):
    """The flags of a run, each with its value, but for the base and for what a piece is."""
    found = (f"{it} {words[at + 1]}" if it in VALUED else it for at, it in enumerate(words) if it.startswith("--"))
    return [flag.partition("=")[0] for flag in found if not flag.startswith("--base ")]
