"""Which crates have tests, and which tests reach a crate."""
import os

import crate_list

# The crates that play files of cases, and those of test functions, small ones before large ones.
FIRST = ("channel_vectors", "path_vectors", "vectors", "trace_tests", "ffi_vectors")

# The program, which `checks/second-runs` runs. These runs come last: `transcripts` plays all below it.
PROGRAM = "tracebench"


class Crates:
    """The crates of the repository."""

    def __init__(self):
        self.uses = crate_list.crates()
        place = lambda crate: FIRST.index(crate) if crate in FIRST else len(FIRST) + (crate == PROGRAM)
        self.with_tests = sorted(filter(has_tests, self.uses), key=place)
        self.whole = {crate: crate_list.whole(self.uses, crate) for crate in self.with_tests}
        self.sums = {}

    def tests_of(self, crate):
        """The crates with tests that use a crate, or are it."""
        return [tests for tests in self.with_tests if crate in self.whole[tests]]

    def sum_of(self, tests):
        """A sum of all code that the tests of a crate are made of."""
        if tests not in self.sums:
            self.sums[tests] = crate_list.sum_of_code(self.whole[tests], "src", "data")
        return self.sums[tests]


def has_tests(crate):
    return crate == PROGRAM or bool(played(crate)) or any(
        "#[test]" in crate_list.content(file) for file in crate_list.files(crate, "src"))


def played(crate):
    """The files of cases that a program plays, in their order; none where a crate has test functions or no tests."""
    folder = f"{crate_list.TOP}/crates/{crate}"
    if "cases" not in crate_list.crates()[crate] or not os.path.exists(f"{folder}/args"):
        return []
    return crate_list.content(f"{folder}/args").split()
