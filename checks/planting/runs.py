"""Runs of a program of tests, a process a test: a test function, a file of cases that the program plays, or the second runs."""
import os
import shlex
import shutil
import struct
import subprocess
import tempfile
import time
from dataclasses import dataclass, field

from built import TOP
from planting.copies import kit, script

# As many seconds as a test has at least.
SECONDS = 60


@dataclass(eq=False)
class Test:
    """A test, how long it took with nothing planted, and the numbers of the bodies that it came to."""

    name: str
    seconds: float = 0.0
    reached: set = field(default_factory=set)

    def limit(self):
        return SECONDS + 10 * self.seconds


class Tests:
    """The tests of a program: its test functions, or the files of cases in a folder that it is to play."""

    def __init__(self, program, played=(), data=None):
        self.program, self.data = program, data
        self.words = [f"{kit()}/toolchain/lib/ld-linux-x86-64.so.2", "--inhibit-cache", "--library-path",
                      f"{kit()}/toolchain/lib", os.path.abspath(program)]
        if not played:
            listed = subprocess.run([*self.words, "--list"], env={}, capture_output=True, text=True, check=True)
            played = names_in(listed.stdout)
        self.tests = [Test(name) for name in played]

    def command(self, test, _):
        """What runs a test, in a folder."""
        return [*self.words, test.name]

    def passes(self, test, **chosen):
        """Whether a test passes, in as many seconds as it has."""
        with tempfile.TemporaryDirectory() as folder:
            if self.data:
                shutil.copytree(self.data, folder, dirs_exist_ok=True)
            try:
                done = subprocess.run(self.command(test, folder), cwd=folder, env=chosen, stdin=subprocess.DEVNULL,
                                      stdout=subprocess.DEVNULL, stderr=subprocess.DEVNULL, timeout=test.limit())
            except subprocess.TimeoutExpired:
                return False
        return done.returncode == 0

    def begin(self, test):
        """Runs a test with nothing planted, and keeps what it came to. Whether it passes."""
        with tempfile.TemporaryDirectory() as folder:
            start, seen = time.monotonic(), f"{folder}/seen"
            test.seconds = 900.0
            passed = self.passes(test, PLANTED_SEEN=seen)
            test.seconds = time.monotonic() - start
            if os.path.exists(seen):
                with open(seen, "rb") as file:
                    test.reached = {number for number, in struct.iter_unpack("=I", file.read())}
        return passed

    def first_failing(self, number):
        """The first test that fails with a body, or None. Only tests that come to the body are run."""
        return self.first_of([test for test in self.tests if number in test.reached], PLANTED=str(number))

    def first_of(self, tests, **chosen):
        """The first of these tests that fails, the short ones before the long ones, or None."""
        ordered = sorted(tests, key=lambda test: test.seconds)
        return next((test.name for test in ordered if not self.passes(test, **chosen)), None)


class SecondRuns(Tests):
    """The runs of the program that `checks/second-runs` makes, as one test."""

    def __init__(self, program):
        super().__init__(program, ["second-runs"])

    def command(self, test, folder):
        path = f"{folder}/program"
        script(path, f'#!/bin/sh\nexec {shlex.join(self.words)} "$@"\n')
        return [f"{TOP}/checks/{test.name}", path]


def names_in(listed):
    """The names of the tests in what a program lists."""
    return [line.removesuffix(": test") for line in listed.splitlines() if line.endswith(": test")]
