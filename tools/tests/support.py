"""What the tests share: images of words, lines of recordings, and runs of `tools/record`."""
import lzma
import os
import shutil
import subprocess
import sys
import tempfile
import weakref

HERE = os.path.dirname(os.path.abspath(__file__))
RECORDED = os.path.join(HERE, "recorded")
sys.path.append(os.path.join(HERE, "../../checks/tests"))

from common import BASE, LIBRARY, NOP, TOOLS, TOP, TRACEBENCH, InFolder, image_of, reading, script

sys.path.insert(0, TOOLS)

from recording import qemu, spike
from recording.harts import Harts, summary
from recording.image import Image

MRET, SRET, ECALL, RET, WFI = 0x30200073, 0x10200073, 0x73, 0x8067, 0x10500073
BEQ_8, LOOP = 0x00000463, 0x0000006F  # BEQ x0, x0, 8 bytes on; JAL x0, 0
USER, SUPERVISOR, MACHINE = 0, 1, 3
STOPPED = "Stopped execution of TB chain before 0x7f7c0c000100 [0000000080000000] "


def at(place):
    """The address of a word of an image."""
    return BASE + 4 * place


def trace(place, level, hart=0):
    """The line of QEMU that announces an instruction: the word at a place of the image, or an address from 1000 on."""
    address = place if place >= 0x1000 else at(place)
    return f"Trace {hart}: 0x7f7c0c000100 [0000000000000000/{address:016x}/{0x209000 | level:08x}/ff000201] "


def traces(places, level, hart=0):
    return [trace(place, level, hart) for place in places]


def trap_line(is_interrupt, cause, epc, value=0, hart=0):
    return (
        f"riscv_cpu_do_interrupt: hart:{hart}, async:{int(is_interrupt)}, cause:{cause:016x}, epc:0x{epc:016x}, "
        f"tval:0x{value:016x}, desc=some"
    )


def interrupt(cause, place, hart=0):
    return trap_line(True, cause, at(place), 0, hart)


def exception(cause, place, value=0, hart=0):
    return trap_line(False, cause, at(place), value, hart)


class Run:
    """What `record` makes of lines, in a folder that lasts as long as the run."""

    def __init__(
        self, image, lines, form=qemu, has_pieces=False, has_inside=False, is_user=False, base=BASE, also=(), **how
    ):
        self.folder = tempfile.mkdtemp()
        weakref.finalize(self, shutil.rmtree, self.folder)
        self.warnings = []
        self.program = reading.Program(base, image, also)
        self.image = Image(base, image, is_user, also)
        self.harts = Harts(self.image, form, self.folder, self.warnings.append, has_pieces, has_inside, **how)
        self.harts.take([line.encode() for line in lines])
        self.harts.finish()

    def text(self, name="hart00.csv"):
        with open(os.path.join(self.folder, name)) as file:
            return file.read()

    def rows(self, name="hart00.csv"):
        """The rows of a log behind its first."""
        header, *rows = self.text(name).splitlines()
        assert header == reading.HEADER
        return rows

    def names(self):
        return sorted(os.listdir(self.folder))

    def summary(self, hart=0):
        return summary(self.harts.found[hart])

    def first_illegal(self, name="hart00.csv"):
        return first_illegal(self.program, self.text(name))


def first_illegal(program, text):
    """The first illegal row of a log and why, None where it is legal, by the reading of checks/fuzz."""
    events = reading.read_log(text.encode())
    assert not isinstance(events, str), events
    return reading.first_illegal(program, events)


def record(*words, given=b""):
    """Runs the program `tools/record`."""
    return subprocess.run([sys.executable, os.path.join(TOOLS, "record"), *words], input=given, capture_output=True)


def recorded(name):
    """The bytes of a file of `recorded`, without its compression."""
    path = os.path.join(RECORDED, name)
    with lzma.open(path) if name.endswith(".xz") else open(path, "rb") as file:
        return file.read()
