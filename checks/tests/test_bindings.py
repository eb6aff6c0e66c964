"""The module for Python of `examples/python`: what it lends to C, its type hints where mypy is there, and its calls
where the library is built, and that some calls take no memory. `examples/library` runs its examples."""
import array
import ctypes
import os
import shutil
import subprocess
import sys
import tempfile
import unittest
from unittest import mock

from common import BASE, CHECKS, LIBRARY, NOP, TOP, image_of

EXAMPLES = os.path.join(TOP, "examples/python")
INCLUDE = os.path.join(TOP, "include")
sys.path += [EXAMPLES, os.path.join(TOP, "examples/cocotb")]

import scoreboard
import tracebench

try:
    import numpy
    import arrays
except ImportError:
    numpy = None
MYPY = shutil.which("mypy")
COUNT = 200
IMAGE = bytearray(image_of(*[NOP] * COUNT))


class Lent(unittest.TestCase):
    def test_bytes_are_lent_where_they_are(self):
        data = bytearray(b"abcd")
        for lender in b"abcd", data, memoryview(b"xabcdx")[1:5], array.array("H", [0x6261, 0x6463]):
            borrowed = tracebench.Borrowed(lender)
            self.assertEqual(ctypes.string_at(*borrowed.slice), b"abcd")
        borrowed = tracebench.Borrowed(data)
        data[0] = ord("z")
        self.assertEqual(ctypes.string_at(*borrowed.slice), b"zbcd")

    def test_no_pointer_is_null(self):
        for lender in b"", bytearray(), memoryview(b""), array.array("Q"):
            place, length = tracebench.Borrowed(lender).slice
            self.assertEqual((place != 0, length), (True, 0))

    def test_what_is_lent_cannot_move(self):
        data = bytearray(b"abcd")
        borrowed = tracebench.Borrowed(data)
        with self.assertRaises(BufferError):
            data.extend(b"e")
        del borrowed
        data.extend(b"e")
        self.assertEqual(data, b"abcde")

    def test_what_is_not_lent(self):
        for lender in 5, "text", None:
            with self.assertRaises(TypeError):
                tracebench.Borrowed(lender)
        with self.assertRaises(BufferError):
            tracebench.Borrowed(memoryview(b"abcd")[::2])

    def test_a_struct_as_text(self):
        event = tracebench.Event(kind=1, interrupt=1, tval=5)
        wanted = "Event { kind: 1, itype: 0, privilege: 0, cause: 0, interrupt: 1, address: 0, tval: 5 }"
        self.assertEqual((str(event), ctypes.sizeof(event)), (wanted, 24))


class Scoreboard(unittest.TestCase):
    """The scoreboard of examples/cocotb, over a library whose payloads settle the instructions at their bytes."""

    def setUp(self):
        library = mock.Mock()
        library.decoder.return_value = tracebench.DecoderState()
        library.feed = lambda program, state, payload: [tracebench.Event(address=at, privilege=3) for at in payload]
        self.board = scoreboard.Scoreboard(library, None)
        for address in 0, 4, 8:
            self.board.retired(address, 0, 3)

    def test_what_is_sent_in_order(self):
        self.board.sent(b"\0\4")
        self.board.sent(b"\10")
        with self.assertRaisesRegex(scoreboard.Wrong, "after payload 2: phase 0, 0 not decoded"):
            self.board.ended()
        self.board.decoder.phase = scoreboard.CLOSED
        self.board.ended()

    def test_what_is_wrong(self):
        with self.assertRaisesRegex(scoreboard.Wrong, "payload 1: decoded .* address: 8, .* retired .* address: 4, "):
            self.board.sent(b"\0\10")
        with self.assertRaisesRegex(scoreboard.Wrong, "payload 2: decoded .* address: 12, .* retired None"):
            self.board.sent(b"\10\14")

    def test_what_is_left(self):
        self.board.sent(b"\0")
        self.board.decoder.phase = scoreboard.CLOSED
        with self.assertRaisesRegex(scoreboard.Wrong, "after payload 1: phase 3, 2 not decoded"):
            self.board.ended()

    def test_a_payload_of_no_log(self):
        self.board.library.feed = mock.Mock(side_effect=tracebench.Refused(115))
        with self.assertRaisesRegex(scoreboard.Wrong, "payload 1: status 115"):
            self.board.sent(b"\0")

    def test_a_program_as_a_simulator_reads_it(self):
        program = scoreboard.program_at(os.path.join(TOP, "examples/verilator/image.hex"), 0x80000000)
        self.assertEqual((program.count, program.array[0].base, program.array[0].length), (1, 0x80000000, 48))


class Hints(unittest.TestCase):
    @unittest.skipUnless(MYPY, "no mypy")
    def test_the_type_hints_hold(self):
        with tempfile.TemporaryDirectory() as folder:
            def mypy(*words):
                words = [MYPY, "--strict", "--cache-dir", folder, *words]
                return subprocess.run(words, cwd=EXAMPLES, capture_output=True, text=True, check=False)
            has_numpy = mypy("-c", "import numpy").returncode == 0
            ran = mypy("tracebench.py", *["arrays.py", "array_steps.py"] * has_numpy)
        self.assertEqual(ran.returncode, 0, ran.stdout)


@unittest.skipUnless(os.path.isfile(LIBRARY) and shutil.which("cc"), "no library is built, or no compiler")
class NoMemory(unittest.TestCase):
    def test_calls_that_take_no_memory(self):
        with tempfile.TemporaryDirectory() as folder:
            program = os.path.join(folder, "no_memory")
            source = os.path.join(CHECKS, "tests/c/no_memory.c")
            subprocess.run(["cc", "-std=c11", "-I", INCLUDE, "-o", program, source, LIBRARY], check=True)
            ran = subprocess.run([program], capture_output=True, text=True, check=False)
        self.assertEqual((ran.returncode, ran.stdout), (0, ""))


@unittest.skipUnless(os.path.isfile(LIBRARY) and shutil.which("cc"), "no library is built, or no compiler")
class Calls(unittest.TestCase):
    @classmethod
    def setUpClass(cls):
        with tempfile.TemporaryDirectory() as folder:
            shared = os.path.join(folder, "libtracebench.so")
            subprocess.run(["cc", "-fPIC", "-shared", "-o", shared, os.path.join(INCLUDE, "allocator.c"),
                            "-Wl,--whole-archive", LIBRARY, "-Wl,--no-whole-archive"], check=True)
            cls.library = tracebench.Library(shared)

    def setUp(self):
        self.log = [tracebench.Event(privilege=3, address=BASE + 4 * place) for place in range(COUNT)]
        self.program = tracebench.Program((BASE, IMAGE))
        self.encoder, self.opening = self.library.encoder(1024, tracebench.DIFFERENTIAL)

    def fed(self, feed, packets):
        decoder = self.library.decoder()
        return [feed(self.program, decoder, self.library.pack(packet)) for packet in packets]

    def test_more_events_than_the_first_array_has(self):
        packets = [self.opening]
        for event in self.log:
            packets += self.library.push(self.program, self.encoder, event)
        packets += self.library.finish(self.program, self.encoder)
        settled = self.fed(self.library.feed, packets)
        self.assertEqual([len(events) for events in settled], [0, 1, 0, COUNT - 1])
        self.assertEqual([bytes(event) for events in settled for event in events], [*map(bytes, self.log)])

    def test_an_event_that_is_refused_changes_nothing(self):
        before = bytes(self.encoder)
        with self.assertRaises(tracebench.Refused) as raised:
            self.library.push(self.program, self.encoder, tracebench.Event(kind=2))
        self.assertEqual((raised.exception.status, bytes(self.encoder)), (129, before))

    def test_an_encode_of_other_lenders_than_bytes(self):
        text = b"addr,itype,priv,cause,tval\n80000000,0,3,,\n"
        logs = bytearray(text), memoryview(text)
        capture = self.library.encode(self.program, logs, 1024, tracebench.FULL, tracebench.VERSION_TWO)
        self.assertEqual(self.library.decode_all(self.program, 2, capture)[0], [text, text])
        with self.assertRaises(tracebench.Refused) as raised:
            self.library.encode(self.program, [text, text[:-1] + b"4"], 1024, tracebench.FULL, tracebench.VERSION_TWO)
        self.assertEqual((raised.exception.log, raised.exception.row), (1, 1))

    def test_messages_and_headers(self):
        message = self.library.write_message(3, 258, b"ab")
        self.assertEqual(message, bytes.fromhex("0300 0201000000000000 02 6162"))
        found, taken = self.library.read_message(message + b"more")
        self.assertEqual((found.hart, found.number, found.payload_bytes(), taken), (3, 258, b"ab", 13))
        self.assertEqual(self.library.read_message(b""), (None, 0))
        header = self.library.write_header(tracebench.Header(mode=1, period=5, harts=2))
        self.assertEqual(header, b"\xff\xffrvtrace2\0\x01\x05\0\x02\0")
        found, taken = self.library.read_header(header + message)
        self.assertEqual((found.mode, found.period, found.harts, taken), (1, 5, 2, 16))
        self.assertEqual(self.library.read_header(message), (None, 0))
        for call, status in ((lambda: self.library.read_message(message[:-1]), tracebench.SHORT),
                             (lambda: self.library.write_message(0, 0, b""), 32),
                             (lambda: self.library.write_header(tracebench.Header(period=1)), 4)):
            with self.assertRaises(tracebench.Refused) as raised:
                call()
            self.assertEqual(raised.exception.status, status)

    def test_lines_and_an_audit_of_all_harts(self):
        words = 1024, tracebench.DIFFERENTIAL, tracebench.VERSION_TWO
        sent = self.library.capture_of_lines(b"".join(b"%d 1f\n" % (place % 2) for place in range(200)), *words)
        self.assertEqual(len(sent), 16 + 200 * 12)
        with self.assertRaises(tracebench.Refused) as raised:
            self.library.capture_of_lines(b"0 1f\n0\n", *words)
        self.assertEqual((raised.exception.status, raised.exception.row), (144, 2))
        received = sent[:16 + 12] + b"\xee" + sent[16 + 3 * 12:]
        found = self.library.audit_all(sent, received)
        self.assertEqual([(row.tally.sent, row.tally.lost, row.tally.whole) for row in found.rows],
                         [(100, 1, 0), (100, 1, 0)])
        self.assertEqual([(run.hart, run.first, run.last) for run in found.lost], [(0, 1, 1), (1, 0, 0)])
        self.assertEqual([(run.offset, run.count) for run in found.runs], [(28, 1)])
        self.assertEqual(len(found.arrivals), 198)
        self.assertEqual((found.ended.whole, found.ended.has_first, found.ended.first), (0, 1, 1))
        self.assertEqual(self.library.audit_all(sent, sent, tracebench.BY_PACKETS).ended.whole, 1)
        with self.assertRaises(tracebench.Refused) as raised:
            self.library.audit_all(sent[:-1], sent)
        self.assertEqual((raised.exception.status, raised.exception.row), (tracebench.SHORT, 199))

    def test_an_audit_by_payloads_alone(self):
        words = 1024, tracebench.FULL, tracebench.VERSION_TWO
        sent = self.library.capture_of_lines(b"0 61\n0 62\n1 61\n0 63\n", *words)
        messages = (0, b"a"), (1, b"x"), (0, b"c"), (2, b"a")
        came = (self.library.write_message(hart, 7, payload) for hart, payload in messages)
        received = sent[:16] + b"".join(came)
        found = self.library.audit_all(sent, received, tracebench.UNNUMBERED)
        rows = [(row.tally.sent, row.tally.came, row.tally.lost, row.extra, row.runs, row.longest, row.tally.whole)
                for row in found.rows]
        self.assertEqual(rows, [(3, 2, 1, 0, 1, 1, 0), (1, 1, 1, 1, 1, 1, 0)])
        self.assertEqual([(one.hart, one.fate, one.number, one.by, one.offset) for one in found.arrivals],
                         [(0, tracebench.FATE_IN_ORDER, 0, 0, 16), (1, tracebench.FATE_EXTRA, 0, 0, 28),
                          (0, tracebench.FATE_IN_ORDER, 2, 1, 40), (2, tracebench.FATE_STRANGER, 0, 0, 52)])
        self.assertEqual([(run.hart, run.first, run.last) for run in found.lost], [(0, 1, 1), (1, 0, 0)])
        self.assertEqual((found.ended.messages, found.ended.strangers, found.ended.first, found.ended.whole),
                         (4, 1, 1, 0))
        # A message that was never sent, right before damage, is in a run of bytes.
        damaged = self.library.audit_all(sent, received + b"\0", tracebench.UNNUMBERED)
        self.assertEqual([(run.offset, run.count) for run in damaged.runs], [(52, 13)])
        both = tracebench.UNNUMBERED + tracebench.BY_PACKETS
        self.assertEqual(self.library.audit_all(sent, sent, both).ended.whole, 1)
        with self.assertRaises(tracebench.Refused) as raised:
            self.library.audit_all(sent[16:28] * 2, sent, tracebench.UNNUMBERED)
        self.assertEqual((raised.exception.status, raised.exception.row), (97, 1))

    @unittest.skipUnless(numpy, "no NumPy")
    def test_arrays(self):
        events = numpy.array([tuple(getattr(event, name) for name in arrays.EVENT.names) for event in self.log],
                             arrays.EVENT)
        made = arrays.push(self.library, self.program, self.encoder, events)
        packets = [self.opening, *(tracebench.Packet.from_buffer_copy(row.tobytes()) for row in made),
                   *self.library.finish(self.program, self.encoder)]
        settled = self.fed(lambda *words: arrays.feed(self.library, *words), packets)
        self.assertTrue(numpy.array_equal(numpy.concatenate(settled), events))

    @unittest.skipUnless(numpy, "no NumPy")
    def test_an_array_with_an_event_that_is_refused(self):
        events, before = numpy.zeros(3, arrays.EVENT), bytes(self.encoder)
        events["kind"][2] = 2
        with self.assertRaises(tracebench.Refused) as raised:
            arrays.push(self.library, self.program, self.encoder, events)
        self.assertEqual((raised.exception.status, raised.exception.row, bytes(self.encoder)), (129, 3, before))
        with self.assertRaises(TypeError):
            arrays.push(self.library, self.program, self.encoder, numpy.zeros(3))


if __name__ == "__main__":
    unittest.main()
