"""The bench for C from Python, by `ctypes` alone. include/tracebench.h says what each call promises.

    import tracebench
    library = tracebench.Library("libtracebench.so")
    program = tracebench.Program((0x80000000, image))
    capture = library.encode(program, [log], 1024, tracebench.DIFFERENTIAL, tracebench.VERSION_TWO)

An image, a log, a capture or a payload is any object that lends its bytes in one piece: bytes, bytearray, memoryview,
mmap.mmap, an array. A call reads them where they are; `encode` joins the logs, since C wants them one after the other.
arrays.py has events and packets as arrays of NumPy.
"""
import ctypes
from ctypes import POINTER, byref, c_char_p, c_int, c_size_t, c_ssize_t, c_uint8, c_uint16, c_uint32, c_uint64, c_void_p
from functools import partial
from itertools import accumulate
from typing import Annotated, Any, Callable, Iterable, List, NamedTuple, Optional, Sequence, Tuple, Type, TypeVar
from typing import get_type_hints

DONE, TOO_SMALL = 0, 1
SHORT, OFF_PROGRAM, WRONG_EPC, GAP = 16, 80, 85, 98
AFTER_CLOSE, AFTER_CLOSING_PACKET, BAD_BEFORE = 99, 118, 130
SYNC, TRAP, OPEN, ENDED_REP, ENDED_NTR, ADDRESS, MAP = range(7)
DIFFERENTIAL, FULL = 0, 1
PLAIN, UPDISCON, NOTIFY = range(3)
RETIREMENT, TRAP_TAKEN = 0, 1
VERSION_ONE, VERSION_TWO = 1, 2
BY_PACKETS, UNNUMBERED = 1, 2
FATE_IN_ORDER, FATE_LATE, FATE_REPEAT, FATE_CHANGED, FATE_STRANGER, FATE_EXTRA = range(6)
TEXT, CSV, SUMMARY = range(3)
MIXED, BRANCHES, JUMPS, TRAPS, LONGEST, STRAIGHT = range(6)

# As many harts as the messages of a capture show.
HARTS_SHOWN = 65535

# What lends its bytes. Python 3.12 has a name for it, collections.abc.Buffer.
Lender = Any

U8 = Annotated[int, c_uint8]
U16 = Annotated[int, c_uint16]
U32 = Annotated[int, c_uint32]
U64 = Annotated[int, c_uint64]
SIZE = Annotated[int, c_size_t]
Payload = Annotated[Any, c_uint8 * 18]


class Refused(Exception):
    """A call gives no answer: its status, and the log and row that are at fault, 0 where none is named. Of SENT, `row`
    is the message that is refused, and `expected` with `GAP` the number that is expected in place of its own."""

    def __init__(self, status: int, log: int = 0, row: int = 0, expected: int = 0) -> None:
        super().__init__(f"status {status}, log {log}, row {row}")
        self.status, self.log, self.row, self.expected = status, log, row, expected


class Struct(ctypes.Structure):
    """A struct of C, whose text has its name, and each of its fields with what it holds."""

    def __repr__(self) -> str:
        fields = ", ".join(f"{field[0]}: {getattr(self, field[0])}" for field in self._fields_)
        return f"{type(self).__name__} {{ {fields} }}"


S = TypeVar("S", bound=Type[Struct])


def of_hints(struct: S) -> S:
    """The struct with the fields that its hints name, in their order."""
    hints = get_type_hints(struct, include_extras=True)
    names = struct.__dict__["__annotations__"]
    struct._fields_ = [(name, hints[name].__metadata__[0] if hasattr(hints[name], "__metadata__") else hints[name])
                       for name in names]
    return struct


@of_hints
class Packet(Struct):
    kind: U32
    taken: U32
    privilege: U32
    cause: U32
    interrupt: U32
    handler: U32
    mode: U32
    report: U32
    outcomes: U32
    map: U32
    address: U64
    tval: U64


@of_hints
class Event(Struct):
    kind: U32
    itype: U8
    privilege: U8
    cause: U8
    interrupt: U8
    address: U64
    tval: U64


@of_hints
class EncoderState(Struct):
    between: U16
    left: U16
    mode: U32
    holds: U32
    due: U32
    outcomes: U32
    map: U32
    reported: U64
    held: Event


@of_hints
class DecoderState(Struct):
    phase: U32
    mode: U32
    is_announced: U32
    announced: U32
    has_last: U32
    waits: U32
    outcomes: U32
    map: U32
    delta: U64
    reported: U64
    last: Event


@of_hints
class HartState(Struct):
    decoder: DecoderState
    expected: U64


@of_hints
class WalkState(Struct):
    seed: U64
    random: U64
    at: U64
    mix: U32
    hart: U16
    privilege: U8
    next: U8


@of_hints
class LogPlace(Struct):
    log: U64
    row: U64


@of_hints
class DumpEnd(Struct):
    place: U64
    fault: U32
    bad: U32


@of_hints
class Tally(Struct):
    sent: U64
    came: U64
    lost: U64
    repeated: U64
    late: U64
    changed: U64
    whole: U32


@of_hints
class Message(Struct):
    number: U64
    payload_length: SIZE
    hart: U16
    payload: Payload

    def payload_bytes(self) -> bytes:
        """The bytes of the payload."""
        return ctypes.string_at(self.payload, self.payload_length)


@of_hints
class Header(Struct):
    mode: U32
    period: U16
    harts: U16


@of_hints
class HartRow(Struct):
    tally: Tally
    strange: U64
    extra: U64
    runs: U64
    longest: U64
    latest: U64
    exchanged: U64
    exchanged_hart: U64


@of_hints
class Arrival(Struct):
    number: U64
    by: U64
    offset: U64
    fate: U32
    hart: U16


@of_hints
class LostRun(Struct):
    first: U64
    last: U64
    hart: U64


@of_hints
class ByteRun(Struct):
    offset: U64
    count: U64


@of_hints
class SentPlace(Struct):
    message: U64
    expected: U64


@of_hints
class PathEnd(Struct):
    harts: SIZE
    messages: SIZE
    lost_runs: SIZE
    byte_runs: SIZE
    bytes: U64
    strangers: U64
    first: U64
    sent_header: Header
    received_header: Header
    has_sent_header: U32
    has_received_header: U32
    header_fault: U32
    headers_differ: U32
    has_first: U32
    whole: U32


class AuditedPath(NamedTuple):
    """What is found of a path: of each hart, of each message that came, which numbers were lost, which bytes are of no
    message, and the rest."""
    rows: Sequence[HartRow]
    arrivals: Sequence[Arrival]
    lost: Sequence[LostRun]
    runs: Sequence[ByteRun]
    ended: PathEnd


@of_hints
class HartEnd(Struct):
    end: SIZE
    closed: U32


@of_hints
class DecodeAllEnd(Struct):
    harts: SIZE
    place: U64
    fault: U32


@of_hints
class TextEnd(Struct):
    harts: SIZE
    unclosed: SIZE
    place: U64
    fault: U32
    whole: U32


@of_hints
class ExplainEnd(Struct):
    row: U64
    fault: U32


class Borrowed:
    """The bytes of an object, as C takes them: where they are, and how many. While this lives, the object can neither
    move nor free them."""

    class View(ctypes.Structure):
        """A `Py_buffer` of Python's C API."""
        _fields_ = [("at", c_void_p), ("owner", c_void_p), ("length", c_ssize_t), ("itemsize", c_ssize_t),
                    ("readonly", c_int), ("ndim", c_int), ("format", c_char_p), ("shape", c_void_p),
                    ("strides", c_void_p), ("suboffsets", c_void_p), ("internal", c_void_p)]

    nowhere = c_uint64()  # where no bytes are, since C wants no null pointer

    def __init__(self, lender: Lender) -> None:
        self.view = self.View()
        ctypes.pythonapi.PyObject_GetBuffer(ctypes.py_object(lender), byref(self.view), 0)
        self.slice: Tuple[int, int] = (self.view.at or ctypes.addressof(self.nowhere), self.view.length)

    def of(self, element: Any) -> Tuple[int, int]:
        """Where the bytes are, and how many elements they are."""
        return self.slice[0], self.slice[1] // ctypes.sizeof(element)

    def __del__(self) -> None:
        ctypes.pythonapi.PyBuffer_Release(byref(self.view))


class Piece(ctypes.Structure):
    """A piece of an image, as C takes it."""
    _fields_ = [("base", c_uint64), ("bytes", c_void_p), ("length", c_size_t)]


class Program:
    """A program: where each piece of its image begins and what lends its bytes, sorted by base. There is one, or a boot
    ROM, flash and RAM:

        program = tracebench.Program((0x1000, rom), (0x80000000, ram))
    """

    def __init__(self, *pieces: Tuple[int, Lender]) -> None:
        self.borrowed = [Borrowed(lender) for _, lender in pieces]
        self.array = (Piece * (len(pieces) or 1))(*((base, *of.slice)
                                                    for (base, _), of in zip(pieces, self.borrowed)))
        self.count = len(pieces)


SLICE = [c_void_p, c_size_t]
PROGRAM = [POINTER(Piece), c_size_t]
ROOM = [c_void_p, c_size_t, POINTER(c_size_t)]
TAKEN = [c_void_p, c_size_t, POINTER(c_size_t), POINTER(c_size_t)]
PARAMETERS = {
    "version": ROOM,
    "pack": [POINTER(Packet), *ROOM],
    "unpack": [*SLICE, POINTER(Packet)],
    "encoder": [c_uint16, c_uint32, POINTER(EncoderState), POINTER(Packet)],
    "push_all": [*PROGRAM, POINTER(EncoderState), *SLICE, *TAKEN],
    "check_events": [*PROGRAM, c_void_p, c_size_t, POINTER(c_uint64)],
    "finish": [*PROGRAM, POINTER(EncoderState), *ROOM],
    "generate_image": [c_uint32, c_uint64, *ROOM],
    "generate_events": [*PROGRAM, POINTER(WalkState), *SLICE],
    "decoder": [POINTER(DecoderState)],
    "feed_all": [*PROGRAM, POINTER(DecoderState), *SLICE, *SLICE, *TAKEN],
    "receive": [*PROGRAM, POINTER(HartState), c_uint64, *SLICE, *ROOM, POINTER(c_uint64)],
    "resume": [POINTER(HartState), c_uint64, c_uint32],
    "check": [*PROGRAM, *SLICE, POINTER(c_uint64)],
    "encode": [*PROGRAM, *SLICE, POINTER(c_size_t), c_size_t, c_uint16, c_uint32, c_uint32, *ROOM,
               POINTER(LogPlace)],
    "dump": [*SLICE, *ROOM, POINTER(DumpEnd)],
    "audit_all": [*SLICE, *SLICE, c_uint32, *SLICE, *SLICE, *SLICE, *SLICE, POINTER(SentPlace), POINTER(PathEnd)],
    "write_message": [c_uint16, c_uint64, *SLICE, *ROOM],
    "read_message": [*SLICE, POINTER(Message), POINTER(c_size_t)],
    "write_header": [POINTER(Header), *ROOM],
    "read_header": [*SLICE, POINTER(Header), POINTER(c_size_t)],
    "capture_of_lines": [*SLICE, c_uint32, c_uint32, c_uint16, c_uint16, c_uint64, *ROOM, POINTER(c_uint64)],
    "decode_all": [*PROGRAM, c_uint16, *SLICE, *ROOM, POINTER(HartEnd), c_size_t, POINTER(DecodeAllEnd)],
    "list": [*PROGRAM, c_uint16, *SLICE, *SLICE, c_uint32, *ROOM, POINTER(TextEnd)],
    "salvage": [*PROGRAM, c_uint16, *SLICE, c_uint32, *ROOM, POINTER(TextEnd)],
    "list_salvaged": [*PROGRAM, c_uint16, *SLICE, *SLICE, c_uint32, *ROOM, POINTER(TextEnd)],
    "measure": [*PROGRAM, *SLICE, POINTER(c_size_t), c_size_t, c_uint16, c_uint32, *ROOM, POINTER(LogPlace)],
    "compare": [*PROGRAM, c_uint16, *SLICE, *SLICE, POINTER(c_size_t), c_size_t, *ROOM, POINTER(TextEnd),
                POINTER(LogPlace)],
    "explain": [*PROGRAM, *SLICE, *ROOM, POINTER(ExplainEnd)],
}
Call = Callable[..., int]


def handed_out(call: Call, *words: Any, more: Iterable[Any] = ()) -> Tuple[int, bytes]:
    """The status of a call that hands out bytes, and these bytes. If the first buffer is too small, the call is
    repeated with one that is not."""
    room, wanted = 4096, c_size_t()
    while True:
        buffer = ctypes.create_string_buffer(room)
        status = call(*words, buffer, room, byref(wanted), *map(byref, more))
        if status != TOO_SMALL:
            return status, ctypes.string_at(buffer, wanted.value) if status == DONE else b""
        room = wanted.value


class Joined:
    """Texts of logs, one after the other, and where each ends."""

    def __init__(self, logs: Sequence[Lender]) -> None:
        self.texts = Borrowed(b"".join(logs))
        self.ends = (c_size_t * (len(logs) + 1))(*accumulate(memoryview(log).nbytes for log in logs))
        self.words = *self.texts.slice, self.ends, len(logs)


class Library:
    """The calls of a shared object."""

    def __init__(self, path: str) -> None:
        shared = ctypes.CDLL(path)
        self.calls = {name: self._call(shared, name) for name in PARAMETERS}

    @staticmethod
    def _call(shared: ctypes.CDLL, name: str) -> Call:
        call = getattr(shared, f"tracebench_{name}")
        call.argtypes, call.restype = PARAMETERS[name], None if name == "decoder" else c_uint32
        return call  # type: ignore[no-any-return]

    def _over(self, name: str, program: Program) -> Call:
        """A call over a program."""
        return partial(self.calls[name], program.array, program.count)

    def version(self) -> str:
        """The version of the library."""
        status, text = handed_out(self.calls["version"])
        if status != DONE:
            raise Refused(status)
        return text.decode()

    def pack(self, packet: Packet) -> bytes:
        """The shortest payload of a packet."""
        status, payload = handed_out(self.calls["pack"], byref(packet))
        if status != DONE:
            raise Refused(status)
        return payload

    def unpack(self, payload: Lender) -> Packet:
        """The packet that a payload is."""
        given, packet = Borrowed(payload), Packet()
        if status := self.calls["unpack"](*given.slice, byref(packet)):
            raise Refused(status)
        return packet

    def encoder(self, period: int, mode: int) -> Tuple[EncoderState, Packet]:
        """The state of an encoder before the first event of a log, and the packet that opens the trace."""
        state, opening = EncoderState(), Packet()
        if status := self.calls["encoder"](period, mode, byref(state), byref(opening)):
            raise Refused(status)
        return state, opening

    def push(self, program: Program, state: EncoderState, event: Event) -> List[Packet]:
        """The packets that are due after the next event. `state` then has taken this event too. Whether the event is
        legal is not looked at."""
        packets = (Packet * 2)()
        status, _, count = self.push_all(program, state, (Event * 1)(event), packets)
        if status:
            raise Refused(status)
        return packets[:count]

    def push_checked(self, program: Program, state: EncoderState, event: Event) -> List[Packet]:
        """The same where the event is legal after the one that `state` holds. Else `Refused` has why, and `state` is as
        it was."""
        if status := self.follow(program, state.held if state.holds else None, event):
            raise Refused(status)
        return self.push(program, state, event)

    def push_all(self, program: Program, state: EncoderState, events: Lender,
                 packets: Lender) -> Tuple[int, int, int]:
        """Pushes events, which lend their bytes, as long as their packets fit into what lends the bytes of packets: the
        status, which is not 0 where an event has no room or is refused, how many events were taken, and how many
        packets were written. `state` then has taken those events."""
        given, room, taken, count = Borrowed(events), Borrowed(packets), c_size_t(), c_size_t()
        call = self._over("push_all", program)
        status = call(byref(state), *given.of(Event), *room.of(Packet), byref(taken), byref(count))
        return status, taken.value, count.value

    def feed_all(self, program: Program, state: DecoderState, payloads: Lender, ends: Lender,
                 events: Lender) -> Tuple[int, int, int]:
        """Feeds payloads, which are one after the other and end there, as long as their events fit into what lends the
        bytes of events: the status, which is not 0 where a payload has no room or is refused, how many payloads were
        taken, and how many events were written. `ends` lends numbers as a `size_t` is. `state` then has taken those
        payloads."""
        given, to, room = Borrowed(payloads), Borrowed(ends), Borrowed(events)
        taken, count = c_size_t(), c_size_t()
        call = self._over("feed_all", program)
        status = call(byref(state), *given.slice, *to.of(c_size_t), *room.of(Event), byref(taken), byref(count))
        return status, taken.value, count.value

    def follow(self, program: Program, before: Optional[Event], event: Event) -> int:
        """The status of an event after the event before, or as the first of a log: 0 where it is legal, and else why it
        is not."""
        events = [event] if before is None else [before, event]
        try:
            self.check_events(program, (Event * len(events))(*events))
        except Refused as refused:
            if not OFF_PROGRAM <= refused.status <= WRONG_EPC:
                raise
            return refused.status if refused.row == len(events) else BAD_BEFORE
        return DONE

    def check_events(self, program: Program, events: Lender) -> int:
        """How many events a legal log has, whose events lend their bytes: an array of `Event`, or one of NumPy."""
        given, row = Borrowed(events), c_uint64()
        if status := self._over("check_events", program)(*given.of(Event), byref(row)):
            raise Refused(status, row=row.value)
        return row.value

    def finish(self, program: Program, state: EncoderState) -> List[Packet]:
        """The packets that are left at the end of a log."""
        packets, count = (Packet * 2)(), c_size_t()
        if status := self._over("finish", program)(byref(state), packets, 2, byref(count)):
            raise Refused(status)
        return packets[: count.value]

    def generate_image(self, mix: int, seed: int) -> bytes:
        """The image of the program that a mix and a seed give."""
        status, image = handed_out(self.calls["generate_image"], mix, seed)
        if status != DONE:
            raise Refused(status)
        return image

    def generate_events(self, program: Program, walk: WalkState, events: Lender) -> None:
        """Fills what lends the bytes of events with the next events of a hart. `walk` then has taken them; before the
        first it is `WalkState(seed=.., mix=.., hart=..)`."""
        if status := self._over("generate_events", program)(byref(walk), *Borrowed(events).of(Event)):
            raise Refused(status)

    def decoder(self) -> DecoderState:
        """The state of a decoder before the first packet."""
        state = DecoderState()
        self.calls["decoder"](byref(state))
        return state

    def feed(self, program: Program, state: DecoderState, payload: Lender) -> List[Event]:
        """The events that the next payload settles. `state` then has taken this payload too."""
        events, count = self.settled(program, state, payload)
        return events[:count]

    def settled(self, program: Program, state: DecoderState,
                payload: Lender) -> Tuple["ctypes.Array[Event]", int]:
        """The same, as an array that begins with these events, and how many they are."""
        hart = HartState(state, 0)
        try:
            events, count, _ = self._received(program, hart, 0, payload)
        except Refused as refused:
            raise Refused(AFTER_CLOSING_PACKET if refused.status == AFTER_CLOSE else refused.status) from refused
        ctypes.pointer(state)[0] = hart.decoder
        return events, count

    def receive(self, program: Program, hart: HartState, number: int, payload: Lender) -> Tuple[List[Event], int]:
        """The events that the message of a hart with this number settles, and 0. Or numbers are missing before it: no
        event, and how many. Then the message was not taken: end the stretch, call `resume`, and hand it in again."""
        events, count, missing = self._received(program, hart, number, payload)
        return events[:count], missing

    def _received(self, program: Program, hart: HartState, number: int,
                  payload: Lender) -> Tuple["ctypes.Array[Event]", int, int]:
        """An array that begins with the events, how many they are, and how many numbers are missing. If the first array
        is too small, the call is repeated with one that is not."""
        call, given, room = self._over("receive", program), Borrowed(payload), 64
        count, missing = c_size_t(), c_uint64()
        while True:
            events = (Event * room)()
            status = call(byref(hart), number, *given.slice, events, room, byref(count), byref(missing))
            if status == GAP:
                return events, 0, missing.value
            if status == DONE:
                return events, count.value, 0
            if status != TOO_SMALL:
                raise Refused(status)
            room = count.value

    def resume(self, hart: HartState, number: int, mode: int) -> None:
        """Lets a hart go on at the message with this number, before which others are lost."""
        if status := self.calls["resume"](byref(hart), number, mode):
            raise Refused(status)

    def check(self, program: Program, log: Lender) -> int:
        """How many events a legal log has."""
        text, row = Borrowed(log), c_uint64()
        if status := self._over("check", program)(*text.slice, byref(row)):
            raise Refused(status, row=row.value)
        return row.value

    def encode(self, program: Program, logs: Sequence[Lender], period: int, mode: int, version: int) -> bytes:
        """The capture of harts' logs, hart 0 first."""
        given, place = Joined(logs), LogPlace()
        words = *given.words, period, mode, version
        status, capture = handed_out(self._over("encode", program), *words, more=(place,))
        if status != DONE:
            raise Refused(status, place.log, place.row)
        return capture

    def dump(self, capture: Lender) -> Tuple[bytes, DumpEnd]:
        """A capture as text, and how it ends."""
        given, ended = Borrowed(capture), DumpEnd()
        status, text = handed_out(self.calls["dump"], *given.slice, more=(ended,))
        if status != DONE:
            raise Refused(status)
        return text, ended

    def audit_all(self, sent: Lender, received: Lender, flags: int = 0) -> AuditedPath:
        """What became of the messages of all harts of SENT in RECEIVED; with the flag `UNNUMBERED` by the payloads of the
        messages alone. Where SENT is refused, `Refused` has why, and its row is the message of SENT."""
        before, after, refused, ended = Borrowed(sent), Borrowed(received), SentPlace(), PathEnd()
        counts = [0] * 4
        while True:
            kinds = HartRow, Arrival, LostRun, ByteRun
            arrays = [(kind * (count or 1))() for kind, count in zip(kinds, counts)]
            rooms = [word for room in zip(arrays, counts) for word in room]
            status = self.calls["audit_all"](*before.slice, *after.slice, flags, *rooms, byref(refused), byref(ended))
            if status == DONE:
                return AuditedPath(*(array[:count] for array, count in zip(arrays, counts)), ended)
            if status != TOO_SMALL:
                raise Refused(status, row=refused.message, expected=refused.expected)
            counts = [ended.harts, ended.messages, ended.lost_runs, ended.byte_runs]

    def write_message(self, hart: int, number: int, payload: Lender) -> bytes:
        """The bytes of a message."""
        given = Borrowed(payload)
        status, written = handed_out(self.calls["write_message"], hart, number, *given.slice)
        if status != DONE:
            raise Refused(status)
        return written

    def read_message(self, data: Lender) -> Tuple[Optional[Message], int]:
        """The message that bytes begin with, and how many of the bytes are its own; None and 0 where there is no byte.
        `Refused` has `SHORT` where the bytes end inside the message."""
        given, message, taken = Borrowed(data), Message(), c_size_t()
        if status := self.calls["read_message"](*given.slice, byref(message), byref(taken)):
            raise Refused(status)
        return (message if taken.value else None), taken.value

    def write_header(self, header: Header) -> bytes:
        """The bytes of a header."""
        status, written = handed_out(self.calls["write_header"], byref(header))
        if status != DONE:
            raise Refused(status)
        return written

    def read_header(self, data: Lender) -> Tuple[Optional[Header], int]:
        """The header that bytes begin with, and how many of the bytes are its own; None and 0 where they begin with
        none."""
        given, header, taken = Borrowed(data), Header(), c_size_t()
        if status := self.calls["read_header"](*given.slice, byref(header), byref(taken)):
            raise Refused(status)
        return (header if taken.value else None), taken.value

    def capture_of_lines(self, text: Lender, period: int, mode: int, version: int, harts: int = 0,
                         numbers: int = 0) -> bytes:
        """The capture of the lines of a text, of so many harts; with 0 of those up to the highest of the lines. A line
        has one of so many numbers, with 0 the message's own. `Refused` has the line that is at fault as its row."""
        given, line = Borrowed(text), c_uint64()
        words = *given.slice, version, mode, period, harts, numbers
        status, capture = handed_out(self.calls["capture_of_lines"], *words, more=(line,))
        if status != DONE:
            raise Refused(status, row=line.value)
        return capture

    def decode_all(self, program: Program, harts: int,
                   capture: Lender) -> Tuple[List[bytes], List[bool], DecodeAllEnd]:
        """The logs of all harts as texts, whether each is closed, and how decoding ended."""
        call, given, ended = self._over("decode_all", program), Borrowed(capture), DecodeAllEnd()
        room, places, wanted = 4096, 64, c_size_t()
        while True:
            buffer, ends = ctypes.create_string_buffer(room), (HartEnd * places)()
            status = call(harts, *given.slice, buffer, room, byref(wanted), ends, places, byref(ended))
            if status != TOO_SMALL:
                break
            room, places = max(room, wanted.value), max(places, ended.harts)
        if status != DONE:
            raise Refused(status)
        found = ends[: ended.harts]
        starts = [0, *(own.end for own in found)]
        texts = [ctypes.string_at(ctypes.addressof(buffer) + start, own.end - start)
                 for start, own in zip(starts, found)]
        return texts, [own.closed == 1 for own in found], ended

    def list(self, program: Program, harts: int, capture: Lender, symbols: Lender = b"",
             how: int = TEXT) -> Tuple[bytes, TextEnd]:
        """The listing of a capture, with places named by symbols, if there are any, and how it ends."""
        given, names, ended = Borrowed(capture), Borrowed(symbols), TextEnd()
        words = harts, *given.slice, *names.slice, how
        status, text = handed_out(self._over("list", program), *words, more=(ended,))
        if status != DONE:
            raise Refused(status)
        return text, ended

    def salvage(self, program: Program, harts: int, capture: Lender,
                how: int = TEXT) -> Tuple[bytes, TextEnd]:
        """What is left of the logs of a capture after any damage, and how it ends."""
        given, ended = Borrowed(capture), TextEnd()
        words = harts, *given.slice, how
        status, text = handed_out(self._over("salvage", program), *words, more=(ended,))
        if status != DONE:
            raise Refused(status)
        return text, ended

    def list_salvaged(self, program: Program, harts: int, capture: Lender, symbols: Lender = b"",
                      how: int = TEXT) -> Tuple[bytes, TextEnd]:
        """What `salvage` does with each message of a capture, and how it ends."""
        given, names, ended = Borrowed(capture), Borrowed(symbols), TextEnd()
        words = harts, *given.slice, *names.slice, how
        status, text = handed_out(self._over("list_salvaged", program), *words, more=(ended,))
        if status != DONE:
            raise Refused(status)
        return text, ended

    def measure(self, program: Program, logs: Sequence[Lender], period: int, mode: int) -> bytes:
        """The table of what harts' logs cost, hart 0 first."""
        given, place = Joined(logs), LogPlace()
        words = *given.words, period, mode
        status, table = handed_out(self._over("measure", program), *words, more=(place,))
        if status != DONE:
            raise Refused(status, place.log, place.row)
        return table

    def compare(self, program: Program, harts: int, capture: Lender,
                logs: Sequence[Lender]) -> Tuple[bytes, TextEnd]:
        """How a capture compares with the logs of its harts, as text, and how that ends."""
        given, texts, ended, place = Borrowed(capture), Joined(logs), TextEnd(), LogPlace()
        words = harts, *given.slice, *texts.words
        status, text = handed_out(self._over("compare", program), *words, more=(ended, place))
        if status != DONE:
            raise Refused(status, place.log, place.row)
        return text, ended

    def explain(self, program: Program, log: Lender) -> Tuple[bytes, ExplainEnd]:
        """What explains the first illegal row of a log, if it has one, and how the log ends."""
        given, ended = Borrowed(log), ExplainEnd()
        status, text = handed_out(self._over("explain", program), *given.slice, more=(ended,))
        if status != DONE:
            raise Refused(status, row=ended.row)
        return text, ended
