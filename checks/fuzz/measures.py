"""What `tracebench measure` prints, read from docs/FORMATS.md and counted in the payloads of the same logs."""

import reading

COLUMNS = (
    "hart,events,retirements,traps,branches,packets,support,sync,trap,address,map,notify,updiscon,payload_bytes,longest,"
    "bits_per_retirement"
)
KINDS = {"open": "support", "ended_rep": "support", "ended_ntr": "support"}


def counts(events, payloads):
    """The numbers of a row, those of `bits_per_retirement` aside."""
    packets = [reading.unpack(payload) for payload in payloads]
    kinds = [KINDS.get(packet[0], packet[0]) for packet in packets]
    reports = [packet[3] for packet in packets if packet[0] == "address"]
    retired = [event for event in events if reading.is_retirement(event)]
    return [
        len(events), len(retired), len(events) - len(retired), sum(event[2] in (4, 5) for event in retired),
        len(packets), *(kinds.count(kind) for kind in ("support", "sync", "trap", "address", "map")),
        reports.count("notify"), reports.count("updiscon"),
        sum(map(len, payloads)), max(map(len, payloads)),
    ]


def row(name, numbers):
    retirements, payload_bytes = numbers[1], numbers[-2]
    thousandths = 8 * payload_bytes * 1000 // retirements if retirements else None
    ratio = "" if thousandths is None else f"{thousandths // 1000}.{thousandths % 1000:03}"
    return ",".join([str(name), *map(str, numbers), ratio]) + "\n"


def text(logs, payloads):
    """The text of a measure of these logs, whose harts have these payloads."""
    rows = [counts(*it) for it in zip(logs, payloads)]
    made = COLUMNS + "\n" + "".join(row(hart, numbers) for hart, numbers in enumerate(rows))
    if len(rows) > 1:
        total = [sum(column) for column in zip(*rows)]
        total[-1] = max(numbers[-1] for numbers in rows)
        made += row("all", total)
    return made
