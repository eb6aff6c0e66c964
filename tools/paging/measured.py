"""What `measure` says of the bits of a retirement, at the periods that it was asked for."""
from paging import tables
from recording.unusable import Unusable

MAKER = "measure"
MOST_PERIOD = 65535


def read(given):
    """The bits a retirement of each hart by period: {hart: {period: bits}}, `all` among the harts where a table has it."""
    found = {}
    for text in given:
        period, path = parted(text)
        for hart, bits in rows(path):
            if period in found.setdefault(hart, {}):
                raise Unusable(f"--measure {text}: the period {period} is given twice")
            found[hart][period] = bits
    return found


def parted(text):
    """The period and the path of PERIOD=FILE."""
    period, _, path = text.partition("=")
    if not (tables.is_number(period) and 1 <= int(period) <= MOST_PERIOD and path):
        raise Unusable(f"--measure {text}: PERIOD=FILE is wanted, with a period of 1 to {MOST_PERIOD}")
    return int(period), path


def rows(path):
    """The harts of a table and their bits a retirement, without those where nothing retired."""
    with open(path, "rb") as file:
        lines = [line.rstrip(b"\r\n") for line in file]
    wanted = "hart", "payload_bytes", "retirements"
    header = tables.header_of(path, lines[0] if lines else b"", MAKER, wanted)
    for place, line in enumerate(lines[1:], 2):
        fields = line.decode("ascii", "replace").split(",")
        if len(fields) != len(header):
            raise Unusable(f"{path}: line {place}: {len(fields)} fields, not {len(header)}")
        hart, payload, retirements = (fields[header.index(name)] for name in wanted)
        if not (tables.is_number(hart) or hart == "all") or not tables.is_number(payload) or not tables.is_number(retirements):
            raise Unusable(f"{path}: line {place}: hart, payload_bytes or retirements is not a number")
        if int(retirements):
            yield hart if hart == "all" else int(hart), 8 * int(payload) / int(retirements)
