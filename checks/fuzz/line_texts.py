"""What `tracebench capture` writes of lines, read from docs/FORMATS.md, and texts of lines to give it."""

LINES = "lines.txt"
DIGITS = b"0123456789"
HEXADECIMAL = DIGITS + b"abcdefABCDEF"


def parted(text):
    """The lines of a text, without their ends."""
    ended = text.split(b"\n")
    last = ended.pop()
    return [line[:-1] if line.endswith(b"\r") else line for line in ended] + [last] * bool(last)


def fields_of(line):
    """The fields of a line: the words of each part between commas, or an empty one."""
    words = [part.replace(b"\t", b" ").split(b" ") for part in line.split(b",")]
    return [field for part in words for field in [word for word in part if word] or [b""]]


def is_passed_over(line):
    """Whether a line is empty but for blanks and tabs, or begins with `#`."""
    return line.strip(b" \t")[:1] in (b"", b"#")


def is_over(fields):
    """Whether nothing is in these fields, which follow the bytes, but a time."""
    return not fields or len(fields) == 1 and fields[0].startswith(b"@")


def number_below(limit, field):
    """The decimal number below the limit that a field is; None where it is none."""
    is_number = field != b"" and all(digit in DIGITS for digit in field) and int(field) < limit
    return int(field) if is_number else None


def fault_of(fields, count, limit, harts, bits):
    """What is wrong with a line of these fields, of which a text has so many; None where it has no fault."""
    is_timed = count == 3 and any(field.startswith(b"@") for field in fields[2:3])
    if len(fields) < count or b"" in fields[:count] or is_timed or not is_over(fields[count:]):
        return "wrong number of fields"
    if number_below(limit, fields[0]) is None:
        return f"hart is not a number below {limit}"
    if count == 3 and number_below(1 << (bits or 64), fields[1]) is None:
        return "number is not a number" + (f" below {1 << bits}" if bits else "")
    digits = fields[count - 1].removeprefix(b"0x")
    if len(digits) % 2 or not 2 <= len(digits) <= 36 or any(digit not in HEXADECIMAL for digit in digits):
        return "bytes are not 1 to 18"
    return None if harts is None or int(fields[0]) < harts else "hart is not below --harts"


def recovered(low, bits, before):
    """The number of so many low bits, after these numbers of its hart."""
    lowest = max(0, max(before) + 1 - (1 << bits - 1)) if before else 0
    return min(lowest + (low - lowest) % (1 << bits), (1 << 64) - 1)


def read(text, limit, harts, bits, is_streamed):
    """The fields of each line of a text that says something, by how many there are of them, and its fault; each with the
    number of the line. A text that is read as it comes has the form of its first line without a fault."""
    rows, count = [], 3 if bits else None
    for number, line in enumerate(parted(text), 1):
        if is_passed_over(line):
            continue
        fields = fields_of(line)
        own = count or (2 if len(fields) >= 2 and is_over(fields[2:]) else 3)
        fault = fault_of(fields, own, limit, harts, bits)
        rows.append((number, fields, own, fault))
        if not is_streamed or not fault:
            count = own
    return rows


def capture(text, is_first, is_full, period, harts, bits, is_skipping):
    """The status, what is written and the error of a run over a text."""
    limit = 64 if is_first else 1024
    is_streamed = is_first or harts is not None
    if harts is not None and harts > limit:
        return 2, b"", f"more than {limit} harts"
    if is_skipping and not is_streamed:
        return 2, b"", "--skip needs --harts or --v1"
    rows = read(text, limit, harts, bits, is_streamed)
    faults = [place for place, (_, _, _, fault) in enumerate(rows) if fault]
    status, error = 0, None
    if faults and is_skipping:
        status, error = 1, f"{LINES}: lines skipped: {len(faults)}"
        rows = [row for row in rows if not row[3]]
    elif faults:
        number, _, _, fault = rows[faults[0]]
        status, error = 2, f"{LINES}: line {number}: {fault}"
        rows = rows[: faults[0]]
    if error and not is_streamed:
        return status, b"", error
    seen, messages = {}, []
    for _, fields, count, _ in rows:
        hart, payload = int(fields[0]), bytes.fromhex(fields[count - 1].removeprefix(b"0x").decode())
        before = seen.setdefault(hart, [])
        number = int(fields[1]) if count == 3 else len(before)
        number = recovered(number, bits, before) if bits else number
        before.append(number)
        messages.append(hart.to_bytes(2, "little") + number.to_bytes(8, "little") + bytes([len(payload)]) + payload)
    counted = harts or max(seen, default=0) + 1
    header = b"\xff\xffrvtrace2\0" + bytes([is_full]) + period.to_bytes(2, "little") + counted.to_bytes(2, "little")
    return status, (b"" if is_first else header) + b"".join(messages), error


def line(random, count, harts, bits):
    """A line of so many fields, most of them good."""
    if random.randrange(9) == 0:
        return random.choice(("", " ", "\t", "#", "# 0 1f", " #,"))
    hart = str(random.randrange(harts)).zfill(random.choice((1, 1, 1, 4)))
    number = str(random.choice((random.randrange(9), (1 << (bits or 64)) - 1, random.getrandbits(bits or 64))))
    digits = random.randbytes(random.randint(1, 18)).hex()
    digits = random.choice(("", "", "0x")) + (digits.upper() if random.randrange(4) == 0 else digits)
    times = ["@" + "12"[: random.randrange(3)]] * (random.randrange(4) == 0)
    between = lambda: random.choice((" ", " ", ",", "\t", "  ", " , ", "\t,"))
    fields = ([hart, number, digits] if count == 3 else [hart, digits]) + times
    around = random.choice(("", "", " ", "\t"))
    return around + "".join(field + between() for field in fields[:-1]) + fields[-1] + around


def changed(random, text):
    """A text with one change, at a place drawn."""
    at = random.randrange(len(text) + 1)
    way, piece = random.randrange(4), random.choice(list(b" \n\r09fgx-\t,#@\x80"))
    if way == 0:
        return text[:at] + text[at + 1 :]
    return text[:at] + bytes([piece]) + text[at + (way == 1) :]


def case(random, good_lines):
    """A text and settings: lines as `encode` writes them, or drawn, some of them changed."""
    count, harts = random.choice((2, 3)), random.choice((1, 2, 64, 65, 1024, 1025))
    bits = random.choice((None, None, None, 4, 5, 8, 32))
    ends = random.choice((["\n"], ["\r\n"], ["\n", "\r\n"]))
    if random.randrange(3):
        lines = (line(random, count, harts, bits) for _ in range(random.choice((0, 1, 3, 9))))
        text = "".join(text + random.choice(ends) for text in lines).encode()
    else:
        text = good_lines.encode()
    if random.randrange(4) == 0:
        text = text.removesuffix(b"\n")
    for _ in range(random.choice((0, 0, 1, 2))):
        text = changed(random, text)
    asked = random.choice((None, None, None, harts, random.choice((1, 2, 64, 65, 1024))))
    asked = None if asked is None else min(asked, 1024)
    is_skipping = random.randrange(3) == 0
    return text, (random.randrange(3) == 0, random.randrange(2) == 0, random.choice((1, 7, 1024, 0xFFFF)), asked, bits,
                  is_skipping)


def words(is_first, is_full, period, harts, bits, is_skipping):
    """The arguments of a run with these settings."""
    flags = ["--v1"] * is_first + ["--full"] * is_full + ["--skip"] * is_skipping + ["--period", str(period)]
    flags += [] if harts is None else ["--harts", str(harts)]
    return ["capture", *flags, *([] if bits is None else ["--number-bits", str(bits)]), LINES]


def kind_of(status, error):
    return ("written", "skipped")[status] if status < 2 else error.split(": ")[-1]
