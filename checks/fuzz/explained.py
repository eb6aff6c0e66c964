"""What `check --explain` prints below an illegal row, read from docs/FORMATS.md."""

import lists
import reading

MOST_RANGES = 4
ELF = "  the image looks like an ELF file: give it the raw bytes (tools/image, or objcopy -O binary)\n"
CLASSES = {
    "plain": "a plain word", "jump": "a jump", "branch": "a branch", "uninferable": "an uninferable jump", "mret": "MRET",
    "sret": "SRET",
}


def ranges(program):
    """The ranges at which a program has bytes, in order of addresses, each its first address and the one behind its last."""
    found = []
    for base, end in sorted((base, base + len(image)) for base, image in program.pieces if image):
        if found and base == found[-1][1]:
            found[-1][1] = end
        else:
            found.append([base, end])
    return found


def image_text(program):
    found = ranges(program)
    texts = [f"{base:x} to {end - 1:x}" for base, end in found[:MOST_RANGES]]
    more = len(found) - len(texts)
    return f"the image is {', '.join(texts) or 'empty'}" + (f", and {more} more" if more else "")


def word_text(program, event):
    """The address and the word of a retirement."""
    length = program.at(event[1])[2]
    word = int.from_bytes(program.bytes_at(event[1], length), "little")
    return f"{event[1]:x}: {word:0{2 * length}x}"


def standing(program, event):
    """What is at an event."""
    if not reading.is_retirement(event):
        return f"{event[1]:x}: {'an interrupt' if event[3] else 'an exception'} from privilege {event[2]}"
    return f"{word_text(program, event)} is {CLASSES[reading.kind_at(program, event)]}"


def standing_before(program, event):
    is_branch = reading.is_retirement(event) and reading.kind_at(program, event) == "branch"
    outcome = {5: ", taken", 4: ", not taken"}[event[2]] if is_branch else ""
    return standing(program, event) + outcome


def one_of(levels):
    *others, last = map(str, levels)
    return f"{', '.join(others)} or {last}" if others else last


def levels_of(kind):
    return one_of([level for level in reading.PRIVILEGES if reading.retires_at(kind, level)])


def line(program, before, event, why):
    """Why an event is illegal behind the one before it, which is legal, or None where it is the first."""
    if why == "OffProgram":
        return f"{event[1]:x}: no whole word: {image_text(program)}"
    if why == "NotRetirable":
        return f"{word_text(program, event)} does not retire"
    if why == "WrongType":
        return f"{standing(program, event)}: its type is {one_of(reading.TYPES[reading.kind_at(program, event)])}"
    if why in ("WrongNext", "WrongEpc"):
        return f"{standing_before(program, before)}: {reading.leads_to(program, before):x} follows, not {event[1]:x}"
    level = reading.privilege_of(event)
    kind = reading.kind_at(program, event) if reading.is_retirement(event) else None
    if not reading.retires_at(kind, level):
        return f"{standing(program, event)}: its privilege is {levels_of(kind)}"
    follows = one_of(reading.privileges_after(program, before))
    return f"{standing_before(program, before)}: privilege {follows} follows, not {level}"


def text(program, events, illegal, symbols=()):
    """The lines below that of the first illegal row of a log that was read, and why that is. The first ends with the name of
    the row's place, where one of the symbols is below it."""
    row, why = illegal
    before = events[row - 2] if row > 1 else None
    begins = program.bytes_at(min(base for base, _ in program.pieces), 4)
    name = lists.name_text(events[row - 1][1], symbols).decode()
    return f"  {line(program, before, events[row - 1], why)}{name}\n" + ELF * (begins == b"\x7fELF")
