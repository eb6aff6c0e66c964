"""Programs in several memories: images that are cut into pieces, and runs over these.

The pieces come to have all bytes of an image, so that a run over them prints what one over the image does; or some of them are
elsewhere or left out, and then `reading` says what is printed.
"""

import collections
import itertools

import cases
import explained
import reading

# What is done with a program of several pieces: a case of another kind.
Case = collections.namedtuple("Case", "kind case pieces")

KINDS = ("captures", "logs", "logs", "measures", "measures", "lists", "salvages", "treated", "parts", "comparisons", "threads")
ELSEWHERE = (0x1000, 0x10000, 0x20000000, 0x90000000, 0x4000000000000000, 0xFFFFFFFFFFFFFE00)


# Pieces, each its base and its bytes.


def cut(random, base, image, least=0):
    """An image in pieces, cut at some even places, at each of them, or nowhere."""
    places = range(2, len(image), 2)
    count = min(random.choice((least, 1, 1, 2, 3, 6, len(places))), len(places))
    ends = [0, *sorted(random.sample(places, count)), len(image)]
    return [(base + first, image[first:end]) for first, end in zip(ends, ends[1:])]


def program(random):
    """A random program: of one image, or of pieces that are not all where they were, nor all there."""
    base, image = cases.image(random)
    if random.randrange(2):
        return reading.Program(base, image)
    places, made = random.sample(ELSEWHERE, len(ELSEWHERE)), []
    for at, content in cut(random, base, image, 1):
        what = random.randrange(6)
        if what == 0 and places:
            made.append((places.pop(), content[: len(content) - random.randrange(2)]))
        elif what:
            made.append((at, content))
    first, *also = made or [(base, image)]
    return reading.Program(*first, also)


def pieces_of(random, program):
    """The pieces of a program in any order, cut again; now and then with one that has no bytes."""
    made = [part for piece in program.pieces for part in cut(random, *piece)]
    if random.randrange(4) == 0:
        made.append((random.choice((0, *ELSEWHERE, made[0][0], made[-1][0])), b""))
    random.shuffle(made)
    return made


def name_of(place):
    """The file of a piece, whose name has the sign that parts it from its base."""
    return f"piece={place}"


def named(pieces):
    """The base and the file of pieces, each with its place."""
    return [(base, name_of(place)) for place, (base, _) in pieces]


def files_of(pieces):
    return {name_of(place): content for place, (_, content) in enumerate(pieces)}


# Runs, each its arguments, status, output and error.


def arguments(random, also):
    """The arguments for pieces beside the image, each `B2=FILE`."""
    return [part for it in also for part in random.choice((["--also", it], [f"--also={it}"]))]


def over_pieces(random, words, pieces):
    """The arguments of a run over an image, for one over pieces, each its base and its file."""
    (base, first), *others = pieces
    at = words.index("--base") + 2
    also = arguments(random, [f"{base:x}={name}" for base, name in others])
    return [*words[: at - 1], f"{base:x}", *also, *(first if word == "image" else word for word in words[at:])]


def check_line(program, events, name):
    """The lines of `check --explain` for a log, and whether it is legal."""
    illegal = reading.first_illegal(program, events)
    if illegal is None:
        return f"{name}: legal, {len(events)} events\n", True
    return f"{name}: row {illegal[0]}: {illegal[1]}\n" + explained.text(program, events, illegal), False


def explaining(maker, text):
    """The run that says whether a log is legal, and why not; none where it is no log."""
    events = reading.read_log(text)
    if not isinstance(events, str):
        out, is_legal = check_line(maker.program, events, "case")
        words = ["check", "--explain", "--base", f"{maker.program.base:x}", "image", "case"]
        yield words, 0 if is_legal else 2, out.encode(), None


def lacking(random, logs, pieces):
    """The run that says whether logs are legal where a piece or some are left out."""
    lost = random.choice((1, 1, 2, len(pieces) // 2))
    left = random.sample(list(enumerate(pieces)), max(len(pieces) - lost, 1))
    program = reading.Program(*left[0][1], [piece for _, piece in left[1:]])
    names = [f"case{hart}" for hart in range(len(logs))]
    lines = [check_line(program, events, name) for events, name in zip(logs, names)]
    words = over_pieces(random, ["check", "--explain", "--base", "", "image", *names], named(left))
    return words, 0 if all(is_legal for _, is_legal in lines) else 2, "".join(line for line, _ in lines).encode(), None


def runs(maker, case, inner):
    """Those of a case of another kind, over the image where that has all bytes, and over the pieces; some without all of the
    pieces; and now and then one with a piece that is refused."""
    is_one = len(maker.program.pieces) == 1
    others = explaining(maker, case.case) if case.kind == "logs" else ()
    for words, *wanted in itertools.chain(inner, others):
        if is_one or "image" not in words:
            yield words, *wanted
        if "image" in words:
            yield over_pieces(maker.random, words, named(enumerate(case.pieces))), *wanted
    if case.kind == "measures" and len(case.pieces) > 1:
        yield lacking(maker.random, case.case, case.pieces)
    if maker.random.randrange(4) == 0:
        yield refusal(maker.random, case.pieces)


def refusal(random, pieces):
    """A run over pieces of which some are refused."""
    given = [(f"{base:x}", name_of(place), content) for place, (base, content) in enumerate(pieces)]
    at = random.randrange(len(given))
    base, (_, *same) = pieces[at][0], given[at]
    last = (1 << 64) - len(pieces[at][1]) - random.randrange(3) & ~1
    bases = "x", f"{base:x}", f"{base:x}", f"{base + 1:x}", f"{base + 2:x}", f"{last:x}"
    wrong = [("absent", None, b""), *((it, *same) for it in bases)]
    for _ in range(random.choice((1, 1, 2))):
        given.insert(random.randint(1, len(given)), random.choice(wrong))
    also = [base if name is None else f"{base}={name}" for base, name, _ in given[1:]]
    words = ["check", "--base", given[0][0], *arguments(random, also), given[0][1], "absent"]
    error = fault_of(given)
    return words, 2 if error else 3, b"", error or "absent: cannot be read"


def fault_of(given):
    """Why an image and its pieces are refused, each a number as it is given, a file and bytes; None where they are not."""
    numbers = [reading.number(base.encode()) for base, *_ in given]
    if None in numbers:
        return "base is not a number"
    before = []
    for base, (_, name, content) in zip(numbers, given):
        if fault := fault_of_piece(base, content, before):
            return f"{name}: {fault}" if before else fault
        before.append((base, base + len(content)))
    return None


def fault_of_piece(base, content, before):
    """Why a piece is not added to others, each its base and the address behind it. Of a first piece there is no fault here:
    its base is even and its end below 2^64."""
    if base % 2:
        return "base is odd"
    if base + len(content) > reading.MASK:
        return "runs past the last address"
    overlaps = any(max(base, first) < min(base + len(content), end) for first, end in before)
    return "overlaps" if overlaps else None
