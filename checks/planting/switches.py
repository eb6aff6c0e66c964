"""Many wrong bodies in one text: each is in its function behind a test of its number.

A function begins with `if planted_body(N) { return { .. }; }` for each body N that changes it, where `..` is the whole
wrong body. So one build serves all of them, and the number is chosen when a test runs. What a body changes outside
functions is in place for all: a line with `use`, or an item that is added.
"""
import re

from planting.bodies import Unjudged, wrong_text

FUNCTION = re.compile(r'^( *)(?:pub(?:\([a-z ]+\))? )?(?:const )?(?:unsafe )?(?:extern "C" )?fn \w+', re.M)

# The C function that says which body is chosen.
DECLARED = """
unsafe extern "C" {{
    safe fn {name}(number: u32) -> bool;
}}
"""


def body_spans(text):
    """Where the bodies of the functions are in a text that `rt fmt` laid out: the first byte of each, and that after
    its last line."""
    spans, after = [], 0
    for head in FUNCTION.finditer(text):
        if head.start() < after:
            continue
        room = head.group(1)
        opened = re.compile(rf"^{room}(?! )(?:.* )?\{{$|^{room}(?! ).*[;}}]$", re.M).search(text, head.start())
        if opened and opened.group().endswith("{"):
            closed = re.compile(rf"^{room}\}}$", re.M).search(text, opened.end())
            spans.append((opened.end() + 1, closed.start()))
            after = closed.end()
    return spans


def is_outside(text, old):
    """Whether a text is in no function's body, nor over its end."""
    start = text.index(old)
    return all(start + len(old) <= first or start > last for first, last in body_spans(text))


def may_be_for_all(old, new):
    """Whether a change outside functions leaves the meaning: an item is added, or names are brought in."""
    return new.startswith(old) or new.endswith(old) or old.lstrip("\n").startswith("use ")


def split(text, body):
    """The pairs of a body that are outside functions, and those that are inside."""
    outside, inside = [], []
    for pair in body.pairs:
        is_out = text.count(pair[0]) == 1 and is_outside(text, pair[0])
        if is_out and not may_be_for_all(*pair):
            raise Unjudged("changes what is in no function")
        (outside if is_out else inside).append(pair)
        text = wrong_text(text, body, [pair])
    return outside, inside


def between(text, spans):
    """What is in no function's body: before the first, between two, and after the last."""
    ends, starts = [0, *(end for _, end in spans)], [*(start for start, _ in spans), len(text)]
    return [text[end:start] for end, start in zip(ends, starts)]


def changed(base, wrong):
    """The functions whose bodies differ, each by its place among the functions, with the other body."""
    before, after = body_spans(base), body_spans(wrong)
    if between(base, before) != between(wrong, after):
        raise Unjudged("changes more than bodies of functions")
    bodies = [(base[a:b], wrong[c:d]) for (a, b), (c, d) in zip(before, after)]
    return {place: other for place, (one, other) in enumerate(bodies) if one != other}


def in_place_for_all(text, bodies):
    """The text with what bodies change outside functions; the rest of each body that fits behind a switch, and the
    bodies that do not, with the reasons."""
    made, rests, alone = text, {}, {}
    for number, body in bodies:
        try:
            outside, inside = split(text, body)
            for old, new in outside:
                if new not in made:
                    made = wrong_text(made, body, [(old, new)])
            rests[number] = body, inside
        except Unjudged as why:
            alone[body] = str(why)
    return made, rests, alone


def switched(text, bodies, name):
    """A text of a file with the wrong bodies, each with its number, behind calls of this name; and the bodies that do
    not fit there, each with the reason."""
    base, rests, alone = in_place_for_all(text, bodies)
    heads = {}
    for number, (body, inside) in rests.items():
        try:
            for place, wrong in changed(base, wrong_text(base, body, inside)).items():
                head = f"    if {name}({number}) {{\n    return {{\n{wrong}    }};\n    }}\n"
                heads[place] = heads.get(place, "") + head
        except Unjudged as why:
            alone[body] = str(why)
    if not heads:
        return text, alone
    spans = body_spans(base)
    for place in sorted(heads, reverse=True):
        start = spans[place][0]
        base = base[:start] + heads[place] + base[start:]
    return base + DECLARED.format(name=name), alone


def number_at(text, line, name):
    """The number of the body that a line of a switched text is in, or None."""
    rows = text.split("\n")
    head = re.compile(rf"    if {name}\((\d+)\) {{$")
    for place in range(min(line, len(rows)) - 1, -1, -1):
        found = head.match(rows[place])
        if found:
            return int(found.group(1)) if line <= rows.index("    };", place) + 2 else None
    return None
