"""Changed reports of random cases. A case of `check` follows from its seed and its number alone.

The report is the simulator's, of a right platform and a schedule. In it a line is left out, written twice or exchanged with the next
one, or a number, a label, an actor or a byte is another; often the last line tells the events that there are then.
"""
import itertools
import random
import re

from player import Case, Expected, by_reference
from random_cases import random_case

# How often a report is changed in a way.
WEIGHTS = {"none": 2, "without": 5, "twice": 5, "exchange": 5, "number": 8, "label": 4, "actor": 3, "byte": 4}
MOST_BYTES = 200_000


def random_report(seed, number):
    """The case of a seed and a number."""
    draw = random.Random(f"report {seed} {number}")
    case, report = played(f"report {seed} {number}")
    way = draw.choices(list(WEIGHTS), WEIGHTS.values())[0]
    lines = changed(draw, way, report.splitlines(keepends=True))
    if draw.random() < 0.6:
        lines = counted_again(lines)
    expected = Expected(0, b"run\n") if way == "none" else Expected()
    files = {"P": case.files["P"], "I": case.files["I"], "T": b"".join(lines)}
    return Case(f"random report {seed} {number} ({way})", files, ["check", "P", "I", "T"], expected)


def played(seed):
    """The first random case of a seed that is played to status 0 with some events, and its report."""
    for attempt in itertools.count():
        case = random_case(seed, attempt)
        outcome = by_reference(case, case.files)
        if outcome.status == 0 and 1 < outcome.text.count(b"\n") and len(outcome.text) < MOST_BYTES:
            return case, outcome.text


def changed(draw, way, lines):
    """The lines with one change."""
    at = place(draw, lines)
    if way == "without":
        return lines[:at] + lines[at + 1:]
    if way == "twice":
        return lines[:at + 1] + lines[at:]
    if way == "exchange":
        return lines[:at] + lines[at:at + 2][::-1] + lines[at + 2:]
    new = {"none": unchanged, "number": other_number, "label": other_label, "actor": other_actor, "byte": other_byte}[way]
    return lines[:at] + [new(draw, lines[at], lines)] + lines[at + 1:]


def place(draw, lines):
    """A line; two of three times one that is not silent."""
    loud = [at for at, line in enumerate(lines) if not line.endswith(b" -\n")]
    return draw.choice(loud) if draw.random() < 0.67 else draw.randrange(len(lines))


def unchanged(draw, line, lines):
    return line


def other_number(draw, line, lines):
    """The line with another number in the place of one of its numbers; one time of two, of its last one."""
    found = list(re.finditer(rb"[0-9]+", line))
    if not found:
        return line
    one = found[-1] if draw.random() < 0.5 else draw.choice(found)
    old = int(one[0])
    new = draw.choice([old + 1, old + 1, max(old - 1, 0), 0, 1, 2, 64, 65535, 65536, 2**24, 2**32, 2**64 - 1, 2**64, f"0{old}"])
    return line[:one.start()] + str(new).encode() + line[one.end():]


def other_label(draw, line, lines):
    """The line with the last word of another line."""
    return line[:line.rindex(b" ") + 1] + draw.choice(lines).split(b" ")[-1]


def other_actor(draw, line, lines):
    """The line with the first word of another line."""
    return draw.choice(lines).split(b" ")[0] + line[line.index(b" "):]


def other_byte(draw, line, lines):
    at = draw.randrange(len(line))
    return line[:at] + bytes([draw.choice([*b" -:0129apz\n\t\r", 0, 255])]) + line[at + 1:]


def counted_again(lines):
    """The last line with the number of lines before it."""
    return lines[:-1] + [re.sub(rb"events [0-9]+", b"events %d" % (len(lines) - 1), line) for line in lines[-1:]]
