"""Reports: the lines of events, the last line, and what judges a report.

Every event has one spelling, and what isn't a spelling is refused: no other space, no leading zero, no number above the
type of its field.
"""
import functools
import re

from machine import Broken
from registers import REGISTERS
from words import LOCKED, access_text

U16, U32, U64 = 2**16 - 1, 2**32 - 1, 2**64 - 1

# The words that name no processor and those that name one; the accesses and how many numbers each has.
COMMON_WORDS, OWN_WORDS = "counter bsp inside insync source except".split(), "pend present run busy".split()
ACCESSES = {"claim": 2, "await": 2, "put": 1, "seek": 1, "raise": 1, **dict.fromkeys("look up down lower lock signal take clear".split(), 0)}

STATUSES = """SUCCESS INVALID_PARAMETER UNSUPPORTED NOT_READY OUT_OF_RESOURCES ACCESS_DENIED NOT_FOUND TIMEOUT ABORTED
    INTERRUPT_PENDING SOURCE_PENDING SOURCE_QUIESCED""".split()
GUID = re.compile("[0-9a-f]{8}-[0-9a-f]{4}-[0-9a-f]{4}-[0-9a-f]{4}-[0-9a-f]{12}")

# The labels: the first word and the kind of each part behind it.
LABELS = {line.split()[0]: line.split()[1:] for line in """-
    excepted u32
    wave u32
    enter
    turn
    arrive
    late
    elect
    served u32
    gather u32
    ready u32
    expire round
    quit
    report
    close u32
    begin u32
    manage type
    deep type
    call u16
    return u16 status
    answer status
    set variable u64
    read u16 register u32 u64 status
    write u16 register u32 u64 status
    check u64 status
    wait u64 u64 status
    alloc u64 u64 status
    free u64 status
    register u16 u32 status
    unregister u64 status
    refuse u16 cause
    start u16 u32 u16 u64
    run u32 u64 status
    collect u16
    spent
    done
    release u16
    depart
    end
    resume way
    off""".split("\n")}


def is_number(text, most):
    """Is a text a decimal number without leading zeros, and not above another?"""
    return re.fullmatch("0|[1-9][0-9]{0,19}", text) is not None and int(text) <= most


KINDS = {
    "u16": lambda text: is_number(text, U16),
    "u32": lambda text: is_number(text, U32),
    "u64": lambda text: is_number(text, U64),
    "variable": lambda text: is_number(text, 7),
    "round": "1 2".split().__contains__,
    "status": STATUSES.__contains__,
    "register": REGISTERS.__contains__,
    "type": lambda text: text == "root" or GUID.fullmatch(text) is not None,
    "cause": "range self unknown tokens busy absent".split().__contains__,
    "way": "halt next retry".split().__contains__,
}


# ---- writing

def event_line(event, processors):
    """`ACTOR WORD ACCESS FOUND LABEL`."""
    actor, word, access, found, label = event
    return f"{'chip' if actor == processors else f'p{actor}'} {word} {access_text(access)} {found} {label}\n"


class Count:
    """What a last line tells of the events before it."""

    def __init__(self):
        self.events = self.sessions = self.unserved = 0

    def add(self, label):
        self.events += 1
        self.sessions += label == "end"
        self.unserved += label.startswith("wave:")
        self.unserved -= label.startswith("served:") and label != "served:0"

    def text(self):
        return f"events {self.events} sessions {self.sessions} unserved {self.unserved}"


def last_line(world):
    count = Count()
    for event in world.events:
        count.add(event[4])
    return f"{'complete' if world.is_complete() else 'unfinished'} {count.text()}\n"


def report_of(world):
    """The lines of the events and the last line."""
    return "".join(event_line(event, world.platform.processors) for event in world.events) + last_line(world)


# ---- reading

def read_event(line, processors):
    """The actor and the label of a line without its line end, or None where it isn't a spelling of an event."""
    parts = line.split(" ")
    if len(parts) != 5:
        return None
    actor, word, access, found, label = parts
    number = read_actor(actor, processors)
    right = number is not None and is_word(word, processors) and is_access(access) and is_number(found, LOCKED) and is_label(label)
    return (number, label) if right else None


@functools.cache
def read_actor(text, processors):
    if text == "chip":
        return processors
    return int(text[1:]) if text[:1] == "p" and is_number(text[1:], processors - 1) else None


@functools.cache
def is_word(text, processors):
    name = text.rstrip("0123456789")
    return text in COMMON_WORDS or (name in OWN_WORDS and is_number(text[len(name):], processors - 1))


@functools.cache
def is_access(text):
    name, *numbers = text.split(":")
    return ACCESSES.get(name) == len(numbers) and all(is_number(number, LOCKED) for number in numbers)


@functools.lru_cache(100_000)
def is_label(text):
    name, *parts = text.split(":")
    kinds = LABELS.get(name)
    return kinds is not None and len(kinds) == len(parts) and all(KINDS[kind](part) for kind, part in zip(kinds, parts))


def read_last(line):
    """The text of the numbers of a last line without its line end, or None where it has another form."""
    found = re.fullmatch("(?:complete|unfinished) (events ([0-9]+) sessions ([0-9]+) unserved ([0-9]+))", line)
    return found[1] if found and all(is_number(number, U64) for number in found.groups()[1:]) else None


# ---- judging

def judge(machine, data, processors):
    """What is wrong with a report, as `line L text` or `line L rule R`; None where its labels are a run of the machine
    and its last line has its numbers."""
    count, at = Count(), 0
    while True:
        end = data.find(b"\n", at)
        line = data[at:end].decode("latin-1") if end >= 0 else ""
        event = read_event(line, processors)
        if event is None:
            return judge_last(line, 0 <= end < len(data) - 1, count)
        at = end + 1
        count.add(event[1])
        if event[1] == "-":
            continue
        try:
            machine.accept(*event)
        except Broken as broken:
            return f"line {count.events} rule {broken.args[0]}"


def judge_last(line, goes_on, count):
    """What is wrong with a line that isn't an event's, or with a report that goes on behind it."""
    number, told = count.events + 1, read_last(line)
    if told is None:
        return f"line {number} text"
    if told != count.text():
        return f"line {number} rule 32"
    return f"line {number + 1} text" if goes_on else None
