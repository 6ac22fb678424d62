#!/usr/bin/env python3
"""Tries the parts of the invariant: what holds of the words, the rows and the desks between any two events.

    reference/parts.py               2000 random cases
    reference/parts.py COUNT SEED    COUNT random cases, of another seed

A case is a random platform, mostly of up to 6 processors, with its images and a schedule. The simulator plays it, the
abstract machine (`machine.py`) follows its labels, and after every event every part must hold.

Then the protocol is changed in one row for each part: among the same cases there must be one in which that part is the
first to be broken (alone or with others at the same event). So no part is there for nothing. A change may also make a
label break a rule of the machine; the machine goes on by the label's effect all the same.

The exit status is 0 only where every part held and every changed row broke its part.
"""
import multiprocessing
import pathlib
import random
import sys
import types
from dataclasses import dataclass

HERE = pathlib.Path(__file__).resolve().parent
sys.path += [str(HERE), str(HERE.parent / "cases")]

import protocol  # noqa: E402
import random_cases  # noqa: E402
from images import read_images  # noqa: E402
from layout import RelocationFault  # noqa: E402
from machine import Broken, Machine  # noqa: E402
from platform_file import PlatformFault, read_platform  # noqa: E402
from rules import random_platform, random_schedule  # noqa: E402
from words import LOCKED, NONE, apply  # noqa: E402

FEW, MANY = 6, 17

# ---- the rows of the protocol

OPENING = "MarkInside TakeSource".split()
GATHERING = "LookAtExcept GatherFirst FindMissing SignalMissing GatherSecond".split()
CLOSING = "MarkInsync LockCounter AwaitReports TakeDesk".split()
SERVING = "Serve CollectJob".split()
LEAVING = "LeaveInside Release AwaitReleased Dismiss AwaitDismissed GiveBsp LeaveInsync UnlockCounter".split()
COURSES = {"traditional": OPENING + GATHERING + CLOSING + SERVING + LEAVING, "relaxed": OPENING + SERVING + CLOSING + LEAVING}
OF_BSP = set(COURSES["traditional"])

PHASES = {row: phase for phase, rows in {
    "Out": "AwaitSmi SwitchOff",
    "In": "LookAtSource LookAtInside CountIn",
    "Counted": "ClaimBsp LookAtBsp AwaitInside FindBsp SignalBsp AwaitInsideAgain CountOut SeekBsp Report " + " ".join(OF_BSP),
    "Here": "TellReported AwaitRelease GiveDeskBack TellReleased AwaitDismissal WithdrawReport",
    "Gone": "TellDismissed AwaitSessionEnd ClearSignal",
    "Off": "Off",
}.items() for row in rows.split()}

TELLS = ["TellReported", "TellReleased", "TellDismissed"]
LOWERS = ["AwaitReports", "AwaitReleased", "AwaitDismissed"]
GIVES, TAKES = ["Report", "GiveDeskBack", "Release"], ["TakeDesk", "CollectJob", "AwaitRelease"]


def hand_of(row, word, access):
    """What an access that changes its word moves: `give` or `take` and the desk's number or `chair`; or None."""
    if row in ("ClaimBsp", "GiveBsp"):
        return ("take" if row == "ClaimBsp" else "give"), "chair"
    if row == "Serve":
        way = {"present": "take", "busy": None if access == ("put", 1) else "take", "run": "give"}.get(word.rstrip("0123456789"))
    else:
        way = "give" if row in GIVES else "take" if row in TAKES else None
    return (way, number_of(word)) if way else None


def number_of(word):
    """The processor that a word is of."""
    return int("".join(filter(str.isdigit, word)))


# ---- a world that is watched

class Follower(Machine):
    """The machine, which puts a processor into its label's phase also where the rule is broken."""

    def move(self, holds, actor, phase):
        self.phase[actor] = phase
        return holds


class Watched:
    """A world, the machine that follows its labels, and what the events so far have made of desks and semaphores.

    A desk's place is the number of the processor that has it, or the word on which it lies; so is the chair's."""

    def __init__(self, world, images):
        self.world, self.platform, self.words = world, world.platform, world.words
        self.machine = Follower(world.platform, images)
        self.everyone = range(self.platform.processors)
        self.course = COURSES[self.platform.mode]
        self.places = {i: i for i in self.everyone}
        self.places["chair"] = "bsp" if self.platform.policy == "elected" else self.platform.fixed
        self.missed = False
        self.raised = [0] * self.platform.processors
        self.claimed, self.at_close = set(), set()
        self.broken_rule = None
        self.begin()

    def begin(self):
        """A session begins."""
        self.told = {row: [] for row in TELLS}
        self.lowered = 0

    def step(self, actor):
        """A step of an actor. Did it make an event?"""
        row, before = self.name(actor), len(self.world.events)
        self.world.step(actor)
        if len(self.world.events) == before:
            return False
        _, word, access, found, label = self.world.events[-1]
        if access[0] == "put" or apply(found, access) != found:
            self.move(actor, word, hand_of(row, word, access))
        self.count(actor, row, word)
        if label != protocol.SILENT:
            self.follow(actor, label)
        return True

    def move(self, actor, word, hand):
        """A giving lays a thing on the word, and a taking finds it there; one that doesn't has missed."""
        if hand is None:
            return
        way, thing = hand
        giver, taker = (actor, word) if way == "give" else (word, actor)
        self.missed = self.missed or self.places[thing] != giver
        self.places[thing] = taker
        if word.startswith("present") and way == "take":
            self.claimed.add(thing)

    def count(self, actor, row, word):
        """What is told to the BSP, what it lowers, and what it raises."""
        if row in TELLS:
            self.told[row].append(actor)
        elif row in LOWERS:
            self.lowered += 1
        elif row in ("AwaitRelease", "AwaitDismissal"):
            self.raised[actor] -= 1
        elif row in ("Serve", "Release", "Dismiss") and word.startswith("run"):
            self.raised[number_of(word)] += 1

    def follow(self, actor, label):
        """The machine goes on by a label. Its first broken rule is kept."""
        if label.startswith("close"):
            self.at_close = self.desks_with(actor)
        elif label == "depart":
            self.claimed.discard(actor)
        elif label == "elect":
            self.begin()
        try:
            self.machine.accept(actor, label)
        except Broken as broken:
            self.broken_rule = self.broken_rule or broken.args[0]

    # ---- what the parts ask

    def name(self, actor):
        """An actor's row without its number."""
        return self.world.row(actor).split()[0]

    @property
    def session(self):
        return self.machine.session

    @property
    def bsp(self):
        return self.session.bsp if self.session else None

    def is_past(self, row):
        """Is there a session whose BSP is at a later row of its course?"""
        if self.session is None or self.name(self.bsp) not in self.course or row not in self.course:
            return False
        return self.course.index(self.name(self.bsp)) > self.course.index(row)

    def is_between(self, first, last):
        """Has the BSP done its first row and not yet the last one?"""
        return self.is_past(first) and not self.is_past(last)

    def desks_with(self, processor):
        return {i for i in self.everyone if self.places[i] == processor}

    def closed_others(self):
        """The processors of the closed set but the BSP; nobody where the session isn't closed."""
        return self.session.closed - {self.bsp} if self.machine.is_closed() else set()


# ---- the parts

def phases(watched):
    """Each processor's phase is that of its row, and the session's BSP alone is at a BSP's row."""
    def holds(i):
        row = watched.name(i)
        return watched.machine.phase[i] == PHASES[row] and (row in OF_BSP) == (i == watched.bsp)
    return all(map(holds, watched.everyone))


def counter(watched):
    """The counter is locked where the session is closed, and else it is the number of members."""
    number = watched.words["counter"]
    return number == LOCKED if watched.machine.is_closed() else number == len(watched.machine.members())


def members(watched):
    """In a closed session the members are the closed set without those that departed; also where one of these has
    resumed and come again before the counter is opened."""
    return not watched.machine.is_closed() or watched.machine.members() == watched.session.closed - watched.session.departed


def marks_and_chair(watched):
    """`inside`, `insync` and `bsp` are as the BSP's row says, and the chair is with the BSP or lies on `bsp`."""
    words = watched.words
    if words["inside"] != watched.is_between("MarkInside", "LeaveInside") or words["insync"] != watched.is_between("MarkInsync", "LeaveInsync"):
        return False
    if watched.platform.policy == "fixed":
        return words["bsp"] == watched.places["chair"] == watched.platform.fixed
    if watched.session and not watched.is_past("GiveBsp"):
        return words["bsp"] == watched.places["chair"] == watched.bsp
    return words["bsp"] == NONE and watched.places["chair"] == "bsp"


def known_bsp(watched):
    """Who is about to report is a member of a session whose BSP is at work; who found a BSP knows the session's, until
    it has told that it leaves."""
    def holds(i):
        row = watched.name(i)
        if row in ("SeekBsp", "Report") and not (watched.is_past("MarkInside") and i in watched.machine.members()):
            return False
        knows = row in ("Report", "TellDismissed") or watched.machine.phase[i] == "Here"
        return not knows or (watched.session is not None and watched.world.processors[i].bsp == watched.bsp)
    return all(map(holds, watched.everyone))


def semaphore_of_bsp(watched):
    """The BSP's semaphore is what it was told in this session less what it lowered. Each processor tells each thing
    once, that it is released after all reports are in, that it leaves after all told that they are released."""
    if watched.session is None:
        return True
    told = sum(map(len, watched.told.values()))
    if watched.words[f"run{watched.bsp}"] != told - watched.lowered or any(len(set(of)) < len(of) for of in watched.told.values()):
        return False
    rows = {watched.name(i) for i in watched.everyone}
    released = rows & {"TellReleased", "AwaitDismissal", "WithdrawReport", "TellDismissed"}
    leaving = rows & {"WithdrawReport", "TellDismissed"}
    return (not released or watched.is_past("AwaitReports")) and (not leaving or watched.is_past("AwaitReleased"))


def semaphores_of_others(watched):
    """Any other semaphore is 1 where the BSP has raised it, for a job, for the release or for the leave, and its
    processor hasn't lowered it; else 0. No two of these raises overlap. Without a session all are 0."""
    others = [i for i in watched.everyone if i != watched.bsp]
    return all(watched.words[f"run{i}"] == watched.raised[i] <= (watched.session is not None) for i in others)


def reports_and_jobs(watched):
    """`present` is 1 from the report to the BSP's claim and 2 from there until the processor departs; `busy` is 1 while
    a job is given or open, and 2 while it is finished."""
    def report(i):
        return 0 if watched.machine.phase[i] != "Here" else 2 if i in watched.claimed else 1

    def job(i):
        if watched.machine.jobs[i]:
            return 1 if watched.machine.jobs[i].state == "open" else 2
        is_given = watched.session and watched.name(watched.bsp) == "Serve" and watched.world.wanted[watched.bsp] == (f"run{i}", ("up",))
        return 1 if is_given else 0
    return all(watched.words[f"present{i}"] == report(i) and watched.words[f"busy{i}"] == job(i) for i in watched.everyone)


def desks(watched):
    """Each desk is in one place: with its processor but where that one waits at its desk's report or release, and then
    on a word of its own or with the BSP, which holds just the desks that are with it. What lies on a word fits there."""
    def holds(i):
        place, job = watched.places[i], watched.world.processors[i].job
        if watched.name(i) not in ("TellReported", "AwaitRelease"):
            return place == i
        fits = {f"present{i}": job is None, f"busy{i}": job and job.status, f"run{i}": job is None or job.status is None}
        return fits.get(place) or (watched.session is not None and place == watched.bsp)
    if watched.missed or not all(map(holds, watched.everyone)):
        return False
    return watched.session is None or watched.world.processors[watched.bsp].held == watched.desks_with(watched.bsp)


def all_have_left(watched):
    """Once the BSP has waited for all to leave, every other one of the closed set has departed and told it."""
    left = watched.session.departed & set(watched.told["TellDismissed"]) if watched.session else set()
    return not watched.is_past("AwaitDismissed") or watched.closed_others() <= left


def desks_of_the_closed(watched):
    """As the BSP takes the missing desks it has those of the closed set whose turn is over or which it held before.
    Afterwards it has that of each one that isn't released or has a job, and it has no other desk and no other job."""
    others, mine = watched.closed_others(), watched.desks_with(watched.bsp)
    busy = {i for i in watched.everyone if watched.machine.jobs[i]}
    if watched.session and watched.name(watched.bsp) == "TakeDesk":
        turn = int(watched.world.row(watched.bsp).split()[1])
        return all(i in mine for i in others if i < turn or i in watched.at_close)
    if not watched.is_past("TakeDesk"):
        return True
    return others - watched.session.released <= mine | busy and mine | busy <= others | {watched.bsp}


PARTS = {
    "phases follow rows": phases,
    "the counter counts the members": counter,
    "members of a closed session": members,
    "marks of the session and the chair": marks_and_chair,
    "APs know their BSP": known_bsp,
    "the BSP's semaphore": semaphore_of_bsp,
    "the other semaphores": semaphores_of_others,
    "reports and jobs": reports_and_jobs,
    "desks have one place": desks,
    "all have left": all_have_left,
    "desks of the closed set": desks_of_the_closed,
}


# ---- changed rows

@dataclass
class Change:
    """A row of `protocol.py` that is changed: a text that stands there once, what takes its place, and what that means."""
    means: str
    old: str
    new: str


CHANGES = {
    "phases follow rows": Change(
        "CountIn: one that turned back counts itself in all the same",
        '            self.say("turn")\n            return\n', '            self.say("turn")\n'),
    "the counter counts the members": Change(
        "CountOut: one that gives up looks at the counter and doesn't lower it",
        '"CountOut", "counter", ("lower",)', '"CountOut", "counter", LOOK'),
    "members of a closed session": Change(
        "CountIn: one that comes late is counted all the same",
        'if (yield "CountIn", "counter", ("up",)) == LOCKED:', 'if (yield "CountIn", "counter", ("up",)) == NONE + 1:'),
    "marks of the session and the chair": Change(
        "LeaveInsync: the BSP looks at its mark and doesn't take it back",
        '"LeaveInsync", "insync", ("put", 0)', '"LeaveInsync", "insync", LOOK'),
    "APs know their BSP": Change(
        "CountOut: left out, one that has waited for both rounds seeks a BSP",
        '                if (yield "CountOut", "counter", ("lower",)) != LOCKED:\n                    self.say("quit")\n                    return\n',
        '                pass\n'),
    "the BSP's semaphore": Change(
        "AwaitReports and the waits of the exit: the BSP goes on where its semaphore is 0",
        'f"{row} {left}", f"run{self.number}", ("down",)', 'f"{row} {left}", f"run{self.number}", ("lower",)'),
    "the other semaphores": Change(
        "AwaitReleased: left out",
        '        yield from self.lower("AwaitReleased", len(released))\n', ''),
    "reports and jobs": Change(
        "WithdrawReport: one that departs looks at its report and doesn't take it back",
        '"WithdrawReport", f"present{self.number}", ("put", 0)', '"WithdrawReport", f"present{self.number}", LOOK'),
    "desks have one place": Change(
        "TakeDesk: the BSP takes a desk for held whatever its claim found",
        'f"present{j}", ("claim", 1, 2)) == 1:', 'f"present{j}", ("claim", 1, 2)) != 3:'),
    "all have left": Change(
        "AwaitDismissed: left out",
        '        yield from self.lower("AwaitDismissed", len(released))\n', ''),
    "desks of the closed set": Change(
        "TakeDesk: only the desks of processors with a lower number are taken",
        '        for j in self.others():\n            if j not in self.held and',
        '        for j in range(self.number):\n            if j not in self.held and'),
}


def world_with(change):
    """The class of worlds of the protocol with a changed row."""
    text = (HERE / "protocol.py").read_text(encoding="utf-8")
    if text.count(change.old) != 1:
        sys.exit(f"protocol.py: {change.old!r} stands {text.count(change.old)} times")
    changed = types.ModuleType("changed_protocol")
    exec(compile(text.replace(change.old, change.new), "changed protocol.py", "exec"), changed.__dict__)
    return changed.World


# ---- cases

def random_case(name):
    """A platform, its images and a schedule; None where the platform's area is refused."""
    draw = random.Random(name)
    tree = random_platform(draw, FEW if draw.random() < 0.95 else MANY)
    n = tree["processors"]
    data = random_cases.image_file(draw, tree["map"], n, "smram" in tree)
    try:
        platform = read_platform(random_cases.toml_of(tree, draw).encode())
    except PlatformFault:
        return None
    return platform, read_images(data), random_schedule(draw, n)


def play(case, world_class):
    """Plays a case up to the first event at which a part is broken: how many events there were, the parts that are
    broken then, and the first rule of the machine that a label broke so far."""
    if case is None:
        return 0, [], None
    platform, images, schedule = case
    try:
        watched = Watched(world_class(platform, images), images)
    except RelocationFault:
        return 0, [], None
    broken = broken_parts(watched)
    for actor in schedule:
        if broken:
            break
        if watched.step(actor):
            broken = broken_parts(watched)
    return len(watched.world.events), broken, watched.broken_rule


def broken_parts(watched):
    return [name for name, part in PARTS.items() if not part(watched)]


def judged(name):
    """A case of the protocol as it is: its events, and what is wrong."""
    events, broken, rule = play(random_case(name), protocol.World)
    if broken or rule:
        return events, f"case {name}, event {events}: broken are {broken or 'no parts'}, rule {rule}"
    return events, None


def first_break(work):
    """Of a part: what its changed row came to, as a line, and whether it broke the part."""
    part, names = work
    change, played = CHANGES[part], 0
    world_class = world_with(change)
    for number, name in enumerate(names, 1):
        try:
            events, broken, rule = play(random_case(name), world_class)
        except Exception:  # what a changed protocol does next isn't always something that can be played
            continue
        played += bool(broken)
        if part in broken:
            others = [other for other in broken if other != part]
            told = f"after {number} cases, at event {events}, {'with: ' + ', '.join(others) if others else 'alone'}"
            return f"{part}: {change.means}: broken {told}{f', after a label broke rule {rule}' if rule else ''}", True
    return f"{part}: {change.means}: not broken ({played} cases broke other parts first)", False


def main(words):
    count, seed = words if len(words) == 2 else ("2000", "1") if not words else sys.exit(__doc__)
    names = [f"{seed} {number}" for number in range(int(count))]
    with multiprocessing.Pool() as pool:
        played = pool.map(judged, names, chunksize=8)
        breaks = pool.map(first_break, [(part, names) for part in PARTS], chunksize=1)
    wrong = [told for _, told in played if told]
    for told in wrong + [told for told, _ in breaks]:
        print(told)
    events, shown = sum(made for made, _ in played), sum(is_broken for _, is_broken in breaks)
    print(f"{len(PARTS)} parts held after each of {events} events of {len(names) - len(wrong)} of {len(names)} cases; "
          f"{shown} of {len(breaks)} changed rows broke their part")
    return bool(wrong) or shown < len(breaks)


if __name__ == "__main__":
    sys.exit(main(sys.argv[1:]))
