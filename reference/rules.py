#!/usr/bin/env python3
"""Tries the rules of the abstract machine (`machine.py`) on what the protocol says, and on changes of it.

    reference/rules.py              the cases' replays and 2000 random ones
    reference/rules.py N SEED       N random ones, of another seed

Each replay is of the whole protocol, with 1 to 17 processors: its labels must be a run of the machine, and `check` must
say so of its report. Of each some changed lists are made, where a label is left out, stands twice, changes places with
the next one, or has another number. A changed list may still be a run; but of each of the 31 rules some changed list
must break it.

A line tells of each list that should be a run and isn't, and one of each rule. The last line has the counts; the exit
status is 0 only where all runs are runs and each rule was broken.
"""
import collections
import multiprocessing
import pathlib
import random
import sys

HERE = pathlib.Path(__file__).resolve().parent
sys.path += [str(HERE), str(HERE.parent / "cases")]

import random_cases  # noqa: E402
from images import ImagesFault, read_images  # noqa: E402
from layout import RelocationFault  # noqa: E402
from machine import RULES, Machine, first_broken  # noqa: E402
from platform_file import PlatformFault, read_platform  # noqa: E402
from protocol import replay  # noqa: E402
from reading import folder_cases  # noqa: E402
from reports import judge, report_of  # noqa: E402
from schedule import ScheduleFault, read_schedule  # noqa: E402

MOST_PROCESSORS, CHANGES = 17, 60
WAYS = ["without", "twice", "exchanged", "number", "number"]
ALL_RULES = sorted(set(RULES.values()))


# ---- replays

def of_case(case):
    """The platform, the images and the labels of a case's replay; None where a file or the words are refused."""
    if len(case.words) != 5 or case.words[0] != "step":
        return None
    files = [case.files.get(name) for name in case.words[1:4]]
    if None in files:
        return None
    try:
        platform = read_platform(files[0])
        images = read_images(files[1])
        schedule = read_schedule(files[2], platform.processors)
        if images[0].kind != platform.map or len(images) != platform.processors:
            return None
        world = replay(platform, images, schedule)
    except (PlatformFault, ImagesFault, ScheduleFault, RelocationFault):
        return None
    return platform, read_images(files[1]), world


def random_platform(draw, most=MOST_PROCESSORS):
    """A right platform of any kind as a tree of values."""
    n = draw.randint(1, most) if draw.random() < 0.4 else draw.randint(1, 4)
    visits = draw.choice([1, 2, 2, 3, 4])
    tree = {"version": 1, "processors": n, "map": draw.choice(["intel64", "ia32"]), "policy": "elected", "mode": "traditional",
            "polls": [draw.choice([1, 2, 3, 8]), draw.choice([1, 2, 3, 8])], "visits": visits,
            "ops": draw.choice([1, 2, 3, 5, 8, 16, 64, 64, 64, 64])}
    random_cases.spread(draw, tree)
    if draw.random() < 0.3:
        tree["smram"] = random_cases.area(draw, n)
    tree["wave"] = [random_cases.wave(draw, n, False) for _ in range(draw.randint(1, min(visits, 3)))]
    tree["handler"] = random_cases.handlers(draw, n, False)
    tree["procedure"] = random_cases.procedures(draw)
    tree["cause"] = random_cases.causes(draw, n, visits)
    return {key: value for key, value in tree.items() if value != []}


def random_schedule(draw, n):
    """Turns of one actor or of all; most schedules reach the end."""
    actors = [n] * (n + 2) if draw.random() < 0.8 else []
    for _ in range(draw.choice([10, 50, 150])):
        item = draw.choice([[draw.randint(0, n)], [draw.randint(0, n)], list(range(n + 1))])
        actors += item * draw.choice([1, 1, 2, 4, 10, 30])
    return actors + list(range(n + 1)) * draw.choice([0, 100, 1000, 1000])


def random_replay(draw):
    tree = random_platform(draw)
    n, data = tree["processors"], random_cases.image_file(draw, tree["map"], tree["processors"], "smram" in tree)
    try:
        platform = read_platform(random_cases.toml_of(tree, draw).encode())
        world = replay(platform, read_images(data), random_schedule(draw, n))
    except (PlatformFault, RelocationFault):
        return None
    return platform, read_images(data), world


# ---- changes

def with_number(draw, label):
    """A label with another number in place of one of its own, or None where it has none."""
    word, *parts = label.split(":")
    places = [place for place, part in enumerate(parts) if part.isdecimal()]
    if not places:
        return None
    place = draw.choice(places)
    others = {int(parts[place]) + 1, max(0, int(parts[place]) - 1), draw.randrange(4)} - {int(parts[place])}
    parts[place] = str(draw.choice(sorted(others)))
    return ":".join([word, *parts])


def changed(draw, labels):
    """A list with one change."""
    way, at = draw.choice(WAYS), draw.randrange(len(labels))
    if way == "without":
        return labels[:at] + labels[at + 1:]
    if way == "twice":
        return labels[:at + 1] + labels[at:]
    if way == "exchanged":
        return labels[:at] + labels[at:at + 2][::-1] + labels[at + 2:]
    label = with_number(draw, labels[at][1])
    return labels[:at] + [(labels[at][0], label)] + labels[at + 1:] if label else labels[:at] + labels[at + 1:]


# ---- judging

def judged(name, played, draw):
    """What is wrong with a replay, or None; how many changed lists were tried; the rules that they break."""
    platform, images, world = played
    labels, broken_rules = world.labels(), collections.Counter()
    broken, after = first_broken(platform, images, labels)
    if broken:
        return f"{name}: label {broken[0] + 1}, {labels[broken[0]]}, breaks rule {broken[1]}", 0, broken_rules
    if any(one.data != other.data for one, other in zip(after.resumed, world.resumed)):
        return f"{name}: an image after isn't the machine's last resumed one", 0, broken_rules
    if wrong := judge(Machine(platform, images), report_of(world).encode(), platform.processors):
        return f"{name}: check says {wrong}", 0, broken_rules
    tried = CHANGES if labels else 0
    for _ in range(tried):
        broken, _ = first_broken(platform, images, changed(draw, labels))
        broken_rules.update([broken[1]] if broken else [])
    return None, tried, broken_rules


def judged_case(case):
    played = of_case(case)
    return judged(case.name, played, random.Random(case.name)) if played else None


def judged_random(name):
    draw = random.Random(name)
    played = random_replay(draw)
    return judged(f"random {name}", played, draw) if played else None


def main(words):
    count, seed = (words + ["2000", "1"][len(words):]) if len(words) in (0, 2) else sys.exit(__doc__)
    runs = wrong = tried = 0
    rules = collections.Counter()
    with multiprocessing.Pool() as pool:
        names = [f"{seed} {number}" for number in range(int(count))]
        found = pool.map(judged_case, folder_cases(), chunksize=4) + pool.map(judged_random, names, chunksize=8)
    for difference, changes, broken in filter(None, found):
        runs, wrong, tried, rules = runs + 1, wrong + bool(difference), tried + changes, rules + broken
        if difference:
            print(difference)
    for rule in ALL_RULES:
        print(f"rule {rule}: broken by {rules[rule]} changed lists")
    there = sum(rules[rule] > 0 for rule in ALL_RULES)
    print(f"{runs - wrong} of {runs} lists are runs; {sum(rules.values())} of {tried} changed lists are not, by {there} of {len(ALL_RULES)} rules")
    return wrong > 0 or there < len(ALL_RULES)


if __name__ == "__main__":
    sys.exit(main(sys.argv[1:]))
