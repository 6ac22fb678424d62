#!/usr/bin/env python3
"""How near to the bound of the events do schedules come? Searches schedules that keep one actor busy, on some small platforms.

    reference/greatest.py               200 schedules for each actor
    reference/greatest.py COUNT SEED    COUNT schedules for each actor, of another seed

A schedule is made against its actor: at some rows of the protocol the actor is held until no other can move, at all
others it goes first; the others go in a drawn order, which now and then is drawn anew. Each is played until all actors
are off. The table (in docs/BOUND.md) has for each platform the most events that a processor and the chipset made in any of them, and
that all made together, beside the bounds. The exit status is 0 only where no bound was passed.
"""
import pathlib
import random
import sys
from dataclasses import dataclass

HERE = pathlib.Path(__file__).resolve().parent
sys.path += [str(HERE), str(HERE.parent / "cases")]

import random_cases  # noqa: E402
from images import read_images  # noqa: E402
from platform_file import read_platform  # noqa: E402
from protocol import World  # noqa: E402

# How often the order of the others is drawn anew, and how many of the rows the actor is held at.
CHANGES, HELD = [0, 0, 0.02, 0.2], [0, 0.1, 0.5, 0.9]


# ---- platforms

def jobs(n):
    """A handler that gives the other processors one job after another, and collects each before the next."""
    ops = []
    for j in range(1, n):
        ops += [{"op": "launch", "cpu": j, "procedure": "p", "arg": 1, "into": "v0"}, {"op": "start", "cpu": j, "procedure": "p", "arg": 2, "into": "v1"}]
    return ops * (64 // len(ops))


def walks(n):
    """A handler that walks its own list, as deep as it goes."""
    return [{"op": "manage", "type": "root"}] * 4


def platform_of(n, mode="traditional", policy="elected", polls=(2, 2), visits=1, ops=1, waves=None, handler=None):
    """A platform of one handler, whose waves reach each processor at once, if they aren't given."""
    tree = {"version": 1, "processors": n, "map": "intel64", "policy": policy, "mode": mode, "polls": list(polls), "visits": visits, "ops": ops}
    if policy == "fixed":
        tree["fixed"] = 0
    tree["wave"] = [{"status": status, "manage": ["root"] * 4} for status in waves or [["prompt"] * n] * visits]
    tree["handler"] = [{"name": "h", "type": "root", "answer": "SUCCESS", "ops": (handler or walks)(n)}]
    tree["procedure"] = [{"name": "p", "act": "get", "reg": "RAX"}]
    return tree


PLATFORMS = [
    ("one unit", platform_of(1)),
    ("one unit", platform_of(2)),
    ("one unit, some delayed", platform_of(3, visits=2, waves=[["prompt", "delayed", "delayed"], ["delayed", "prompt", "prompt"]])),
    ("one unit, the BSP fixed", platform_of(3, policy="fixed", visits=2)),
    ("long rounds", platform_of(2, polls=(16, 16), visits=2)),
    ("long rounds, relaxed", platform_of(3, mode="relaxed", polls=(16, 16), visits=2)),
    ("deep walks", platform_of(2, ops=16)),
    ("jobs", platform_of(2, ops=16, handler=jobs)),
    ("jobs, relaxed", platform_of(3, mode="relaxed", ops=16, handler=jobs)),
    ("jobs", platform_of(3, visits=2, ops=16, handler=jobs)),
    ("jobs", platform_of(4, ops=32, handler=jobs)),
    ("jobs, many units", platform_of(2, ops=128, handler=jobs)),
    ("one unit", platform_of(8)),
    ("one unit, relaxed", platform_of(8, mode="relaxed")),
]


# ---- schedules

class Held:
    """A schedule against an actor: the rows at which it is held, and the order in which the others go."""

    def __init__(self, draw, world, actor):
        self.draw, self.world, self.actor = draw, world, actor
        self.share, self.change = draw.choice(HELD), draw.choice(CHANGES)
        self.rows = {}
        self.others = [j for j in range(len(world.actors)) if j != actor]
        draw.shuffle(self.others)

    def is_held(self):
        """Is the actor held at the row at which it stands? It is drawn once for each row."""
        row = self.world.row(self.actor)
        return self.rows.setdefault(row, self.draw.random() < self.share)

    def order(self):
        """The actors in the order in which they are asked."""
        if self.draw.random() < self.change:
            self.draw.shuffle(self.others)
        return self.others + [self.actor] if self.is_held() else [self.actor] + self.others

    def step(self):
        """The next event, of the first actor that can make one."""
        before = len(self.world.events)
        for actor in self.order():
            self.world.step(actor)
            if len(self.world.events) > before:
                return


def counts(platform, images, actor, draw):
    """How many events each actor makes in one schedule against an actor."""
    world = World(platform, images)
    schedule = Held(draw, world, actor)
    while not world.is_complete():
        schedule.step()
    made = [0] * len(world.actors)
    for event in world.events:
        made[event[0]] += 1
    return made


# ---- the table

@dataclass
class Reached:
    """The most events that a processor, the chipset and all together made, and the bounds of one and of all."""
    processor: int
    chipset: int
    together: int
    one: int
    total: int

    def is_bounded(self):
        return max(self.processor, self.chipset) <= self.one and self.together <= self.total


def reached(tree, count, seed):
    """The greatest numbers of a platform's schedules."""
    n = tree["processors"]
    platform = read_platform(random_cases.toml_of(tree, random.Random("toml")).encode())
    data = random_cases.image_file(random.Random("images"), tree["map"], n, False)
    played = [counts(platform, read_images(data), actor, random.Random(f"{seed} {actor} {number}"))
              for actor in range(n + 1) for number in range(count)]
    return Reached(max(max(made[:n]) for made in played), max(made[n] for made in played), max(map(sum, played)),
                   platform.events() // (n + 1), platform.events())


def line_of(words, tree, most):
    """A platform's line of the table."""
    t1, t2 = tree["polls"]
    share = f"{100 * max(most.processor, most.chipset) // most.one} %"
    cells = [words, tree["processors"], t1, t2, tree["visits"], tree["ops"], most.processor, most.chipset, most.one, share, most.together, most.total]
    return "| " + " | ".join(map(str, cells)) + " |"


def main(words):
    count, seed = (words + ["200", "1"][len(words):]) if len(words) in (0, 2) else sys.exit(__doc__)
    print("| platform | processors | t1 | t2 | visits | units | a processor | the chipset | bound of each | reached | all | bound of all |")
    print("|" + "---|" * 12)
    passed = False
    for name, tree in PLATFORMS:
        most = reached(tree, int(count), seed)
        passed = passed or not most.is_bounded()
        print(line_of(name, tree, most), flush=True)
    return passed


if __name__ == "__main__":
    sys.exit(main(sys.argv[1:]))
