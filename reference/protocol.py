"""The protocol: what each actor does, one access after another, and the replay of a schedule.

An actor is a generator. Each `yield` is one access to one word and so one event; what it gives back is the number that
the access found. What follows a `yield` up to the next one belongs to that event: it names the event's label by
`say`, where it has one, and goes on. Before word and access a `yield` names the row of the protocol at which the actor
stands; serving's (`serving.py`) have none, its one row is `Serve`. The steps are the project's own, after EDK II's
PiSmmCpuDxeSmm in outline.
"""
from layout import layout_of, relocate
from registers import after, enter, registers_of
from serving import LOOK, Server
from words import LOCKED, NONE, apply

PROMPT, DELAYED, BLOCKED, OFF = 1, 2, 3, 4
SIGNALS = {"prompt": PROMPT, "delayed": DELAYED, "blocked": BLOCKED, "absent": BLOCKED}
SILENT = "-"


class World:
    """The words, the images and the actors of a platform, and the events that were made."""

    def __init__(self, platform, images):
        self.platform, self.events, self.label = platform, [], SILENT
        n = platform.processors
        bsp = NONE if platform.policy == "elected" else platform.fixed
        self.words = {"counter": 0, "bsp": bsp, "inside": 0, "insync": 0, "source": 0, "except": 0}
        for i in range(n):
            self.words.update({f"{word}{i}": 0 for word in ("pend", "present", "run", "busy")})
        registers = [registers_of(image) for image in images]
        if platform.smram:
            relocate(layout_of(platform.smram, n)[0], registers)
        self.resumed = [image.copy() for image in images]
        server = Server(self)
        self.processors = [Processor(self, server, i, images[i].copy(), registers[i]) for i in range(n)]
        self.actors = [processor.run() for processor in self.processors] + [chipset(self)]
        self.wanted = [next(actor) for actor in self.actors]

    def say(self, label):
        """Names the label of the event that was just made."""
        assert self.label == SILENT
        self.label = label

    def step(self, actor):
        """One step of an actor; nothing happens where it is off or its access isn't ready."""
        if self.wanted[actor] is None:
            return
        word, access = self.wanted[actor][-2:]
        found = self.words[word]
        changed = apply(found, access)
        if changed is None:
            return
        self.words[word], self.label = changed, SILENT
        self.wanted[actor] = self.go_on(actor, found)
        self.events.append((actor, word, access, found, self.label))

    def go_on(self, actor, found):
        """What an actor wants after an access that found this number; None where it is off."""
        try:
            return self.actors[actor].send(found)
        except StopIteration:
            return None

    def row(self, actor):
        """The row of the protocol at which an actor stands, and where the row is of one processor or one look its
        number, as `TakeDesk 3`."""
        wanted = self.wanted[actor]
        if wanted is None:
            return "Off"
        return wanted[0] if len(wanted) == 3 else "Serve"

    def is_complete(self):
        return not any(self.wanted)

    def finish(self):
        """Steps the actors one after another, again and again, until all are off."""
        while not self.is_complete():
            for actor in range(len(self.actors)):
                self.step(actor)

    def labels(self):
        """The actors and labels of the events without the silent ones."""
        return [(event[0], event[4]) for event in self.events if event[4] != SILENT]


def replay(platform, images, schedule):
    """The world after the actors of a schedule stepped one after another."""
    world = World(platform, images)
    for actor in schedule:
        world.step(actor)
    return world


def chipset(world):
    """Raises the interrupt of each wave, and turns the processors off after the last one."""
    platform = world.platform
    everyone = range(platform.processors)
    for number, wave in enumerate(platform.waves, 1):
        blocked = wave.status.count("blocked")
        yield "AnnounceBlocked", "except", ("put", blocked)
        world.say(f"excepted:{blocked}")
        yield "AnnounceWave", "source", ("put", number)
        world.say(f"wave:{number}")
        for j in everyone:
            yield f"RaiseWave {j}", f"pend{j}", ("raise", SIGNALS[wave.status[j]])
        for looks in range(sum(platform.polls)):
            if (yield f"WatchSource {looks}", "source", LOOK) == 0:
                break
        yield "AwaitServed", "inside", ("await", 0, 0)
    for j in everyone:
        yield f"RaiseOff {j}", f"pend{j}", ("raise", OFF)


class Processor:
    """One processor. Its desk holds its image and its job; `held` are the desks that it holds as the BSP, its own
    among them; `bsp` is the BSP that it found as an AP, or None before its first."""

    def __init__(self, world, server, number, image, registers):
        self.world, self.platform, self.server = world, world.platform, server
        self.number, self.image, self.registers = number, image, registers
        self.job = self.bsp = None
        self.held = set()
        self.elected = world.platform.policy == "elected"
        self.traditional = world.platform.mode == "traditional"

    def say(self, label):
        self.world.say(label)

    def run(self):
        """All visits, and then off."""
        pending = f"pend{self.number}"
        for visit in range(1, self.platform.visits + 1):
            if (yield "AwaitSmi", pending, ("take",)) == OFF:
                self.say("off")
                return
            self.say("enter")
            enter(self.registers, self.platform.cause(self.number, visit), self.image)
            yield from self.visit()
            yield "AwaitSessionEnd", "insync", ("await", 0, 0)
            yield "ClearSignal", pending, ("clear",)
            self.say(f"resume:{after(self.image)}")
            self.registers = registers_of(self.image)
            self.world.resumed[self.number] = self.image.copy()
        yield "SwitchOff", pending, ("put", OFF)
        self.say("off")

    def visit(self):
        """From the entry to the end of the processor's part."""
        source = yield "LookAtSource", "source", LOOK
        inside = yield "LookAtInside", "inside", LOOK
        if source == 0 and inside == 0:
            self.say("turn")
            return
        if (yield "CountIn", "counter", ("up",)) == LOCKED:
            self.say("late")
            return
        self.say("arrive")
        if inside == 0 and (yield from self.is_bsp()):
            self.say("elect")
            yield from self.serve_session()
        else:
            yield from self.follow()

    def is_bsp(self):
        """Does this processor become the BSP?"""
        if self.elected:
            return (yield "ClaimBsp", "bsp", ("claim", NONE, self.number)) == NONE
        return (yield "LookAtBsp", "bsp", LOOK) == self.number

    # ---- the BSP

    def others(self):
        return [j for j in range(self.platform.processors) if j != self.number]

    def serve_session(self):
        """The BSP's part, from its first step to the end of the session."""
        self.held = {self.number}
        yield "MarkInside", "inside", ("put", 1)
        wave = yield "TakeSource", "source", ("put", 0)
        self.say(f"served:{wave}")
        if self.traditional:
            yield from self.gather()
            yield from self.close()
            yield from self.serve(wave)
        else:
            yield from self.serve(wave)
            yield from self.close()
        yield "LeaveInside", "inside", ("put", 0)
        self.say("done")
        yield from self.release()

    def gather(self):
        """Waits for the others in two rounds; between them the absent ones get a signal."""
        announced = yield "LookAtExcept", "except", LOOK
        self.say(f"gather:{announced}")
        if (yield from self.wait_round(1, "GatherFirst", announced)):
            return
        for j in self.others():
            if (yield f"FindMissing {j}", f"present{j}", LOOK) == 0:
                yield f"SignalMissing {j}", f"pend{j}", ("signal",)
        yield from self.wait_round(2, "GatherSecond", announced)

    def wait_round(self, number, row, announced):
        """One round of looks at the counter. Did all come?"""
        most = self.platform.polls[number - 1]
        for looks in range(most):
            counted = yield f"{row} {looks}", "counter", LOOK
            if counted + announced >= self.platform.processors:
                self.say(f"ready:{counted}")
                return True
            if looks + 1 == most:
                self.say(f"expire:{number}")
        return False

    def close(self):
        """Locks the counter, waits for the reports of the counted ones, and takes the desks that it doesn't hold."""
        yield "MarkInsync", "insync", ("put", 1)
        counted = yield "LockCounter", "counter", ("lock",)
        self.say(f"close:{counted}")
        yield from self.lower("AwaitReports", max(0, counted - 1))
        for j in self.others():
            if j not in self.held and (yield f"TakeDesk {j}", f"present{j}", ("claim", 1, 2)) == 1:
                self.held.add(j)

    def lower(self, row, times):
        """Waits so many times on the BSP's own semaphore."""
        for left in range(times, 0, -1):
            yield f"{row} {left}", f"run{self.number}", ("down",)

    def serve(self, wave):
        """The handlers, and then the jobs that nobody collected."""
        yield from self.server.serve(self, wave)
        for j in self.others():
            if self.server.has_job(j):
                yield f"CollectJob {j}", f"busy{j}", ("await", 2, 0)
                self.server.collected(j)

    def release(self):
        """Lets the others go in two rounds, gives the chair up and ends the session."""
        released = [j for j in self.others() if j in self.held]
        for j in released:
            yield f"Release {j}", f"run{j}", ("up",)
            self.held.discard(j)
            self.say(f"release:{j}")
        yield from self.lower("AwaitReleased", len(released))
        for j in released:
            yield f"Dismiss {j}", f"run{j}", ("up",)
        yield from self.lower("AwaitDismissed", len(released))
        if self.elected:
            yield "GiveBsp", "bsp", ("put", NONE)
        yield "LeaveInsync", "insync", ("put", 0)
        yield "UnlockCounter", "counter", ("put", 0)
        self.say("end")

    # ---- an AP

    def follow(self):
        """The AP's part, from its arrival."""
        if not (yield from self.look_inside("AwaitInside", self.platform.polls[0])):
            bsp = yield "FindBsp", "bsp", LOOK
            if bsp < self.platform.processors:
                yield "SignalBsp", f"pend{bsp}", ("signal",)
            if not (yield from self.look_inside("AwaitInsideAgain", self.platform.polls[1])):
                if (yield "CountOut", "counter", ("lower",)) != LOCKED:
                    self.say("quit")
                    return
        self.bsp = yield "SeekBsp", "bsp", ("seek", self.platform.processors)
        yield "Report", f"present{self.number}", ("put", 1)
        self.say("report")
        yield from self.work(self.bsp)

    def look_inside(self, row, most):
        """So many looks for a BSP. Was there one?"""
        for looks in range(most):
            if (yield f"{row} {looks}", "inside", LOOK) != 0:
                return True
        return False

    def work(self, bsp):
        """Runs jobs until it is released, and leaves after the second round."""
        own = f"run{self.number}"
        yield "TellReported", f"run{bsp}", ("up",)
        yield "AwaitRelease", own, ("down",)
        while self.job:
            result, status = self.job.run(self.image)
            yield "GiveDeskBack", f"busy{self.number}", ("put", 2)
            self.say(f"run:{self.job.number}:{result}:{status}")
            yield "AwaitRelease", own, ("down",)
        yield "TellReleased", f"run{bsp}", ("up",)
        yield "AwaitDismissal", own, ("down",)
        yield "WithdrawReport", f"present{self.number}", ("put", 0)
        self.say("depart")
        yield "TellDismissed", f"run{bsp}", ("up",)
