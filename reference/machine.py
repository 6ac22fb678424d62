"""The abstract machine of the rendezvous: which labels may come, whatever the words and counters do.

It has phases, sets and one job for each processor, and no shared word. A list of (actor, label) is a run where each
label's rule holds in the state that the labels before it leave. The protocol's labels are a run for every schedule;
this module judges lists of labels alone, so it checks the simulator and reads as the definition of what is promised.
"""
from layout import layout_of, pool_area, relocate
from pool import Pool
from registers import after, enter, read_register, registers_of, write_register
from serving import DEEPEST, INVALID, MOST_TOKENS, NOT_FOUND, NOT_READY, SUCCESS
from serving import Registry, alloc, answer_of_walk, free, low_bytes, number_of, run_procedure

# The rule of each label, by its first word.
RULES = {word: number for number, words in enumerate("""excepted
    wave
    enter
    turn
    arrive
    late
    elect
    served
    gather
    ready
    expire
    quit
    report
    close
    begin
    manage deep
    call
    return
    answer
    set read write check wait alloc free register unregister
    refuse
    start
    run
    collect
    spent
    done
    release
    depart
    end
    resume
    off""".split("\n"), 1) for word in words.split()}


class Broken(Exception):
    """The number of the rule that a label breaks."""


class Session:
    """From an election to its end."""

    def __init__(self, bsp):
        self.bsp, self.served, self.gathered = bsp, None, None
        self.ready, self.expired, self.closed = False, 0, None
        self.serving, self.is_whole, self.done = None, False, False
        self.released, self.departed = set(), set()


class Job:
    """A job of a processor: open, then finished with a result and a status, then collected."""

    def __init__(self, number, processor, procedure, argument):
        self.number, self.processor, self.procedure, self.argument = number, processor, procedure, argument
        self.state, self.result, self.status = "open", None, None


class Machine:
    """The machine's state. `accept` takes one label or raises `Broken` with its rule."""

    def __init__(self, platform, images):
        n = platform.processors
        self.platform = platform
        self.phase, self.visits, self.jobs = ["Out"] * n, [0] * n, [None] * n
        self.registers = [registers_of(image) for image in images]
        if platform.smram:
            relocate(layout_of(platform.smram, n)[0], self.registers)
        self.images = [image.copy() for image in images]
        self.resumed = [image.copy() for image in images]
        self.announced = self.excepted = self.blocked = self.source = 0
        self.registry, self.pool = Registry(), Pool(*pool_area(platform.smram, n))
        for place, handler in enumerate(platform.handlers):
            if handler.kind is not None:
                self.registry.register(handler.kind, place)
        self.session = None

    def accept(self, actor, label):
        word, *parts = label.split(":")
        rule = RULES[word]
        if actor == self.platform.processors and word not in ("excepted", "wave"):
            raise Broken(rule)
        if 15 < rule < 23 or rule == 25:
            holds = self.serve(actor, label)
        else:
            holds = getattr(self, f"rule_{word}")(actor, *parts)
        if not holds:
            raise Broken(rule)

    # ---- what the rules ask

    def members(self):
        return {i for i, phase in enumerate(self.phase) if phase in ("Counted", "Here")}

    def is_closed(self):
        return self.session is not None and self.session.closed is not None

    def is_bsp(self, actor):
        return self.session is not None and self.session.bsp == actor

    def others_are_here(self):
        return all(self.phase[i] == "Here" for i in self.members() - {self.session.bsp})

    def has_jobs(self):
        return any(self.jobs)

    def move(self, holds, actor, phase):
        """Puts a processor into a phase where the rule holds."""
        if holds:
            self.phase[actor] = phase
        return holds

    # ---- the chipset

    def is_next_wave(self, actor):
        return actor == self.platform.processors and self.announced < len(self.platform.waves)

    def rule_excepted(self, actor, number):
        if not self.is_next_wave(actor) or self.excepted != self.announced:
            return False
        self.excepted, self.blocked = self.excepted + 1, int(number)
        return self.blocked == self.platform.waves[self.announced].status.count("blocked")

    def rule_wave(self, actor, number):
        if not self.is_next_wave(actor) or self.excepted == self.announced:
            return False
        self.announced = self.source = self.announced + 1
        return int(number) == self.announced

    # ---- every processor

    def rule_enter(self, actor):
        if self.phase[actor] != "Out" or self.visits[actor] == self.platform.visits or not self.announced:
            return False
        self.phase[actor] = "In"
        self.visits[actor] += 1
        enter(self.registers[actor], self.platform.cause(actor, self.visits[actor]), self.images[actor])
        return True

    def rule_turn(self, actor):
        session = self.session
        is_serving = session is not None and session.served is not None and not session.done
        return self.move(self.phase[actor] == "In" and not is_serving, actor, "Gone")

    def rule_arrive(self, actor):
        return self.move(self.phase[actor] == "In" and not self.is_closed(), actor, "Counted")

    def rule_late(self, actor):
        return self.move(self.phase[actor] == "In" and self.is_closed(), actor, "Gone")

    def rule_quit(self, actor):
        holds = self.phase[actor] == "Counted" and not self.is_bsp(actor) and not self.is_closed()
        return self.move(holds, actor, "Gone")

    def rule_report(self, actor):
        holds = self.phase[actor] == "Counted" and self.session is not None and not self.is_bsp(actor)
        return self.move(holds, actor, "Here")

    def rule_run(self, actor, number, result, status):
        job = self.jobs[actor]
        if self.phase[actor] != "Here" or job is None or job.state != "open" or job.number != int(number):
            return False
        job.state = "finished"
        job.result, job.status = run_procedure(job.procedure, job.argument, self.images[actor])
        return (str(job.result), job.status) == (result, status)

    def rule_depart(self, actor):
        session = self.session
        if self.phase[actor] != "Here" or session is None or session.closed is None:
            return False
        session.departed.add(actor)
        self.phase[actor] = "Gone"
        return session.closed - {session.bsp} <= session.released and actor in session.released

    def rule_resume(self, actor, way):
        if self.phase[actor] != "Gone":
            return False
        self.phase[actor] = "Out"
        self.registers[actor] = registers_of(self.images[actor])
        self.resumed[actor] = self.images[actor].copy()
        return way == after(self.images[actor])

    def rule_off(self, actor):
        is_over = self.announced == len(self.platform.waves) or self.visits[actor] == self.platform.visits
        return self.move(self.phase[actor] == "Out" and is_over, actor, "Off")

    # ---- the session

    def rule_elect(self, actor):
        if self.phase[actor] != "Counted" or self.session is not None:
            return False
        self.session = Session(actor)
        return self.platform.policy == "elected" or actor == self.platform.fixed

    def rule_served(self, actor, wave):
        if not self.is_bsp(actor) or self.session.served is not None or int(wave) != self.source:
            return False
        self.session.served, self.source = self.source, 0
        return True

    def rule_gather(self, actor, number):
        session = self.session
        if not self.is_bsp(actor) or session.served is None or session.gathered is not None:
            return False
        session.gathered = int(number)
        return self.platform.mode == "traditional" and session.gathered == self.blocked

    def waits(self, actor):
        """The BSP gathers and not all are there yet."""
        return self.is_bsp(actor) and self.session.gathered is not None and not self.session.ready

    def rule_ready(self, actor, number):
        if not self.waits(actor) or self.session.expired > 1:
            return False
        self.session.ready = True
        count = len(self.members())
        return int(number) == count and count + self.session.gathered >= self.platform.processors

    def rule_expire(self, actor, number):
        if not self.waits(actor) or self.session.expired != int(number) - 1:
            return False
        self.session.expired += 1
        return len(self.members()) + self.session.gathered < self.platform.processors

    def rule_close(self, actor, number):
        session = self.session
        if not self.is_bsp(actor) or session.closed is not None:
            return False
        session.closed = self.members()
        if self.platform.mode == "traditional":
            holds = session.ready or session.expired == 2
        else:
            holds = session.is_whole and not self.has_jobs()
        return holds and int(number) == len(session.closed)

    def rule_done(self, actor):
        session = self.session
        if not self.is_bsp(actor) or session.done or not session.is_whole or not self.is_closed():
            return False
        session.done = True
        return not self.has_jobs() and self.others_are_here()

    def rule_release(self, actor, cpu):
        cpu, session = int(cpu), self.session
        if not self.is_bsp(actor) or not session.done or cpu in session.released or cpu == actor:
            return False
        session.released.add(cpu)
        return cpu in session.closed

    def rule_end(self, actor):
        session = self.session
        if not self.is_bsp(actor) or not session.done or not session.closed - {actor} <= session.departed:
            return False
        self.session = None
        self.phase[actor] = "Gone"
        return True

    # ---- serving

    def rule_begin(self, actor, wave):
        session = self.session
        if not self.is_bsp(actor) or session.served is None or session.serving or int(wave) != session.served:
            return False
        if self.platform.mode == "traditional":
            holds = self.is_closed() and self.others_are_here()
        else:
            holds = not self.is_closed()
        session.serving = ServingList(self)
        session.is_whole = session.serving.is_whole
        return holds

    def serve(self, actor, label):
        """The BSP serves, and the label may come next."""
        session = self.session
        if not self.is_bsp(actor) or session.serving is None or session.is_whole:
            return False
        holds = session.serving.accept(label)
        session.is_whole = session.serving.is_whole
        return holds

    def rule_collect(self, actor, cpu):
        cpu = int(cpu)
        job = self.jobs[cpu] if cpu < len(self.jobs) else None
        if not self.is_bsp(actor) or job is None or job.state != "finished":
            return False
        if not self.session.is_whole:
            return self.serve(actor, f"collect:{cpu}")
        is_least = not any(self.jobs[:cpu])
        return self.take_job(cpu) and is_least

    def take_job(self, cpu):
        self.jobs[cpu].state = "collected"
        self.jobs[cpu] = None
        return True


class Spent(Exception):
    """No unit is left."""


class ServingList:
    """Which label of serving may come next. The rules are those of a whole list: a generator that takes one label after
    another and answers whether it may stand there; it ends with the list."""

    def __init__(self, machine):
        self.machine, self.platform = machine, machine.platform
        self.registry, self.pool = machine.registry, machine.pool
        self.variables, self.tokens, self.given, self.units = [0] * 8, {}, 0, 0
        self.is_whole, self.holds = False, True
        self.labels = self.whole(machine.session.served)
        self.go_on(None)

    def accept(self, label):
        self.go_on(label)
        return self.holds

    def go_on(self, label):
        try:
            self.labels.send(label)
        except StopIteration:
            self.is_whole = True

    def must(self, holds):
        self.holds = self.holds and holds

    def unit(self):
        if self.units == self.platform.ops:
            raise Spent
        self.units += 1

    def whole(self, wave):
        manage = self.platform.waves[wave - 1].manage if wave else []
        try:
            for kind in manage:
                self.unit()
                yield from self.walk(kind, 1)
        except Spent:
            self.must((yield) == "spent")

    def walk(self, kind, level):
        label = yield
        if level > DEEPEST:
            self.must(label == f"deep:{kind}")
            return
        self.must(label == f"manage:{kind}")
        begun, statuses = [entry for entry in self.registry.live if entry[1] == kind], []
        for entry in begun:
            if entry in self.registry.live:
                statuses.append((yield from self.call(entry[2], level)))
                if kind != "root" and statuses[-1] in ("INTERRUPT_PENDING", SUCCESS):
                    break
        self.must((yield) == f"answer:{answer_of_walk(kind, statuses)}")

    def call(self, place, level):
        handler = self.platform.handlers[place]
        self.unit()
        self.must((yield) == f"call:{place}")
        for op in handler.ops:
            self.unit()
            yield from self.operation(op, level)
        self.must((yield) == f"return:{place}:{handler.answer}")
        return handler.answer

    def operation(self, op, level):
        names = ("value", "arg", "token", "size", "place", "handle")
        keys = {key: self.operand(value) if key in names else value for key, value in op.keys.items()}
        if op.word == "manage":
            yield from self.walk(keys["type"], level + 1)
        elif op.word in ("start", "launch"):
            yield from self.job(op.word, keys)
        elif op.word in ("check", "wait"):
            yield from self.token(op.word, keys)
        elif op.word in ("read", "write"):
            yield from self.register_access(op.word, keys)
        else:
            self.must((yield) == self.single(op.word, keys))

    def operand(self, value):
        return self.variables[int(value[1])] if isinstance(value, str) else value

    def keep(self, keys, value, status):
        if status == SUCCESS and "into" in keys:
            self.variables[keys["into"]] = value

    def single(self, word, keys):
        """The label of an operation that has one label."""
        if word == "set":
            self.keep(keys, keys["value"], SUCCESS)
            return f"set:{keys['into']}:{keys['value']}"
        if word == "alloc":
            place, status = alloc(self.pool, keys["size"])
            self.keep(keys, place, status)
            return f"alloc:{keys['size']}:{place}:{status}"
        if word == "free":
            return f"free:{keys['place']}:{free(self.pool, keys['place'])}"
        if word == "register":
            serial = self.registry.register(keys["type"], keys["handler"])
            status = SUCCESS if serial else "OUT_OF_RESOURCES"
            self.keep(keys, serial, status)
            return f"register:{keys['handler']}:{serial or 0}:{status}"
        was_there = self.registry.unregister(keys["handle"])
        return f"unregister:{keys['handle']}:{SUCCESS if was_there else NOT_FOUND}"

    def after_collect(self, label, cpu):
        """One `collect` of a processor may stand before a label. Did it?"""
        if label != f"collect:{cpu}":
            return False
        return self.machine.take_job(cpu)

    def register_access(self, word, keys):
        cpu = keys["cpu"]
        label = yield
        if self.after_collect(label, cpu):
            label = yield
        value, status = self.service(word, cpu, keys)
        self.keep(keys, value, status)
        self.must(label == f"{word}:{cpu}:{keys['reg']}:{keys['width']}:{value}:{status}")

    def service(self, word, cpu, keys):
        """The value that the label shows and the status; None where a finished job forbids the label."""
        machine, shown = self.machine, keys.get("value", 0)
        if cpu >= self.platform.processors:
            return shown, INVALID
        job = machine.jobs[cpu]
        if job is not None:
            return shown, NOT_READY if job.state == "open" else None
        present = cpu == machine.session.bsp or machine.phase[cpu] == "Here"
        image, reg, width = machine.images[cpu], keys["reg"], keys["width"]
        if word == "write":
            return shown, write_register(image, present, reg, low_bytes(shown, width))
        status, data = read_register(image, present, self.platform.ids[cpu], reg, width)
        return number_of(data), status

    def cause(self, word, cpu, procedure):
        """Why a job is refused, or None; the first that holds."""
        machine = self.machine
        if cpu >= self.platform.processors:
            return "range"
        if cpu == machine.session.bsp:
            return "self"
        if procedure is None:
            return "unknown"
        if word == "launch" and len(self.tokens) == MOST_TOKENS:
            return "tokens"
        if word == "launch" and machine.jobs[cpu] and machine.jobs[cpu].state == "open":
            return "busy"
        return None if machine.phase[cpu] == "Here" else "absent"

    def job(self, word, keys):
        cpu, argument = keys["cpu"], keys["arg"]
        names = [procedure.name for procedure in self.platform.procedures]
        place = names.index(keys["procedure"]) if keys["procedure"] in names else None
        label = yield
        if self.after_collect(label, cpu):
            label = yield
        cause = self.cause(word, cpu, place)
        if cause:
            self.must(label == f"refuse:{cpu}:{cause}")
            return
        self.given += 1
        self.must(self.machine.jobs[cpu] is None and label == f"start:{cpu}:{self.given}:{place}:{argument}")
        job = Job(self.given, cpu, self.platform.procedures[place], argument)
        self.machine.jobs[cpu] = job
        if word == "launch":
            self.tokens[job.number] = job
            self.keep(keys, job.number, SUCCESS)
            return
        self.must(self.after_collect((yield), cpu))
        self.keep(keys, job.result, job.status)

    def token(self, word, keys):
        number = keys["token"]
        job = self.tokens.get(number)
        shown = "" if word == "check" else "0:"
        label = yield
        if job is None:
            self.must(label == f"{word}:{number}:{shown}{INVALID}")
            return
        if self.after_collect(label, job.processor):
            label = yield
        if word == "check" and job.state == "open":
            self.must(label == f"check:{number}:{NOT_READY}")
            return
        self.must(job.state == "collected")
        del self.tokens[number]
        if word == "check":
            self.must(label == f"check:{number}:{SUCCESS}")
        else:
            self.keep(keys, job.result, job.status)
            self.must(label == f"wait:{number}:{job.result}:{job.status}")


def first_broken(platform, images, labels):
    """The place of the first label that breaks its rule and the rule, or None where the labels are a run; and the
    machine behind it."""
    machine = Machine(platform, images)
    for place, (actor, label) in enumerate(labels):
        try:
            machine.accept(actor, label)
        except Broken as broken:
            return (place, broken.args[0]), machine
    return None, machine
