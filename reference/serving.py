"""Serving: what the BSP does while the handlers run.

The walks over handler lists and their answers are after EDK II's SmiManage and the UEFI PI specification, volume 4; the
operations, their limits and their labels are the project's own.
"""
from layout import pool_area
from pool import Pool, Refused
from registers import own_width, read_register, write_register

LOOK = ("look",)
INSIDE = "inside", LOOK
SUCCESS, INVALID, NOT_READY, NOT_FOUND = "SUCCESS", "INVALID_PARAMETER", "NOT_READY", "NOT_FOUND"
MOST_TOKENS = MOST_REGISTERED = 64
DEEPEST = 4
LAST_SERIAL = 2**32 - 1


class Spent(Exception):
    """All units of serving were begun, and another would begin."""


class Job:
    """A procedure that a processor was given, and what it came to."""

    def __init__(self, number, processor, procedure, argument):
        self.number, self.processor = number, processor
        self.procedure, self.argument = procedure, argument
        self.result, self.status = None, None

    def run(self, image):
        """Runs the procedure on the processor's image: its result and status. A desk doesn't name its processor, so
        the id is 0."""
        self.result, self.status = run_procedure(self.procedure, self.argument, image)
        return self.result, self.status


def run_procedure(procedure, argument, image):
    width = own_width(image, procedure.reg)
    if procedure.act == "put":
        return 0, write_register(image, True, procedure.reg, low_bytes(argument, width))
    status, data = read_register(image, True, 0, procedure.reg, width)
    return number_of(data), status


def low_bytes(number, width):
    """The low bytes of a number; those above 8 are 0."""
    return (number % 256**width).to_bytes(width, "little")


def number_of(data):
    """The number of the first 8 bytes that were read; 0 of none."""
    return int.from_bytes(data[:8], "little")


def answer_of_walk(kind, statuses):
    """The answer of a walk whose handlers returned these statuses."""
    if not statuses:
        return NOT_FOUND
    last = statuses[-1]
    if kind != "root" and last in ("INTERRUPT_PENDING", SUCCESS):
        return last
    if "SOURCE_QUIESCED" in statuses or (kind == "root" and SUCCESS in statuses):
        return SUCCESS
    return last


def alloc(pool, size):
    """The place that the pool gives and the status; 0 on a refusal."""
    try:
        return pool.alloc(size), SUCCESS
    except Refused:
        return 0, INVALID if size == 0 else "OUT_OF_RESOURCES"


def free(pool, place):
    """The status of a place that is given back."""
    try:
        pool.free(place)
    except Refused:
        return INVALID
    return SUCCESS


class Registry:
    """The live registrations: (serial, kind, handler's place), by rising serial."""

    def __init__(self):
        self.live, self.last = [], 0

    def register(self, kind, handler):
        """The serial, or None where there is no room."""
        if len(self.live) == MOST_REGISTERED or self.last == LAST_SERIAL:
            return None
        self.last += 1
        self.live.append((self.last, kind, handler))
        return self.last

    def unregister(self, serial):
        """Was there such a registration? It is gone."""
        kept = [entry for entry in self.live if entry[0] != serial]
        was_there = len(kept) < len(self.live)
        self.live = kept
        return was_there

    def next(self, kind, after, last):
        """The first registration of a kind whose serial is above one and not above another."""
        for entry in self.live:
            if entry[1] == kind and after < entry[0] <= last:
                return entry
        return None


class Server:
    """What the chair holds: the registry and the pool, and in a session the variables, the jobs and the tokens."""

    def __init__(self, world):
        self.world, self.platform = world, world.platform
        self.registry = Registry()
        self.pool = Pool(*pool_area(self.platform.smram, self.platform.processors))
        for place, handler in enumerate(self.platform.handlers):
            if handler.kind is not None:
                self.registry.register(handler.kind, place)
        self.clear()

    def clear(self):
        self.variables = [0] * 8
        self.jobs = {}
        self.tokens = {}
        self.given = 0
        self.units = 0

    def say(self, label):
        self.world.say(label)

    def unit(self):
        """Begins a unit: an entry of a manage list, a call of a handler, or an operation."""
        if self.units == self.platform.ops:
            raise Spent
        self.units += 1

    def serve(self, bsp, wave):
        """The walks of a wave's manage list; none for a wave that isn't one of the platform's."""
        self.clear()
        self.bsp = bsp
        yield INSIDE
        self.say(f"begin:{wave}")
        manage = self.platform.waves[wave - 1].manage if 1 <= wave <= len(self.platform.waves) else []
        try:
            for kind in manage:
                self.unit()
                yield from self.walk(kind, 1)
        except Spent:
            yield INSIDE
            self.say("spent")

    def walk(self, kind, level):
        """Calls the handlers of a kind that were registered when the walk began and still are."""
        yield INSIDE
        if level > DEEPEST:
            self.say(f"deep:{kind}")
            return
        self.say(f"manage:{kind}")
        last, serial, statuses = self.registry.last, 0, []
        while entry := self.registry.next(kind, serial, last):
            serial = entry[0]
            statuses.append((yield from self.call(entry[2], level)))
            if kind != "root" and statuses[-1] in ("INTERRUPT_PENDING", SUCCESS):
                break
        yield INSIDE
        self.say(f"answer:{answer_of_walk(kind, statuses)}")

    def call(self, place, level):
        """A handler's operations and its answer."""
        handler = self.platform.handlers[place]
        self.unit()
        yield INSIDE
        self.say(f"call:{place}")
        for op in handler.ops:
            self.unit()
            yield from self.operate(op, level)
        yield INSIDE
        self.say(f"return:{place}:{handler.answer}")
        return handler.answer

    def operate(self, op, level):
        """One operation. Its operands are read when it begins."""
        operands = ("value", "arg", "token", "size", "place", "handle")
        keys = {key: self.operand(value) if key in operands else value for key, value in op.keys.items()}
        if op.word == "manage":
            yield from self.walk(keys["type"], level + 1)
        elif op.word == "register":
            yield from self.register(keys["handler"], keys["type"], keys["into"])
        else:
            yield from getattr(self, op.word)(**keys)

    def operand(self, value):
        """A number, or the variable of a name as `v0`."""
        return self.variables[int(value[1])] if isinstance(value, str) else value

    def keep(self, into, value, status):
        """Changes a variable on SUCCESS alone."""
        if status == SUCCESS:
            self.variables[into] = value

    # ---- operations without another processor

    def set(self, into, value):
        yield INSIDE
        self.variables[into] = value
        self.say(f"set:{into}:{value}")

    def alloc(self, size, into):
        yield INSIDE
        place, status = alloc(self.pool, size)
        self.keep(into, place, status)
        self.say(f"alloc:{size}:{place}:{status}")

    def free(self, place):
        yield INSIDE
        self.say(f"free:{place}:{free(self.pool, place)}")

    def register(self, handler, kind, into):
        yield INSIDE
        serial = self.registry.register(kind, handler)
        status = "OUT_OF_RESOURCES" if serial is None else SUCCESS
        self.keep(into, serial, status)
        self.say(f"register:{handler}:{serial or 0}:{status}")

    def unregister(self, handle):
        yield INSIDE
        self.say(f"unregister:{handle}:{SUCCESS if self.registry.unregister(handle) else NOT_FOUND}")

    # ---- registers of a processor

    def image(self, cpu):
        return self.world.processors[cpu].image

    def desk(self, cpu, absent):
        """Sees to it that a processor's desk is held. Where it can't be, the operation's one event was made and this
        is its status; else None, and the operation's own event is still to come."""
        if cpu >= self.platform.processors:
            yield INSIDE
            return INVALID
        if cpu in self.bsp.held:
            return None
        if self.has_job(cpu):
            return None if (yield from self.try_collect(cpu)) else NOT_READY
        if (yield f"present{cpu}", ("claim", 1, 2)) != 1:
            return absent(self.image(cpu))
        self.bsp.held.add(cpu)
        return None

    def read(self, cpu, reg, width, into):
        value = 0
        status = yield from self.desk(cpu, lambda image: read_register(image, False, 0, reg, width)[0])
        if status is None:
            yield INSIDE
            status, data = read_register(self.image(cpu), True, self.platform.ids[cpu], reg, width)
            value = number_of(data)
        self.keep(into, value, status)
        self.say(f"read:{cpu}:{reg}:{width}:{value}:{status}")

    def write(self, cpu, reg, width, value):
        data = low_bytes(value, width)
        status = yield from self.desk(cpu, lambda image: write_register(image, False, reg, data))
        if status is None:
            yield INSIDE
            status = write_register(self.image(cpu), True, reg, data)
        self.say(f"write:{cpu}:{reg}:{width}:{value}:{status}")

    # ---- jobs

    def has_job(self, cpu):
        """Has the processor a job that wasn't collected?"""
        return cpu in self.jobs

    def collect(self, cpu):
        """Waits for a job and takes the processor's desk back."""
        yield f"busy{cpu}", ("await", 2, 0)
        return self.collected(cpu)

    def try_collect(self, cpu):
        """Takes the desk back where the job is done. Was it? Else the event is the operation's own."""
        if (yield f"busy{cpu}", ("claim", 2, 0)) != 2:
            return False
        self.collected(cpu)
        return True

    def collected(self, cpu):
        self.say(f"collect:{cpu}")
        job = self.jobs.pop(cpu)
        self.world.processors[cpu].job = None
        self.bsp.held.add(cpu)
        return job

    def give(self, cpu, place, argument, with_token):
        """Gives a processor whose desk is held a job."""
        yield f"busy{cpu}", ("put", 1)
        yield f"run{cpu}", ("up",)
        self.given += 1
        job = Job(self.given, cpu, self.platform.procedures[place], argument)
        self.bsp.held.discard(cpu)
        self.jobs[cpu] = self.world.processors[cpu].job = job
        if with_token:
            self.tokens[job.number] = job
        self.say(f"start:{cpu}:{job.number}:{place}:{argument}")
        return job

    def refusal(self, cpu, procedure, needs_token):
        """The place of a procedure, or the first cause for which no processor is asked at all."""
        names = [known.name for known in self.platform.procedures]
        if cpu >= self.platform.processors:
            return None, "range"
        if cpu == self.bsp.number:
            return None, "self"
        if procedure not in names:
            return None, "unknown"
        if needs_token and len(self.tokens) == MOST_TOKENS:
            return None, "tokens"
        return names.index(procedure), None

    def begin_job(self, cpu, procedure, argument, is_launch):
        """Gives a processor a job, or says why not. The job, or None."""
        place, cause = self.refusal(cpu, procedure, is_launch)
        if cause:
            yield INSIDE
        elif self.has_job(cpu):
            if not is_launch:
                yield from self.collect(cpu)
            elif not (yield from self.try_collect(cpu)):
                cause = "busy"
        elif cpu not in self.bsp.held:
            if (yield f"present{cpu}", ("claim", 1, 2)) == 1:
                self.bsp.held.add(cpu)
            else:
                cause = "absent"
        if cause:
            self.say(f"refuse:{cpu}:{cause}")
            return None
        return (yield from self.give(cpu, place, argument, is_launch))

    def start(self, cpu, procedure, arg, into):
        if (yield from self.begin_job(cpu, procedure, arg, False)):
            job = yield from self.collect(cpu)
            self.keep(into, job.result, job.status)

    def launch(self, cpu, procedure, arg, into):
        job = yield from self.begin_job(cpu, procedure, arg, True)
        if job:
            self.variables[into] = job.number

    def check(self, token):
        job = self.tokens.get(token)
        if job is None:
            yield INSIDE
            self.say(f"check:{token}:{INVALID}")
            return
        if self.is_open(job) and not (yield from self.try_collect(job.processor)):
            self.say(f"check:{token}:{NOT_READY}")
            return
        yield INSIDE
        del self.tokens[token]
        self.say(f"check:{token}:{SUCCESS}")

    def wait(self, token, into):
        job = self.tokens.get(token)
        if job is None:
            yield INSIDE
            self.say(f"wait:{token}:0:{INVALID}")
            return
        if self.is_open(job):
            yield from self.collect(job.processor)
        yield INSIDE
        del self.tokens[token]
        self.keep(into, job.result, job.status)
        self.say(f"wait:{token}:{job.result}:{job.status}")

    def is_open(self, job):
        """Wasn't the job collected yet?"""
        return self.jobs.get(job.processor) is job
