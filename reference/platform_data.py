"""A platform as plain data: what a platform file says."""
from dataclasses import dataclass, field


@dataclass
class Smram:
    """The area for save states: its base and size, the distance of two processors, the bytes of entry code."""
    base: int
    size: int
    tile: int
    code: int


@dataclass
class Wave:
    """One interrupt: how it reaches each processor, and the handler lists that are walked for it."""
    status: list
    manage: list


@dataclass
class Op:
    """An operation of a handler: its word and its keys."""
    word: str
    keys: dict


@dataclass
class Handler:
    """A handler; its kind is `root`, a GUID, or None where it isn't registered at the start."""
    name: str
    kind: str | None
    answer: str
    ops: list


@dataclass
class Procedure:
    """What an AP is asked to run: to get or to put one register of its image."""
    name: str
    act: str
    reg: str


@dataclass
class Io:
    """The I/O instruction at which a processor was interrupted."""
    port: int
    length: int
    type: int


@dataclass
class Cause:
    """Why a processor entered: from HLT, at an I/O instruction, or neither."""
    halt: bool = False
    io: Io | None = None


@dataclass
class Platform:
    """The whole file. The causes are by (processor, visit)."""
    processors: int
    map: str
    policy: str
    fixed: int | None
    mode: str
    polls: list
    visits: int
    ops: int
    ids: list
    smram: Smram | None = None
    waves: list = field(default_factory=list)
    handlers: list = field(default_factory=list)
    procedures: list = field(default_factory=list)
    causes: dict = field(default_factory=dict)

    def events(self):
        """More events than any schedule makes."""
        n = self.processors
        return self.visits * (40 + sum(self.polls) + 10 * n + 5 * self.ops) * (n + 1)

    def cause(self, processor, visit):
        return self.causes.get((processor, visit), Cause())
