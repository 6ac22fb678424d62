"""Plays a case: by the program's builds and by the plain simulator of `reference/`, each in a folder of its own."""
import os
import pathlib
import subprocess
import sys
import tempfile
from dataclasses import dataclass, field

TOP = pathlib.Path(__file__).resolve().parent.parent
sys.path.insert(0, str(TOP / "reference"))

import machine  # noqa: E402
import smmplay  # noqa: E402

SECONDS = 60


@dataclass
class Outcome:
    """What a command came to: its status, what it wrote, and the file AFTER, or None where there is none."""
    status: int
    text: bytes
    after: bytes | None


@dataclass
class Expected:
    """What is known of the outcome; None where nothing is said. `lines` has texts by their number from 1, and the
    last line as number -1; `last` is how the last line begins."""
    status: int | None = None
    text: bytes | None = None
    lines: dict = field(default_factory=dict)
    last: str | None = None
    judges_after: bool = False
    after: bytes | None = None


@dataclass
class Case:
    """Files by their names, the words of the command, and what is expected. `like` has the files that must give the
    same outcome. With `is_full` the standard output takes nothing. `broken` has a change of the report and the rule
    that it breaks: such a case is the abstract machine's alone. `also` finds what else is wrong with an outcome."""
    name: str
    files: dict
    words: list = field(default_factory=lambda: ["step", "P", "I", "S", "A"])
    expected: Expected = field(default_factory=Expected)
    like: dict | None = None
    is_full: bool = False
    broken: tuple | None = None
    also: object = None


def differences(expected, outcome):
    """What differs from what is expected."""
    found = []
    if expected.status is not None and outcome.status != expected.status:
        found.append(f"status {outcome.status}, not {expected.status}")
    if expected.text is not None and outcome.text != expected.text:
        found.append(first_difference(expected.text, outcome.text))
    lines = outcome.text.decode(errors="replace").split("\n")[:-1]
    for number, text in expected.lines.items():
        line = lines[number - 1 if number > 0 else number] if abs(number) <= len(lines) else "no line"
        if line != text:
            found.append(f"line {number} is '{line}', not '{text}'")
    if expected.last is not None and not (lines and lines[-1].startswith(expected.last)):
        found.append(f"the last line is '{lines[-1] if lines else ''}'")
    if expected.judges_after and outcome.after != expected.after:
        found.append(difference_of_bytes(expected.after, outcome.after))
    return found


def first_difference(wanted, text):
    """The first line that differs."""
    pairs = zip(wanted.split(b"\n") + [b"no line"], text.split(b"\n") + [b"no line"])
    for number, (one, other) in enumerate(pairs, 1):
        if one != other:
            return f"line {number} is '{other.decode(errors='replace')}', not '{one.decode(errors='replace')}'"
    return f"{len(text)} bytes, not {len(wanted)}"


def difference_of_bytes(wanted, data):
    """The first byte of AFTER that differs."""
    if wanted is None or data is None or len(wanted) != len(data):
        return f"AFTER has {size_of(data)}, not {size_of(wanted)}"
    at = next(i for i in range(len(data)) if data[i] != wanted[i])
    return f"AFTER's byte {at} is {data[at]:02X}, not {wanted[at]:02X}"


def size_of(data):
    return "no file" if data is None else f"{len(data)} bytes"


class Folder:
    """A folder with a case's files, in which a command is run once."""

    def __init__(self, files):
        self.files = files

    def __enter__(self):
        self.held = tempfile.TemporaryDirectory(prefix="smmplay-case-")
        self.path = pathlib.Path(self.held.name)
        for name, data in self.files.items():
            (self.path / name).write_bytes(data)
        return self

    def __exit__(self, *exception):
        os.chdir("/")
        self.held.cleanup()

    def after(self, words):
        """The file AFTER, where the words name one that wasn't there."""
        name = words[4] if len(words) == 5 else "A"
        file = self.path / name
        return file.read_bytes() if file.is_file() else None


def by_program(path, case, files):
    """The outcome of a build of the program."""
    with Folder(files) as folder, open("/dev/full", "wb") as full:
        report = full if case.is_full else subprocess.PIPE
        done = subprocess.run([path, *case.words], cwd=folder.path, stdout=report, stderr=subprocess.PIPE, timeout=SECONDS)
        return Outcome(done.returncode, done.stdout or b"", folder.after(case.words))


def by_reference(case, files):
    """The outcome of the plain simulator."""
    def write(text):
        if case.is_full:
            raise OSError
        written.append(text)
    written = []
    with Folder(files) as folder:
        os.chdir(folder.path)
        status = smmplay.command(case.words, write)
        return Outcome(status, "".join(written).encode(), folder.after(case.words))


def broken_rule(files, words):
    """What the abstract machine finds wrong in a replay of the simulator; nothing where the command is refused."""
    with Folder(files) as folder:
        os.chdir(folder.path)
        try:
            world = smmplay.world_of(words)
        except smmplay.Fault:
            return []
        images = smmplay.load_images(words[2], world.platform)
    broken, after = machine.first_broken(world.platform, images, world.labels())
    if broken:
        return [f"label {broken[0] + 1}, {world.labels()[broken[0]]}, breaks rule {broken[1]}"]
    same = [one.data == other.data for one, other in zip(after.resumed, world.resumed)]
    return [] if all(same) else ["an image after isn't the machine's last resumed one"]


def broken_line(case, change):
    """The first line of a changed report whose label breaks its rule, as `line L rule R`."""
    with Folder(case.files) as folder:
        os.chdir(folder.path)
        world = smmplay.world_of(case.words)
        images = smmplay.load_images(case.words[2], world.platform)
    way, number = change.split()
    before, after = int(number) - (way == "without"), int(number) - (way == "twice")
    events = world.events[:before] + world.events[after:]
    labels = [(line, event[0], event[4]) for line, event in enumerate(events, 1) if event[4] != "-"]
    broken, _ = machine.first_broken(world.platform, images, [label[1:] for label in labels])
    return f"line {labels[broken[0]][0]} rule {broken[1]}" if broken else "a run"


def judge(case, programs):
    """Plays a case: pairs of a player's name and what differs, for the simulator and for each build.

    What the simulator plays must be what is expected, and a run of the abstract machine. The program must do what the simulator
    does, byte for byte."""
    if case.broken is not None:
        return [("reference", differing_rule(case))]
    played = by_reference(case, case.files)
    expected = case.expected if case.like is None else exactly(by_reference(case, case.like))
    wrong = differences(expected, played) + broken_rule(case.files, case.words)
    judged = [("reference", wrong + (case.also(case, played) if case.also else []))]
    for name, path in programs:
        outcome = by_program(path, case, case.files)
        judged.append((name, differences(exactly(played), outcome) or differences(expected, outcome)))
    return judged


def differing_rule(case):
    change, wanted = case.broken
    found = broken_line(case, change)
    return [] if found == wanted else [f"{found}, not {wanted}"]


def exactly(outcome):
    """What is expected where an outcome is to be the same."""
    return Expected(outcome.status, outcome.text, judges_after=True, after=outcome.after)
