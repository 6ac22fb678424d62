#!/usr/bin/env python3
"""The command, as a plain simulator.

    smmplay.py step PLATFORM IMAGES SCHEDULE AFTER
    smmplay.py finish PLATFORM IMAGES SCHEDULE AFTER
    smmplay.py check PLATFORM IMAGES TRACE
    smmplay.py make NUMBER N
    smmplay.py sum NUMBER N

It answers as the proved program `smmplay` does: the same report or fault line, status and images after.
"""
import os
import sys

from generator import generated_schedule, generated_text, start_images
from images import ImagesFault, read_images, write_images
from layout import RelocationFault
from machine import Machine
from platform_file import PlatformFault, read_platform
from protocol import replay
from reports import is_number, judge, last_line, report_of
from schedule import ScheduleFault, read_schedule

PLATFORM_LIMIT, IMAGES_LIMIT, SCHEDULE_LIMIT, TRACE_LIMIT = 1_048_576, 65_548, 4_194_304, 536_870_912
MOST_SEED, MOST_PROCESSORS = 4_294_967_295, 64

# The commands and how many words each has.
COMMANDS = {"step": 5, "finish": 5, "check": 4, "make": 3, "sum": 3}


class Fault(Exception):
    """A status and its line."""

    def __init__(self, status, line):
        self.status, self.line = status, line


def load(name, limit):
    """A file of at most so many bytes."""
    try:
        with open(name, "rb") as file:
            data = file.read(limit + 1)
    except (OSError, ValueError):
        raise Fault(6, f"read {name}") from None
    if len(data) > limit:
        raise Fault(6, f"too-long {name} {limit}")
    return data


def load_platform(name):
    data = load(name, PLATFORM_LIMIT)
    try:
        return read_platform(data)
    except PlatformFault as fault:
        raise Fault(2, f"platform {fault}") from None


def load_images(name, platform):
    data = load(name, IMAGES_LIMIT)
    try:
        images = read_images(data)
    except ImagesFault as fault:
        raise Fault(3, f"images {fault}") from None
    if images[0].kind != platform.map:
        raise Fault(3, "images kind-differs")
    if len(images) != platform.processors:
        raise Fault(3, f"images count-differs {platform.processors} {len(images)}")
    return images


def load_schedule(name, platform):
    data = load(name, SCHEDULE_LIMIT)
    try:
        return read_schedule(data, platform.processors)
    except ScheduleFault as fault:
        raise Fault(4, f"schedule {fault}") from None


def is_name(word):
    """Is a word of the command line UTF-8, and does it begin with something else than `-`?"""
    try:
        os.fsencode(word).decode()
    except UnicodeDecodeError:
        return False
    return not word.startswith("-")


def is_command(words):
    """Are the words of a command's form?"""
    if not words or len(words) != COMMANDS.get(words[0]) or not all(map(is_name, words)):
        return False
    return words[0] not in ("make", "sum") or (is_number(words[1], MOST_SEED) and is_number(words[2], MOST_PROCESSORS) and words[2] != "0")


def world_of(words):
    """The world that `step` or `finish` leaves."""
    if not is_command(words) or words[0] not in ("step", "finish"):
        raise Fault(1, "usage")
    names = words[1:]
    platform = load_platform(names[0])
    images = load_images(names[1], platform)
    schedule = load_schedule(names[2], platform)
    try:
        world = replay(platform, images, schedule)
    except RelocationFault as fault:
        raise Fault(3, f"images {fault}") from None
    if words[0] == "finish":
        world.finish()
    return world


def check(names):
    """Judges a report. Where it is a run, what is written."""
    platform = load_platform(names[0])
    images = load_images(names[1], platform)
    data = load(names[2], TRACE_LIMIT)
    try:
        machine = Machine(platform, images)
    except RelocationFault as fault:
        raise Fault(3, f"images {fault}") from None
    wrong = judge(machine, data, platform.processors)
    if wrong:
        raise Fault(5, f"trace {wrong}")
    return "run\n"


def sum_of(seed, processors):
    """The last line of the generated platform's report."""
    platform = read_platform(generated_text(seed, processors).encode())
    return last_line(replay(platform, start_images(processors), generated_schedule(processors)))


def played(words):
    """What a command of the right form writes, and the file that it saves under its last word, or None."""
    if words[0] == "check":
        return check(words[1:]), None
    if words[0] in ("make", "sum"):
        work = generated_text if words[0] == "make" else sum_of
        return work(int(words[1]), int(words[2])), None
    world = world_of(words)
    return report_of(world), write_images(world.resumed)


def play(words):
    """The status of a command, what it writes, and the file that it saves under its last word, or None."""
    try:
        if not is_command(words):
            raise Fault(1, "usage")
        return 0, *played(words)
    except Fault as fault:
        return fault.status, f"fault {fault.line}\n", None


def command(words, write):
    """Does a whole command: its text goes out by `write`, the images after to their file. The status; that of a refusal
    stays where its line can't be written."""
    status, text, after = play(words)
    try:
        write(text)
        if after is not None:
            with open(words[4], "wb") as file:
                file.write(after)
    except (OSError, ValueError):
        return status or 7
    return status


def to_standard_output(text):
    data = text.encode()
    while data:
        data = data[os.write(1, data):]


def main(words):
    return command(words, to_standard_output)


if __name__ == "__main__":
    sys.exit(main(sys.argv[1:]))
