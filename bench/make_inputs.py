#!/usr/bin/env python3
"""Makes the inputs of the benchmark in a folder."""
import itertools
import pathlib
import random
import sys

sys.path.insert(0, str(pathlib.Path(__file__).resolve().parent.parent / "reference"))

from images import read_images  # noqa: E402
from platform_file import read_platform  # noqa: E402
from protocol import World  # noqa: E402

IMAGE_BYTES = 1024
REVISION = bytes([0x04, 0x00, 0x03, 0x00])
SMBASE = bytes([0x00, 0x00, 0x03, 0x00])

# so many looks of the chipset before the processor comes
LOOKS = [0, 1024, 2048, 4096, 8192]
# so many actors in a schedule of which nearly none makes an event
ACTORS = [41943, 419430, 4194304]
# processors and waves of platforms with all processors prompt
MANY = [(2, 16), (8, 16), (8, 64)]
# so many waves for 64 processors that wait both rounds, of 4,096 looks each, for a BSP that never comes: each wave is half a million events
LONG = [1, 2, 4, 7]
LONG_ROUNDS = 8500
# so many waves of 8 processors whose BSP gives the others jobs, and of one processor with as many units of serving as can be
WITH_JOBS, SERVING = 22, 100
MOST_UNITS = 4096


def platform(processors, visits, polls, ops, waves=1, tail="", absent=None):
    """All processors come at once; where there is an absent one, that one is fixed as the BSP."""
    status = ", ".join('"absent"' if i == absent else '"prompt"' for i in range(processors))
    wave = f'\n[[wave]]\nstatus = [{status}]\nmanage = ["root"]\n'
    policy = 'policy = "elected"' if absent is None else f'policy = "fixed"\nfixed = {absent}'
    return (
        f'version = 1\nprocessors = {processors}\nmap = "intel64"\n{policy}\n'
        f'mode = "traditional"\npolls = [{polls[0]}, {polls[1]}]\nvisits = {visits}\nops = {ops}\n{wave * waves}{tail}'
    )


WRITE = '{op = "write", cpu = 0, reg = "RAX", width = 8, value = "0x0123456789ABCDEF"}'
LAUNCH = '{op = "launch", cpu = 0, procedure = "' + "p" * 100 + '", arg = "0x0123456789ABCDEF", into = "v0"}'


PROCEDURE = '\n[[procedure]]\nname = "p"\nact = "get"\nreg = "RAX"\n'
AREA = "\n[smram]\nbase = 0x80000\nsize = 0x100000\ntile = 0x800\ncode = 0x400\n"


def job(word, cpu, into):
    return f'{{op = "{word}", cpu = {cpu}, procedure = "p", arg = 7, into = "v{into}"}}'


def wait(token):
    return f'{{op = "wait", token = "v{token}", into = "v0"}}'


# seven launches and seven waits, four times over, and seven starts: 63 operations, and with the handler's call that makes 64 units
JOBS = ([job("launch", cpu, cpu) for cpu in range(1, 8)] + [wait(cpu) for cpu in range(1, 8)]) * 4 + [job("start", cpu, 0) for cpu in range(1, 8)]
# 63 operations that need no other processor
ALONE = [
    '{op = "set", into = "v1", value = 123456789}', WRITE, '{op = "read", cpu = 0, reg = "RAX", width = 8, into = "v2"}',
    '{op = "alloc", size = 64, into = "v3"}', '{op = "free", place = "v3"}',
    '{op = "register", handler = "h0", type = "00112233-4455-6677-8899-aabbccddeeff", into = "v4"}', '{op = "unregister", handle = "v4"}',
] * 9


def handler(number, operation):
    return handler_of(number, [operation] * 64)


def handler_of(number, operations):
    listed = ", ".join(operations)
    return f'\n[[handler]]\nname = "h{number}"\ntype = "root"\nanswer = "SUCCESS"\nops = [{listed}]\n'


def cause(cpu, visit):
    return f"\n[[cause]]\ncpu = {cpu}\nvisit = {visit}\nhalt = true\nio = {{port = 178, length = 1, type = 8}}\n"


def images(count):
    image = bytearray(IMAGE_BYTES)
    image[0x7EF8 - 0x7C00:0x7EF8 - 0x7C00 + 4] = SMBASE
    image[0x7EFC - 0x7C00:0x7EFC - 0x7C00 + 4] = REVISION
    return b"SMIM" + bytes([1, 0, 1, 0, count, 0, 0, 0]) + bytes(image) * count


def schedule(actors):
    """Items with counts of 1 to 9, of so many actors in all."""
    draw = random.Random(actors)
    items = []
    left = actors
    while left:
        count = min(left, draw.randint(1, 9))
        items.append(f"{draw.randint(0, 1)}*{count}")
        left -= count
    return " ".join(items)


def busy_schedule(text, image_file):
    """A schedule in which each actor's turn makes an event: the order of the events of a round of all actors again and
    again until all are off."""
    world = World(read_platform(text.encode()), read_images(image_file))
    world.finish()
    runs = [(actor, len(list(same))) for actor, same in itertools.groupby(event[0] for event in world.events)]
    return " ".join(str(actor) if count == 1 else f"{actor}*{count}" for actor, count in runs)


def large_platform():
    """A platform file near 1 MiB: 64 handlers of 64 operations and as many causes as fit."""
    text = platform(64, 64, (8, 8), 8, 1, "".join(handler(i, LAUNCH) for i in range(64)))
    for number in range(4096):
        more = cause(number % 64, number // 64 + 1)
        if len(text) + len(more) > 1048576:
            return text
        text += more
    return text


def busy_platforms():
    """The name, the number of processors and the platform: with jobs, and with serving as long as can be."""
    with_jobs = PROCEDURE + "".join(handler_of(i, JOBS) for i in range(63))
    serving = AREA + "".join(handler_of(i, ALONE) for i in range(64))
    return [("jobs", 8, platform(8, WITH_JOBS, (8, 8), MOST_UNITS, WITH_JOBS, with_jobs)),
            ("serving", 1, platform(1, SERVING, (8, 8), MOST_UNITS, SERVING, serving))]


def write_busy(folder):
    for waves in LONG:
        (folder / f"long_{waves}.toml").write_text(platform(64, waves, (4096, 4096), 1, waves, absent=0))
        (folder / f"long_{waves}.txt").write_text(f"all*{waves * LONG_ROUNDS}")
        (folder / f"long_{waves}_refused.txt").write_text(f"all*{waves * LONG_ROUNDS} 65")
    for name, processors, text in busy_platforms():
        order = busy_schedule(text, images(processors))
        (folder / f"{name}.toml").write_text(text)
        (folder / f"{name}.txt").write_text(order)
        (folder / f"{name}_refused.txt").write_text(f"{order} {processors + 1}")


def main():
    folder = pathlib.Path(sys.argv[1])
    folder.mkdir(parents=True, exist_ok=True)
    write_busy(folder)
    (folder / "one.toml").write_text(platform(1, 256, (71, 71), 1600, 1, handler(0, WRITE)))
    (folder / "looks.toml").write_text(platform(1, 1, (4096, 4096), 64))
    for looks in LOOKS:
        (folder / f"looks_{looks}.txt").write_text(f"1*3 {f'1*{looks} ' if looks else ''}0*15 1*3 0*6")
    for processors, waves in MANY:
        text = platform(processors, waves, (8, 8), 64, waves, handler(0, WRITE))
        (folder / f"many_{processors}_{waves}.toml").write_text(text)
        (folder / f"images_{processors}.smi").write_bytes(images(processors))
        (folder / f"many_{processors}_{waves}.txt").write_text(f"all*{waves * 200}")
    (folder / "large.toml").write_text(large_platform())
    (folder / "one.smi").write_bytes(images(1))
    (folder / "full.smi").write_bytes(images(64))
    for actors in ACTORS:
        (folder / f"schedule_{actors}.txt").write_text(schedule(actors))


if __name__ == "__main__":
    main()
