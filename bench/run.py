#!/usr/bin/env python3
"""Times the proved program on large inputs, and the plain simulator of reference/ beside it on the same files.

    bench/run.py [--quick] [PART ..]

Run smmplay once before, so that the program is there. It needs Python 3.11 on Linux. The parts are growth, many, large,
long, busy, finishing, shares, profile and judging, and simulator; without a word all of them are played.

A time is the least wall time of some turns of the whole command, with its start, its files and its report. A peak of
memory is the system's own count (the greatest resident set, by /usr/bin/time; where that isn't there, the greatest that
was seen while the program ran). The time and the memory of an event are those of a run with many events less those of
a run with few, divided by the events that are more. Nothing is said of what an entry of a schedule costs that makes
no event: its actor waits or is off, and mostly its text is all the work.

The shares of one run are those of four, in processor time: one whose schedule is refused at its last item has read all
files and no more; one whose first write fails (/dev/full) has also stepped; one to /dev/null has also printed; one to a
file has also written.
Where `perf` runs, the functions in which most of the time goes are told too.
"""
import itertools
import pathlib
import resource
import shutil
import subprocess
import sys
import tempfile
import time
import tomllib
from dataclasses import dataclass

from make_inputs import ACTORS, LONG, LOOKS, MANY

HERE = pathlib.Path(__file__).resolve().parent
OUT = HERE.parent / "crates" / "smmplay" / "out"
SIMULATOR = [sys.executable, str(HERE.parent / "reference" / "smmplay.py")]
TIMER = shutil.which("time")
# so many events more, and what they cost stands out of the noise
ENOUGH = 4000
# large runs, by what they are: the platform and its schedule, and the images
LARGE = {
    f"64 processors that wait in vain, {LONG[-1]} waves": (f"long_{LONG[-1]}", "full.smi"),
    "8 processors with jobs": ("jobs", "images_8.smi"),
    "one processor, 4096 units a session": ("serving", "one.smi"),
}
LEAST_SHARE = 2
# what `finish` plays: of the first the actors of the events fit in a schedule file, which has at most so many bytes
FINISHED = {f"64 processors that wait in vain, {LONG[1]} waves": (f"long_{LONG[1]}", "full.smi"), **LARGE}
# the greatest count of an item of a schedule
MOST_TIMES = 65535
MOST_TEXT = 4194304


@dataclass
class Run:
    """One command: its least seconds, its peak in KiB, its status and the number of its events."""
    seconds: float
    peak: int
    status: int
    events: int


def seen_peak(pid):
    """The peak of a running process in KiB, or 0 once it has ended."""
    try:
        status = pathlib.Path(f"/proc/{pid}/status").read_text()
    except OSError:
        return 0
    peaks = [line.split()[1] for line in status.splitlines() if line.startswith("VmHWM:")]
    return int(peaks[0]) if peaks else 0


def peak_of(command, folder):
    """The peak of one run in KiB."""
    with open(folder / "report.txt", "wb") as report:
        if TIMER:
            words = [TIMER, "-f", "%M", "-o", str(folder / "peak"), *command]
            subprocess.run(words, cwd=folder, stdout=report)
            return int((folder / "peak").read_text().split()[-1])
        child = subprocess.Popen(command, cwd=folder, stdout=report)
        peak = 0
        while child.poll() is None:
            peak = max(peak, seen_peak(child.pid))
    return peak


def timed(command, folder, output=None):
    """Seconds and status of one run, whose report goes to a file."""
    with open(output or folder / "report.txt", "wb") as report:
        begin = time.perf_counter()
        done = subprocess.run(command, cwd=folder, stdout=report)
    return time.perf_counter() - begin, done.returncode


def measure_all(program, inputs, folder, turns):
    """A run of each input. The turns go round the inputs, so that what else the machine does falls on all alike."""
    commands = [step_of(program, *words) for words in inputs]
    rounds = [[timed(command, folder) for command in commands] for _ in range(turns)]
    runs = []
    for command, turns_of_one in zip(commands, zip(*rounds)):
        peak = peak_of(command, folder)
        least = min(seconds for seconds, _ in turns_of_one)
        runs.append(Run(least, peak, turns_of_one[0][1], events_of(folder / "report.txt")))
    return runs


def busy_seconds(command, folder, output):
    """The processor time of one run, its own and the system's for it."""
    before = resource.getrusage(resource.RUSAGE_CHILDREN)
    timed(command, folder, output)
    after = resource.getrusage(resource.RUSAGE_CHILDREN)
    return after.ru_utime + after.ru_stime - before.ru_utime - before.ru_stime


def step_of(program, platform, images, schedule):
    return [*program, "step", platform, images, schedule, "after.smi"]


def events_of(report):
    """The number of events that the last line of a report tells; 0 of a refusal."""
    last = report.read_bytes().splitlines()[-1].split()
    return int(last[2]) if len(last) > 2 and last[1] == b"events" else 0


def row(name, player, run, more=""):
    numbers = f"{run.status} | {run.events} | {run.seconds * 1000:.2f} ms | {run.peak / 1024:.2f} MiB"
    print(f"| {name} | {player} | {numbers} | {more} |", flush=True)


def per_event(run, few):
    """What one event more costs. Where all of them take less than a fifth of the shorter run, that is noise and not
    told."""
    more = run.events - few.events
    if more < ENOUGH or run.status:
        return ""
    seconds = run.seconds - few.seconds
    each = f"{seconds / more * 1e9:.0f} ns" if seconds > few.seconds / 5 else "time within the noise"
    return f"{each}, {(run.peak - few.peak) * 1024 / more:.0f} bytes"


def growth(player, program, folder, turns):
    """The same platform with more and more events."""
    inputs = [["looks.toml", "one.smi", f"looks_{looks}.txt"] for looks in LOOKS]
    runs = measure_all(program, inputs, folder, turns)
    for looks, run in zip(LOOKS, runs):
        row(f"one processor, {looks} looks before it comes", player, run, per_event(run, runs[0]))


def many_processors(player, program, folder, turns):
    """Platforms with more processors and waves; the few events are those of the platform with an empty schedule."""
    (folder / "empty.txt").write_text("")
    for n, waves in MANY:
        files = [f"many_{n}_{waves}.toml", f"images_{n}.smi"]
        inputs = [[*files, "empty.txt"], [*files, f"many_{n}_{waves}.txt"]]
        few, run = measure_all(program, inputs, folder, turns)
        row(f"{n} processors, {waves} waves", player, run, per_event(run, few))


def large_files(player, program, folder, turns):
    """Large schedules, a large platform file, and an image file of the wrong count."""
    inputs = {f"a schedule of {n} actors": ["one.toml", "one.smi", f"schedule_{n}.txt"] for n in ACTORS}
    size = (folder / "large.toml").stat().st_size
    inputs[f"a platform file of {size} bytes"] = ["large.toml", "one.smi", "schedule_41943.txt"]
    inputs["64 images for one processor"] = ["one.toml", "full.smi", "schedule_41943.txt"]
    for name, run in zip(inputs, measure_all(program, inputs.values(), folder, turns)):
        row(name, player, run)


def long_rounds(player, program, folder, turns):
    """Half a million events, twice as many and so on: each event more must cost the same."""
    inputs = [[f"long_{waves}.toml", "full.smi", f"long_{waves}.txt"] for waves in LONG]
    runs = measure_all(program, inputs, folder, few_turns(turns))
    for waves, run in zip(LONG, runs):
        row(f"64 processors that wait in vain, {waves} waves", player, run, per_event(run, runs[0]))


def busy(player, program, folder, turns):
    """Jobs and long serving; the few events are those of an empty schedule."""
    (folder / "empty.txt").write_text("")
    for name, (stem, images) in list(LARGE.items())[1:]:
        inputs = [[f"{stem}.toml", images, "empty.txt"], [f"{stem}.toml", images, f"{stem}.txt"]]
        few, run = measure_all(program, inputs, folder, few_turns(turns))
        row(name, player, run, per_event(run, few))


def own_schedule(report, stem, folder):
    """Writes a schedule of just the actors of a report's events; the chipset comes after the platform's processors. Where
    there are too many for a schedule file, that of the platform, all actors in rounds, stands for it."""
    processors = tomllib.loads((folder / f"{stem}.toml").read_text())["processors"]
    lines = [line.split(maxsplit=1)[0] for line in report.read_text().splitlines()[:-1]]
    numbers = (processors if name == "chip" else int(name[1:]) for name in lines)
    runs = [(actor, len(list(same))) for actor, same in itertools.groupby(numbers)]
    parts = [(actor, min(MOST_TIMES, count - done)) for actor, count in runs for done in range(0, count, MOST_TIMES)]
    text = " ".join(str(actor) if count == 1 else f"{actor}*{count}" for actor, count in parts)
    if len(text) > MOST_TEXT:
        return f"{stem}.txt", "rounds of all"
    (folder / "own.txt").write_text(text)
    return "own.txt", "its own actors"


def finishing(player, program, folder, turns):
    """`finish` from the start, and beside it `step` on just the actors of the same events, where the program has the
    command."""
    (folder / "empty.txt").write_text("")
    for name, (stem, images) in FINISHED.items():
        finish = [*program, "finish", f"{stem}.toml", images, "empty.txt", "after.smi"]
        if timed(finish, folder)[1] == 1:
            return
        report = folder / "report.txt"
        events, peak = events_of(report), peak_of(finish, folder)
        schedule, actors = own_schedule(report, stem, folder)
        step = step_of(program, f"{stem}.toml", images, schedule)
        rounds = [(timed(finish, folder), timed(step, folder)) for _ in range(few_turns(turns))]
        least, own = (min(seconds for seconds, _ in runs) for runs in zip(*rounds))
        row(f"{name}, `finish`", player, Run(least, peak, rounds[0][0][1], events), f"{least / own:.2f} times `step` on {actors}")


def few_turns(turns):
    """Of a large run fewer turns are enough."""
    return max(1, turns // 8)


def shares(player, program, folder, turns):
    """How the processor time of a large run is divided. The simulator prints all before it writes, so it has no shares."""
    print("| input | player | events | reading | stepping | printing | writing |\n|---|---|---|---|---|---|---|")
    for name, (stem, images) in LARGE.items():
        step = step_of(program, f"{stem}.toml", images, f"{stem}.txt")
        refused = step_of(program, f"{stem}.toml", images, f"{stem}_refused.txt")
        ways = [(refused, None), (step, "/dev/full"), (step, "/dev/null"), (step, None)]
        rounds = [[busy_seconds(command, folder, output) for command, output in ways] for _ in range(few_turns(turns))]
        least, events = list(map(min, zip(*rounds))), events_of(folder / "report.txt")
        parts = [least[0]] + [max(0.0, after - before) for before, after in zip(least, least[1:])]
        told = [f"{part * 1000:.1f} ms, {part / least[-1] * 100:.0f} %, {part / events * 1e9:.0f} ns an event" for part in parts]
        print(f"| {name} | {player} | {events} | {' | '.join(told)} |", flush=True)


def profile(player, program, folder, turns):
    """The functions in which most of the time of a large run goes, by `perf`."""
    if not shutil.which("perf"):
        print("no perf")
        return
    for name, (stem, images) in LARGE.items():
        data, step = str(folder / "perf.data"), step_of(program, f"{stem}.toml", images, f"{stem}.txt")
        with open(folder / "report.txt", "wb") as report:
            record = subprocess.run(["perf", "record", "-q", "-F", "997", "-o", data, *step], cwd=folder, stdout=report, stderr=subprocess.PIPE)
        told = subprocess.run(["perf", "report", "-q", "--stdio", "--no-children", "--fields", "overhead,symbol", "-i", data], text=True, capture_output=True)
        if record.returncode or told.returncode:
            print(f"perf doesn't run here: {(record.stderr.decode() + told.stderr)[:200]}")
            return
        print(f"{name}, {player}: " + "; ".join(most_used(told.stdout)), flush=True)


def most_used(report):
    """The functions of a perf report that have more than a small share."""
    rows = [line.split(maxsplit=1) for line in report.splitlines() if "%" in line]
    return [f"{share} {symbol.strip()}" for share, symbol in rows if float(share.rstrip("%")) >= LEAST_SHARE]


def judging(player, program, folder, turns):
    """`check` of the largest report and `sum`, where the program has these commands."""
    stem, images = f"long_{LONG[-1]}", "full.smi"
    timed(step_of(program, f"{stem}.toml", images, f"{stem}.txt"), folder, folder / "trace.txt")
    events = events_of(folder / "trace.txt")
    commands = {"check of this report": [*program, "check", f"{stem}.toml", images, "trace.txt"], "sum 1 64": [*program, "sum", "1", "64"]}
    for name, command in commands.items():
        runs = [timed(command, folder) for _ in range(few_turns(turns))]
        least, status = min(runs)[0], runs[0][1]
        if status == 1:
            continue
        made = events if "check" in command else events_of(folder / "report.txt")
        row(name, player, Run(least, peak_of(command, folder), status, made), f"{least / max(1, made) * 1e9:.0f} ns an event")


PARTS = {"growth": growth, "many": many_processors, "large": large_files, "long": long_rounds, "busy": busy, "finishing": finishing,
         "judging": judging, "shares": shares, "profile": profile}


def simulated(folder, wanted, turns):
    """The simulator on the same files; the large ones once."""
    for name in ("growth", "many"):
        if name in wanted:
            PARTS[name]("simulator", SIMULATOR, folder, max(5, turns // 4))
    for name in ("long", "busy", "judging"):
        if name in wanted:
            PARTS[name]("simulator", SIMULATOR, folder, 1)


def main():
    words = [word for word in sys.argv[1:] if word != "--quick"]
    if set(words) - {*PARTS, "simulator"}:
        sys.exit(__doc__)
    players = [("smmplay, LLVM", [str(OUT / "smmplay")]), ("smmplay, Rattle's compiler", [str(OUT / "smmplay.by-rattle")])]
    players = [(name, path) for name, path in players if pathlib.Path(path[0]).is_file()]
    if not players and "simulator" not in words:
        sys.exit("build the program first: run ./smmplay once")
    turns, wanted = 5 if "--quick" in sys.argv else 40, [part for part in PARTS if part in words or not set(words) - {"simulator"}]
    with tempfile.TemporaryDirectory() as name:
        folder = pathlib.Path(name)
        subprocess.run([sys.executable, str(HERE / "make_inputs.py"), name], check=True)
        print("| input | player | status | events | time | peak | each event more |\n|---|---|---|---|---|---|---|", flush=True)
        for player, program in players:
            for part in wanted:
                PARTS[part](player, program, folder, turns)
        if "simulator" in words or not words:
            simulated(folder, wanted, turns)


if __name__ == "__main__":
    main()
