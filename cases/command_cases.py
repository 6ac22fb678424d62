"""The cases of the commands `check`, `finish`, `make` and `sum`: one for each line of the tables in `commands/`, and one for each
folder of `played/` that is played to status 0, which is finished.

README.md describes the tables.
"""
import re

from player import Case, Expected, by_reference
from reading import HERE, folder_cases, known_files, lines_of, split, unescaped, zero_images

TABLES = HERE / "commands"
NO_RELOCATION = bytes(1024 - 0x104) + bytes([4, 0, 1, 0])
AREA = b"\n[smram]\nbase = 0x80000\nsize = 0x100000\ntile = 0x800\ncode = 0x400\n"


def command_cases():
    """All of them."""
    played = {case.name: case for case in folder_cases()}
    cases = [check_case(row, played) for row in lines_of(TABLES / "check.txt")]
    cases += [byte_case(row, played) for row in lines_of(TABLES / "bytes.txt")]
    files = files_of_words()
    cases += [word_case(row, files) for row in lines_of(TABLES / "words.txt")]
    return cases + [finished(case) for case in played.values() if case.expected.status == 0]


def report_of(case):
    """The report of a case, by the simulator."""
    return by_reference(case, case.files).text


# ---- reports

def changed(report, change):
    """A report with one change."""
    if change == "none":
        return report
    if change.startswith("end + "):
        return report + unescaped(change.removeprefix("end + "))
    if change.startswith("end - "):
        return report[:-int(change.removeprefix("end - "))]
    lines = report.splitlines(keepends=True)
    if found := re.fullmatch("(without|twice|exchange) ([0-9]+)", change):
        at = int(found[2]) - 1
        part = {"without": [], "twice": [lines[at]] * 2, "exchange": lines[at:at + 2][::-1]}[found[1]]
        lines[at:at + (2 if found[1] == "exchange" else 1)] = part
    else:
        place, old, new = re.fullmatch("([0-9]+|last): (.+) -> ?(.*)", change).groups()
        at, old = -1 if place == "last" else int(place) - 1, unescaped(old)
        assert old in lines[at], change
        lines[at] = lines[at].replace(old, unescaped(new), 1)
    return b"".join(lines)


def judged(name, case, report, answer):
    """`check` of a report on a case's platform and images."""
    expected = Expected(0, b"run\n") if answer == "run" else Expected(5, f"fault trace {answer}\n".encode())
    return Case(name, {**case.files, "T": report}, ["check", "P", "I", "T"], expected)


def check_case(row, played):
    """`CASE => CHANGES => ANSWER`: the report of a case, changed, and what `check` says of it."""
    name, changes, answer = split(row)
    case = played[name.removeprefix("finished ")]
    report = report_of(finished(case) if name.startswith("finished ") else case)
    for change in changes.split(";"):
        report = changed(report, change.strip())
    return judged(f"check.txt: {row}", case, report, answer)


def byte_case(row, played):
    """`CASE => LINE:COLUMN OLD NEW => ANSWER`: the report of a case with one byte changed."""
    name, change, answer = split(row)
    line, column, old, new = re.fullmatch("([0-9]+):([0-9]+) ([^ ]+) ([^ ]+)", change).groups()
    report = report_of(played[name])
    at = sum(map(len, report.splitlines(keepends=True)[:int(line) - 1])) + int(column) - 1
    assert report[at:at + 1] == unescaped(old), row
    return judged(f"bytes.txt: {row}", played[name], report[:at] + unescaped(new) + report[at + 1:], answer)


# ---- words

def files_of_words():
    files = {name: data for name, data in known_files().items() if name in ("P", "I", "S")}
    report = report_of(Case("", files))
    relocated = zero_images("intel64", 1)[:12] + NO_RELOCATION.ljust(1024, b"\0")
    return files | {"T": report, "T-": changed(report, "without 28"), "J": zero_images("intel64", 2), "R": relocated,
                    "Q": files["P"] + AREA, "G": b"=", "E": b""}


def word_case(row, files):
    """`WORDS => STATUS ANSWER`: the words of a command, and all that it writes, or how its last line begins."""
    words, answer = row.split(" => ")
    status, _, text = answer.partition(" ")
    expected = Expected(int(status))
    if text.startswith(".. "):
        expected.last = text.removeprefix(".. ")
    else:
        expected.text = unescaped(text)
    return Case(f"commands/words.txt: {row}", files, words.split(), expected)


# ---- finishing

def finished(case):
    """The same case, stepped on until every actor is off."""
    return Case(f"finish {case.name}", case.files, ["finish", *case.words[1:]], Expected(0, last="complete "), also=differing_finish)


def differing_finish(case, outcome):
    """What is wrong with a finished report: the events of the schedule come first, and `check` says that it is a run."""
    begun = report_of(Case("", case.files)).splitlines()[:-1]
    wrong = [] if outcome.text.splitlines()[:len(begun)] == begun else ["the events of the schedule don't come first"]
    files = case.files | {"T": outcome.text}
    checked = by_reference(Case("", files, ["check", "P", "I", "T"]), files).text
    return wrong + ([] if checked == b"run\n" else [f"check says {checked}"])
