"""Reads the cases of this folder: one for each folder of `played/`, and one for each line of the tables.

README.md describes the files.
"""
import pathlib
import re

from player import Case, Expected

HERE = pathlib.Path(__file__).resolve().parent
SIZES = {"ia32": 512, "intel64": 1024}
TOO_LONG = {"P": 1_048_577, "I": 65_549, "S": 4_194_305}


def lines_of(path):
    """The lines of a table without the empty ones and the comments."""
    text = path.read_text(encoding="utf-8")
    return [line for line in text.split("\n") if line and not line.startswith("#")]


# ---- image files

def zero_images(kind, count):
    """An image file of zeros but for the SMM revision 30004H and the SMBASE 30000H of each image."""
    size = SIZES[kind]
    image = bytearray(size)
    image[size - 0x108:size - 0x100] = bytes([0, 0, 3, 0, 4, 0, 3, 0])
    header = b"SMIM" + bytes([1, 0, list(SIZES).index(kind), 0]) + count.to_bytes(4, "little")
    return header + bytes(image) * count


def changed_bytes(data, line):
    """`AT: HEX HEX ..` puts bytes at a place of the file; `length N` cuts the file or adds zeros."""
    if line.startswith("length "):
        length = int(line.split()[1])
        return data[:length] + bytes(length - len(data[:length]))
    at, text = line.split(":")
    new = bytes.fromhex(text)
    return data[:int(at)] + new + data[int(at) + len(new):]


def images_of(lines):
    """A file of zero images, `MAP COUNT`, and changes of it."""
    kind, count = lines[0].split()
    data = zero_images(kind, int(count))
    for line in lines[1:]:
        data = changed_bytes(data, line)
    return data


def after_of(lines, images):
    """AFTER: `none` where nothing is saved, `unchanged`, or changes of the image file."""
    if lines == ["none"]:
        return None
    for line in lines if lines != ["unchanged"] else []:
        images = changed_bytes(images, line)
    return images


# ---- folders

def folder_cases():
    """A case for each folder of `played/`."""
    return [folder_case(folder) for folder in sorted((HERE / "played").iterdir())]


def folder_case(folder):
    images = images_of(lines_of(folder / "images.txt"))
    files = {"P": (folder / "platform.toml").read_bytes(), "I": images, "S": (folder / "schedule.txt").read_bytes()}
    expected = Expected(status=int((folder / "status.txt").read_text(encoding="utf-8")))
    if (folder / "report.txt").exists():
        expected.text = (folder / "report.txt").read_bytes()
    if (folder / "lines.txt").exists():
        expected.lines = dict(numbered(line) for line in lines_of(folder / "lines.txt"))
    if (folder / "after.txt").exists():
        expected.judges_after, expected.after = True, after_of(lines_of(folder / "after.txt"), images)
    return Case(folder.name, files, expected=expected)


def numbered(line):
    """`NUMBER: TEXT` or `last: TEXT`."""
    number, text = line.split(": ", 1)
    return (-1 if number == "last" else int(number)), text


# ---- tables

ESCAPES = {"n": "\n", "t": "\t", "r": "\r", "0": "\0", "s": " ", "\\": "\\"}


def repeated(text):
    """`<COUNT:TEXT>` stands for the text so many times."""
    return re.sub("<([0-9]+):(.*?)>", lambda found: found[2] * int(found[1]), text)


def unescaped(text):
    """A text with `\\n`, `\\t`, `\\r`, `\\0`, `\\s` (a space), `\\\\` and `\\xHH` (one byte) read, and its repeats."""
    def byte(found):
        return chr(int(found[1][1:], 16)) if found[1][0] == "x" else ESCAPES[found[1]]
    return re.sub(r"\\(x[0-9A-F]{2}|.)", byte, repeated(text)).encode("latin-1")


def table_cases():
    """A case for each line of each table."""
    readers = {"platforms": platform_cases, "schedules": schedule_cases, "images": image_cases,
               "words": word_cases, "writes": write_cases, "rules": rule_cases}
    cases = []
    for path in sorted((HERE / "tables").glob("*.txt")):
        cases += readers[path.stem.split("_")[0]](path)
    return cases


def base(name):
    return (HERE / "tables" / name).read_text(encoding="utf-8")


def split(line):
    """The parts of a line between its arrows."""
    return [part.strip() for part in line.split("=>")]


def platform_cases(path):
    """`OLD => NEW => ANSWER`: a change of the platform in the first line, and the fault, or `ok`."""
    first, *rows = lines_of(path)
    platform = base(first)
    return [platform_case(path, platform, row) for row in rows]


def with_line_ends(text):
    return repeated(text).replace("|", "\n")


def platform_case(path, platform, row):
    old, new, answer = re.fullmatch("(.*) => (.*) => (.*)", row).groups()
    old, new = with_line_ends(old), with_line_ends(new)
    if old == "END":
        changed = platform + new
    elif platform.count(old):
        changed = platform.replace(old, new, 1)
    else:
        raise SystemExit(f"{path.name}: the platform hasn't the text of '{row}'")
    files = {"P": unescaped_bytes(changed), "S": b""}
    if answer == "ok":
        return Case(f"{path.name}: {row}", files, expected=fault(6, "read I"))
    return Case(f"{path.name}: {row}", files, expected=fault(2, f"platform {answer}"))


def unescaped_bytes(text):
    """A text whose `\\xHH` are bytes."""
    parts = re.split(r"\\x([0-9A-F]{2})", text)
    return b"".join(bytes.fromhex(part) if i % 2 else part.encode() for i, part in enumerate(parts))


def fault(status, line):
    """A refusal: its line, and nothing is saved."""
    return Expected(status, f"fault {line}\n".encode(), judges_after=True)


def schedule_cases(path):
    """`N => TEXT => FAULT` or `N => TEXT => like OTHER`: a schedule of N processors that all come at once."""
    return [schedule_case(path, row) for row in lines_of(path)]


def schedule_case(path, row):
    n, text, answer = split(row)
    files = {"P": platform_of(int(n)).encode(), "I": zero_images("intel64", int(n)), "S": unescaped(text)}
    if answer.startswith("like"):
        like = {**files, "S": unescaped(answer.removeprefix("like").strip())}
        return Case(f"{path.name}: {row}", files, expected=Expected(status=0), like=like)
    return Case(f"{path.name}: {row}", files, expected=fault(4, f"schedule {answer}"))


def platform_of(n, kind="intel64"):
    status = ", ".join(['"prompt"'] * n)
    text = base("one_processor.toml").replace("processors = 1", f"processors = {n}")
    return text.replace('["prompt"]', f"[{status}]").replace("intel64", kind)


def image_cases(path):
    """`MAP COUNT, CHANGE, .. => FAULT`: an image file for the platform of one processor and the Intel 64 map."""
    cases = []
    for row in lines_of(path):
        images, answer = split(row)
        data = images_of([part.strip() for part in images.split(",")])
        files = {"P": base("one_processor.toml").encode(), "I": data, "S": b"0*"}
        cases.append(Case(f"{path.name}: {row}", files, expected=fault(3, f"images {answer}")))
    return cases


def word_cases(path):
    """`WORDS => STATUS LINE`: the words of a command, over files that are played, that are missing or that are too
    long by one byte. With `>full` behind the words the standard output takes nothing."""
    return [word_case(path, row) for row in lines_of(path)]


def known_files():
    """P, I and S are played; P= and S= too, and are as long as may be; P+, I+ and S+ are longer than is read."""
    files = {"P": base("one_processor.toml").encode(), "I": zero_images("intel64", 1), "S": b"1*3 0*15 1*3 0*6"}
    files["P="] = files["P"] + b"#" * (TOO_LONG["P"] - 1 - len(files["P"]))
    files["S="] = files["S"].rjust(TOO_LONG["S"] - 1)
    return files | {f"{name}+": bytes(length) for name, length in TOO_LONG.items()}


def word_case(path, row):
    line, answer = split(row)
    words = [word for word in line.split(" ") if word]
    is_full = words[-1:] == [">full"]
    words = words[:len(words) - is_full]
    status, _, told = answer.partition(" ")
    files = {name: data for name, data in known_files().items() if name in words}
    expected = fault(int(status), told.removeprefix("fault ")) if told else Expected(int(status))
    expected.judges_after = (bool(told) or is_full) and words[4:] != ["I"]
    return Case(f"{path.name}: {row}", files, words, expected, is_full=is_full)


WHOLE_WRITE = "1*3 0*18 1*3 0*6"


def write_cases(path):
    """`MAP REGISTER WIDTH VALUE => STATUS CHANGES`: a handler's write to its own processor, what the report says of
    it, and what changes in the image file. With `halt` behind the value the processor enters from HLT."""
    return [write_case(path, row) for row in lines_of(path)]


def write_case(path, row):
    write, answer = split(row)
    kind, register, width, value, *halt = write.split()
    status, _, changes = answer.partition(" ")
    platform = platform_of(1, kind) + (
        '\n[[handler]]\nname = "h0"\ntype = "root"\nanswer = "SUCCESS"\n'
        f'ops = [{{op = "write", cpu = 0, reg = "{register}", width = {width}, value = "{value}"}}]\n')
    if halt:
        platform += "\n[[cause]]\ncpu = 0\nvisit = 1\nhalt = true\n"
    images = zero_images(kind, 1)
    label = f"write:0:{register}:{width}:{int(value, 16)}:{status}"
    expected = Expected(0, lines={18: f"p0 inside look 1 {label}"}, judges_after=True)
    expected.after = after_of([part.strip() for part in changes.split(",")] if changes else ["unchanged"], images)
    files = {"P": platform.encode(), "I": images, "S": WHOLE_WRITE.encode()}
    return Case(f"{path.name}: {row}", files, expected=expected)


def rule_cases(path):
    """`CASE => CHANGE => line L rule R`: the report of a case of `played/`, changed, and the rule that it breaks."""
    cases = []
    for row in lines_of(path):
        name, change, broken = split(row)
        played = folder_case(HERE / "played" / name)
        cases.append(Case(f"{path.name}: {row}", played.files, broken=(change, broken)))
    return cases
