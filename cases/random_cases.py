"""Random cases. A case follows from its seed and its number alone.

Most are right platforms of 1 to 17 processors, now and then of 64, with images and schedules that get somewhere, and one of four
is finished; the rest have a fault in one of the files or in the words.
"""
import random

from player import Case  # it finds the modules of reference/
from reading import SIZES

# How often a case is of a kind: one processor whose handler writes, any platform, and a fault of each file or of the words.
WEIGHTS = {"writes": 12, "any": 56, "platform": 14, "images": 7, "schedule": 7, "words": 4}

REGISTERS = """GDTBASE IDTBASE LDTBASE GDTLIMIT LDTINFO ES CS SS DS FS GS LDTR_SEL TR_SEL DR7 DR6 R8 R9 R15 RAX RBX RCX RDX
    RSP RBP RSI RDI RIP RFLAGS CR0 CR3 CR4 IO LMA PROCESSOR_ID AUTO_HALT IO_RESTART""".split()
GUIDS = ["00112233-4455-6677-8899-aabbccddeeff", "{FFEEDDCC-BBAA-9988-7766-554433221100}",
         "0123456789abcdef0123456789ABCDEF", "urn:uuid:00112233-4455-6677-8899-AABBCCDDEEFF"]
STRANGE = [0, -1, 1, 2, 3, 64, 65, 256, 257, 4096, 4097, 65535, 65536, 2**63 - 1, -(2**63), 2**63, 1.5, True, False, "",
           "x", "root", "none", "v0", "v8", "0x", "0x1F", "0X1", "prompt", "RAX", [], [1], ["prompt"], [[]], {}, {"a": 1}]
# operations that use another processor, and how many
ALONE, WITH_OTHERS = ["set", "alloc", "free", "register", "unregister", "manage"], ["start", "launch", "check", "wait"]


def random_case(seed, number):
    """The case of a seed and a number."""
    draw = random.Random(f"{seed} {number}")
    kind = draw.choices(list(WEIGHTS), WEIGHTS.values())[0]
    tree = platform_tree(draw, kind not in ("any", "schedule"))
    n, files = tree["processors"], {}
    files["P"] = toml_of(tree, draw).encode()
    files["I"] = image_file(draw, tree["map"], n, "smram" in tree and draw.random() < 0.8)
    files["S"] = schedule_text(draw, n).encode()
    words = [draw.choice(["step", "step", "step", "finish"]), "P", "I", "S", "A"]
    if kind == "platform":
        files["P"] = faulty_platform(draw, tree)
    elif kind == "images":
        files["I"] = faulty_images(draw, files["I"], tree["map"], n)
    elif kind == "schedule":
        files["S"] = faulty_schedule(draw, files["S"])
    elif kind == "words":
        words = faulty_words(draw, words)
    return Case(f"random {seed} {number} ({kind})", files, words)


# ---- platforms

def platform_tree(draw, is_small):
    """A right platform as a tree of values; where that is asked, of one processor whose handler writes."""
    n = 1 if is_small else draw.choice([1, 1, 1, 2, 2, 2, 2, 3, 3, 3, 4, 4, 5, 8, 9, 16, 17, 64])
    visits = draw.choice([1, 1, 2, 3, 4, 16])
    looks = [1, 2, 3, 8] if n < 64 else [1, 2]
    tree = {"version": 1, "processors": n, "map": draw.choice(["intel64", "intel64", "ia32"]), "policy": "elected",
            "mode": "traditional", "polls": [draw.choice(looks), draw.choice(looks)], "visits": visits,
            "ops": draw.choice([1, 2, 3, 4, 5, 8, 64, 64, 64, 64, 64, 64])}
    if draw.random() < 0.3:
        tree["ids"] = draw.sample([0, 1, 2, 3, 17, 2**31, 2**63 - 1, *range(100, 164)], n)
    if not is_small:
        spread(draw, tree)
    if draw.random() < 0.4:
        tree["smram"] = area(draw, tree["processors"])
    count = 1 if is_small else draw.randint(1, min(visits, 3))
    tree["wave"] = [wave(draw, n, is_small) for _ in range(count)]
    tree["handler"] = handlers(draw, n, is_small)
    tree["procedure"] = [] if is_small and draw.random() < 0.8 else procedures(draw)
    tree["cause"] = causes(draw, n, visits)
    return {key: value for key, value in tree.items() if value != []}


def spread(draw, tree):
    """The choices that only some platforms have."""
    tree["mode"] = draw.choice(["traditional", "relaxed"])
    if draw.random() < 0.3:
        tree["policy"], tree["fixed"] = "fixed", draw.randrange(tree["processors"])


def area(draw, n):
    """An area for save states with a pool of a few pages; sometimes one whose layout is refused."""
    tile = draw.choice([2048, 4096, 8192, 16384, 32768])
    pages = draw.choice([0, 1, 2, 5])
    smram = {"base": draw.choice([0x40000, 0x80000, 0x81800]), "size": (n - 1) * tile + 0x8000 + pages * 4096,
             "tile": tile, "code": draw.choice([0, tile - 1024])}
    if draw.random() < 0.15:
        smram |= draw.choice([{"tile": 3000}, {"code": tile - 1023}, {"base": 0x3FFFF}, {"size": 0x7FFF}])
    return smram


def wave(draw, n, is_small):
    if is_small:
        return {"status": ["prompt"], "manage": ["root"]}
    arrivals = ["prompt"] * 12 + ["delayed", "blocked", "absent"]
    kinds = ["root"] * 8 + GUIDS
    return {"status": draw.choices(arrivals, k=n), "manage": draw.choices(kinds, k=draw.choice([0, 1, 1, 1, 2, 2, 3]))}


def handlers(draw, n, is_small):
    if is_small:
        ops = [operation(draw, "write", n) for _ in range(draw.choice([0, 1, 1, 2, 3, 5]))]
        return draw.choice([[], [handler(draw, 0, "root", ops)], [handler(draw, 0, "root", ops)]])
    names = ["write", "write", "read", "read", *ALONE, *WITH_OTHERS, *WITH_OTHERS, "launch"]
    made = []
    for place in range(draw.choice([0, 1, 1, 1, 2, 3])):
        ops = [operation(draw, draw.choice(names), n) for _ in range(draw.choice([0, 2, 4, 8, 12]))]
        made.append(handler(draw, place, draw.choice(["root"] * 14 + ["none", *GUIDS]), ops))
    return made


def handler(draw, place, kind, ops):
    answers = ["SUCCESS", "SUCCESS", "INTERRUPT_PENDING", "SOURCE_PENDING", "SOURCE_QUIESCED"]
    return {"name": f"h{place}", "type": kind, "answer": draw.choice(answers), "ops": ops}


def number(draw):
    return draw.choice([0, 1, 2, 3, 255, 256, 1 << draw.randrange(63), draw.getrandbits(63), hex(draw.getrandbits(64)),
                        "v0", f"v{draw.randrange(8)}"])


def small(draw):
    return draw.choice([0, 1, 1, 2, 3, "v0", "v0", "v0", f"v{draw.randrange(8)}"])


def operation(draw, word, n):
    """A right operation."""
    cpu = draw.choice([0, 0, n - 1, draw.randrange(n), n, 65535] if draw.random() < 0.3 else [draw.randrange(n)])
    into = f"v{draw.choice([0, 0, 0, 1, 7])}"
    register, width = draw.choice(REGISTERS), draw.choice([0, 1, 2, 4, 4, 8, 8, 9, 24])
    job = {"cpu": draw.choice([n - 1, n - 1, n // 2, cpu]), "procedure": draw.choice(["p0", "p0", "p0", "p1", "p9"]), "arg": number(draw), "into": into}
    keys = {
        "set": {"into": into, "value": number(draw)},
        "read": {"cpu": cpu, "reg": register, "width": width, "into": into},
        "write": {"cpu": cpu, "reg": register, "width": width, "value": number(draw)},
        "start": job, "launch": job, "check": {"token": small(draw)}, "wait": {"token": small(draw), "into": into},
        "alloc": {"size": draw.choice([0, 1, 64, 65, 1000, 2048, 2049, 4096, 9000, "v1"]), "into": into},
        "free": {"place": draw.choice(["v0", "v0", "v1", 0, 0x88000])},
        "register": {"handler": "h0", "type": draw.choice(["root", *GUIDS]), "into": into},
        "unregister": {"handle": small(draw)}, "manage": {"type": draw.choice(["root", *GUIDS])},
    }
    return {"op": word, **keys[word]}


def procedures(draw):
    return [{"name": f"p{i}", "act": draw.choice(["get", "put"]), "reg": draw.choice(REGISTERS + ["RAX", "RSP"] * 9)}
            for i in range(draw.choice([0, 1, 2, 2, 2]))]


def causes(draw, n, visits):
    places = [(cpu, visit) for cpu in range(n) for visit in range(1, visits + 1)]
    made = []
    for cpu, visit in draw.sample(places, min(len(places), draw.choice([0, 0, 1, 2]))):
        cause = {"cpu": cpu, "visit": visit}
        if draw.random() < 0.5:
            cause["halt"] = draw.random() < 0.7
        if draw.random() < 0.6:
            cause["io"] = {"port": draw.choice([0, 0xB2, 65535]), "length": draw.choice([1, 2, 4]),
                           "type": draw.choice([0, 1, 2, 3, 6, 7, 8, 9])}
        made.append(cause)
    return made


# ---- TOML

def toml_of(tree, draw):
    """The text of a tree, with tables and lists of tables in one of their forms."""
    def is_table(key, value):
        return key == "smram" and isinstance(value, dict)

    def is_list(value):
        return isinstance(value, list) and value and all(isinstance(item, dict) for item in value)
    inline = draw.random() < 0.2
    behind = {key: value for key, value in tree.items() if not inline and (is_table(key, value) or is_list(value))}
    front = [f"{key} = {toml_value(value)}" for key, value in tree.items() if key not in behind]
    if draw.random() < 0.3:
        draw.shuffle(front)
    lines = front
    for key, value in behind.items():
        for entry in value if isinstance(value, list) else [value]:
            lines += ["", f"[[{key}]]" if isinstance(value, list) else f"[{key}]"]
            lines += [f"{name} = {toml_value(item)}" for name, item in entry.items()]
    text = "\n".join(lines) + draw.choice(["\n", "", "\n# the end\n"])
    return text.replace("\n", "\r\n") if draw.random() < 0.05 else text


def toml_value(value):
    if isinstance(value, bool):
        return "true" if value else "false"
    if isinstance(value, str):
        return f'"{value}"'
    if isinstance(value, list):
        return "[" + ", ".join(map(toml_value, value)) + "]"
    if isinstance(value, dict):
        return "{" + ", ".join(f"{key} = {toml_value(item)}" for key, item in value.items()) + "}"
    return str(value)


# ---- faults

def places_of(value, path=()):
    """The paths of all values below a value."""
    items = value.items() if isinstance(value, dict) else enumerate(value) if isinstance(value, list) else ()
    for key, item in items:
        yield path + (key,)
        yield from places_of(item, path + (key,))


def faulty_platform(draw, tree):
    """A platform with one or two changes of its tree, or of its text."""
    if draw.random() < 0.5:
        tree = platform_tree(draw, False)
    text = toml_of(tree, draw)
    if draw.random() < 0.15:
        at = draw.randrange(len(text))
        return draw.choice([text[:at], text + text, text[:at] + draw.choice('=[]{}",x1\x00') + text[at + 1:]]).encode()
    for _ in range(draw.choice([1, 1, 2])):
        change(draw, tree)
    return toml_of(tree, draw).encode()


def change(draw, tree):
    """Puts a strange value at a place of a tree, takes the place away, or adds a key or an element."""
    *path, last = draw.choice(list(places_of(tree)))
    holder = tree
    for key in path:
        holder = holder[key]
    way = draw.choice(["put", "put", "take", "add"])
    if way == "put":
        holder[last] = draw.choice(STRANGE)
    elif way == "take":
        holder.pop(last)
    elif isinstance(holder, dict):
        holder[draw.choice(["zz", "aa", "fixed", "ids", "io", "halt", "A-1"])] = draw.choice(STRANGE)
    else:
        holder.append(draw.choice(holder))


def faulty_images(draw, data, kind, n):
    """An image file with another header, kind, count or length."""
    way = draw.randrange(4)
    if way == 0:
        at = draw.randrange(12)
        return data[:at] + bytes([draw.choice([0, 1, 2, 65, 255])]) + data[at + 1:]
    if way == 1:
        return data[:draw.randrange(len(data))]
    if way == 2:
        return data + bytes(draw.choice([1, SIZES[kind]]))
    return image_file(draw, draw.choice(list(SIZES)), min(64, n + draw.choice([0, 1])))


def faulty_schedule(draw, data):
    """A schedule with an item that is none, or with an actor that there isn't."""
    items = data.decode().split(" ")
    bad = ["0*", "*", "all*", "al", "00", "01", "0*0", "0*01", "0*65536", "+1", "-1", "99", "65535", "0\r", "\0",
           "all*65535 " * 40]
    items.insert(draw.randrange(len(items) + 1), draw.choice(bad))
    return " ".join(items).encode()


def faulty_words(draw, words):
    """Words of another form, or names of files that aren't there or can't be saved."""
    changed = list(words)
    at = draw.randrange(5)
    changed[at] = draw.choice(["X", "-x", "no/such", "step", "é"])
    return draw.choice([changed, changed, words[:at], words + ["B"]])


# ---- images and schedules

def image_file(draw, kind, n, moves=False):
    """Images of zeros or of random bytes, with a revision and an SMBASE of a few sorts; those that can be relocated,
    where that is asked."""
    size = SIZES[kind]
    header = b"SMIM" + bytes([1, 0, list(SIZES).index(kind), 0]) + n.to_bytes(4, "little")
    return header + b"".join(one_image(draw, size, moves) for _ in range(n))


def one_image(draw, size, moves):
    image = bytearray(draw.randbytes(size) if draw.random() < 0.6 else bytes(size))
    revision = draw.choice([0x30004, 0x30004, 0x30004, 0x30003, 0x20004, 0x10004, 0, draw.getrandbits(32)])
    smbase = draw.choice([0x30000, 0x30000, 0x30000, 0x40000])
    if moves:
        revision, smbase = revision | 0x20000, 0x30000
    image[size - 0x104:size - 0x100] = revision.to_bytes(4, "little")
    image[size - 0x108:size - 0x104] = smbase.to_bytes(4, "little")
    return bytes(image)


def schedule_text(draw, n):
    """Items that get somewhere: short and long turns, all at once, sometimes none."""
    if draw.random() < 0.05:
        return ""
    if draw.random() < 0.3:
        return f"all*{draw.choice([10, 40, 100, 400, 1000])}"
    first = f"{n}*{n + 2}" if draw.random() < 0.7 else ""
    items = [first] + [item(draw, n) for _ in range(draw.choice([5, 20, 60, 120, 200]))]
    if draw.random() < 0.3:
        items.append(f"all*{draw.choice([20, 100, 400])}")
    return draw.choice([" ", " ", "\n", "\t"]).join(items)


def item(draw, n):
    actor = draw.choice([str(draw.randint(0, n)), str(draw.randint(0, n)), "0", "all"])
    count = draw.choice([1, 1, 2, 3, 8, 20])
    return actor if count == 1 else f"{actor}*{count}"
