"""Save-state images and the files that hold them.

An image is the last 1,024 bytes (Intel 64 map) or 512 bytes (32-bit map) below SMBASE + 10000H. Fields are
little endian, at the offsets of the Intel SDM, volume 3, "System Management Mode"; the rows of the LDT, IDT and
GDT base and of CR4 in the Intel 64 map are the project's own.
"""

SIZES = {"ia32": 512, "intel64": 1024}

HALT, RESTART, IO_STATE, IO_ADDRESS = "AUTO_HALT", "IO_RESTART", "IO_STATE", "IO_MEM_ADDR"


def rows(width, text):
    """Fields of one width from a text of names and hexadecimal offsets."""
    words = text.split()
    return {name: (int(offset, 16), width) for name, offset in zip(words[::2], words[1::2])}


# Each field's offset from SMBASE + 8000H and its width in bytes.
FIELDS = {
    "intel64": {
        **rows(8, """CR0 7FF8 CR3 7FF0 RFLAGS 7FE8 IA32_EFER 7FE0 RIP 7FD8 DR6 7FD0 DR7 7FC8 IO_MEM_ADDR 7F9C
            RDI 7F94 RSI 7F8C RBP 7F84 RSP 7F7C RBX 7F74 RDX 7F6C RCX 7F64 RAX 7F5C R8 7F54 R9 7F4C R10 7F44
            R11 7F3C R12 7F34 R13 7F2C R14 7F24 R15 7F1C"""),
        **rows(4, """TR 7FC4 LDTR 7FC0 GS 7FBC FS 7FB8 DS 7FB4 SS 7FB0 CS 7FAC ES 7FA8 IO_STATE 7FA4
            REVISION 7EFC SMBASE 7EF8 LDT_LOW 7E9C IDT_LOW 7E94 GDT_LOW 7E8C CR4 7E40 IDT_HIGH 7DD8
            LDT_HIGH 7DD4 GDT_HIGH 7DD0"""),
        **rows(2, "AUTO_HALT 7F02 IO_RESTART 7F00"),
    },
    # EAX stands here as RAX, EFLAGS as RFLAGS, EIP as RIP and so on: one name for each meaning
    "ia32": {
        **rows(4, """CR0 7FFC CR3 7FF8 RFLAGS 7FF4 RIP 7FF0 RDI 7FEC RSI 7FE8 RBP 7FE4 RSP 7FE0 RBX 7FDC
            RDX 7FD8 RCX 7FD4 RAX 7FD0 DR6 7FCC DR7 7FC8 TR 7FC4 GS 7FBC FS 7FB8 DS 7FB4 SS 7FB0 CS 7FAC
            ES 7FA8 IO_STATE 7FA4 IO_MEM_ADDR 7FA0 REVISION 7EFC SMBASE 7EF8"""),
        **rows(2, "AUTO_HALT 7F02 IO_RESTART 7F00"),
    },
}

# The fields that a handler may write. SMBASE is written by relocation alone.
WRITABLE = set("""RFLAGS IA32_EFER RIP RDI RSI RBP RSP RBX RDX RCX RAX R8 R9 R10 R11 R12 R13 R14 R15
    AUTO_HALT IO_RESTART SMBASE""".split())


class Image:
    """The save state of one processor: the map and the bytes."""

    def __init__(self, kind, data):
        self.kind = kind
        self.data = bytearray(data)

    def copy(self):
        return Image(self.kind, self.data)

    def place(self, field):
        """Where a field's bytes stand in the image, or None where the map hasn't the field."""
        if field not in FIELDS[self.kind]:
            return None
        offset, width = FIELDS[self.kind][field]
        start = offset - (0x8000 - SIZES[self.kind])
        return slice(start, start + width)

    def get(self, field):
        """The number in a field, or None where the map hasn't it."""
        place = self.place(field)
        return None if place is None else int.from_bytes(self.data[place], "little")

    def set(self, field, number):
        """Puts a number that fits into a field that the map has."""
        place = self.place(field)
        self.data[place] = number.to_bytes(place.stop - place.start, "little")


class ImagesFault(Exception):
    """The words of a refusal of an image file."""


MAGIC = b"SMIM"
KINDS = ["ia32", "intel64"]


def read_images(data):
    """The images of a file: `SMIM`, version 1 (2 bytes), kind (2), count (4), then the images without gaps.
    The first check that fails is the refusal."""
    if len(data) < 12:
        raise ImagesFault(f"short {len(data)}")
    version, kind, count = (int.from_bytes(data[a:b], "little") for a, b in ((4, 6), (6, 8), (8, 12)))
    if data[:4] != MAGIC:
        raise ImagesFault("magic")
    if version != 1:
        raise ImagesFault(f"version {version}")
    if kind > 1:
        raise ImagesFault(f"kind {kind}")
    if not 1 <= count <= 64:
        raise ImagesFault(f"count {count}")
    size = SIZES[KINDS[kind]]
    if len(data) != 12 + count * size:
        raise ImagesFault(f"{'short' if len(data) < 12 + count * size else 'long'} {len(data)}")
    return [Image(KINDS[kind], data[12 + i * size:12 + (i + 1) * size]) for i in range(count)]


def write_images(images):
    """The file of some images of one kind."""
    header = MAGIC + (1).to_bytes(2, "little") + KINDS.index(images[0].kind).to_bytes(2, "little")
    return header + len(images).to_bytes(4, "little") + b"".join(bytes(image.data) for image in images)
