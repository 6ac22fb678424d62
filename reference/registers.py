"""Registers: what entering saves, what resuming loads, and the register service of handlers.

Entering and resuming are after the Intel SDM, volume 3; the service's register numbers and names are those of the
UEFI PI specification, volume 4. The order of its cases and their statuses are the project's own.
"""
from images import FIELDS, HALT, IO_ADDRESS, IO_STATE, RESTART, WRITABLE

# Each register of the service: its number and the fields that hold it, low part first.
REGISTERS = {
    "GDTBASE": (4, ["GDT_LOW", "GDT_HIGH"]), "IDTBASE": (5, ["IDT_LOW", "IDT_HIGH"]),
    "LDTBASE": (6, ["LDT_LOW", "LDT_HIGH"]),
    "GDTLIMIT": (7, []), "IDTLIMIT": (8, []), "LDTLIMIT": (9, []), "LDTINFO": (10, []),
    **{name: (20 + i, [name]) for i, name in enumerate("ES CS SS DS FS GS".split())},
    "LDTR_SEL": (26, ["LDTR"]), "TR_SEL": (27, ["TR"]), "DR7": (28, ["DR7"]), "DR6": (29, ["DR6"]),
    **{f"R{i}": (22 + i, [f"R{i}"]) for i in range(8, 16)},
    **{name: (38 + i, [name]) for i, name in enumerate("RAX RBX RCX RDX RSP RBP RSI RDI".split())},
    "RIP": (46, ["RIP"]), "RFLAGS": (51, ["RFLAGS"]), "CR0": (52, ["CR0"]), "CR3": (53, ["CR3"]),
    "CR4": (54, ["CR4"]), "IO": (512, []), "LMA": (513, []), "PROCESSOR_ID": (514, []),
    "AUTO_HALT": (1024, [HALT]), "IO_RESTART": (1025, [RESTART]),
}

# The fields that an entry makes anew; no register of the processor holds them.
OF_THE_ENTRY = {HALT, RESTART, IO_STATE, IO_ADDRESS}

REVISION_WITH_IO = 0x30004
RESTART_BIT, RELOCATION_BIT = 16, 17
GO_AGAIN = 0x00FF

SUCCESS, INVALID, UNSUPPORTED, NOT_FOUND = "SUCCESS", "INVALID_PARAMETER", "UNSUPPORTED", "NOT_FOUND"


def bit(number, place):
    return number >> place & 1


def registers_of(image):
    """The registers that an image holds: every field but those that an entry makes anew."""
    return {field: image.get(field) for field in FIELDS[image.kind] if field not in OF_THE_ENTRY}


def io_state(io):
    """The I/O state of an instruction: bit 0 set, length in bits 1 to 3, type from bit 4, port from bit 16."""
    return 0 if io is None else 1 | io.length << 1 | io.type << 4 | io.port << 16


def enter(registers, cause, image):
    """Saves the registers and the cause of the visit into the image. Bytes of no field stay."""
    for field, number in registers.items():
        image.set(field, number)
    image.set(HALT, 1 if cause.halt else 0)
    image.set(RESTART, 0)
    image.set(IO_STATE, io_state(cause.io))
    image.set(IO_ADDRESS, 0)


def after(image):
    """How the processor goes on when it resumes: at HLT, at the I/O instruction again, or at the next one."""
    if bit(image.get(HALT), 0):
        return "halt"
    restarts = bit(image.get("REVISION"), RESTART_BIT) and bit(image.get(IO_STATE), 0)
    return "retry" if restarts and image.get(RESTART) == GO_AGAIN else "next"


def parts(image, register):
    """The places of a register's bytes in an image, low part first; none where the map hasn't the register."""
    places = [image.place(field) for field in REGISTERS[register][1]]
    return [] if None in places else places


def own_width(image, register):
    """A register's bytes; 8 where the map hasn't it."""
    special = {"IO": 24, "LMA": 1, "PROCESSOR_ID": 8}
    width = sum(place.stop - place.start for place in parts(image, register))
    return special.get(register, width or 8)


def io_answer(image):
    """The 24 bytes of the register IO, or None where the image tells of no I/O instruction: the data (8), the
    port (2), zeros (2), the width (4), the type (4: 1 input, 2 output), zeros (4)."""
    state = image.get(IO_STATE)
    length, kind, port = state >> 1 & 7, state >> 4 & 15, state >> 16
    if image.get("REVISION") < REVISION_WITH_IO or not bit(state, 0):
        return None
    if length not in (1, 2, 4) or kind not in (0, 1, 8, 9):
        return None
    data = image.get("RAX") % 256**length
    width, way = {1: 0, 2: 1, 4: 2}[length], 1 if kind in (1, 9) else 2
    numbers = ((data, 8), (port, 2), (0, 2), (width, 4), (way, 4), (0, 4))
    return b"".join(number.to_bytes(size, "little") for number, size in numbers)


def mode_of(image):
    """The register LMA: 64 where bit 10 of IA32_EFER is set, else 32."""
    return 64 if bit(image.get("IA32_EFER") or 0, 10) else 32


def read_register(image, present, number, register, width):
    """The status of a read and, with SUCCESS, the bytes; the first case that holds decides."""
    if width == 0:
        return INVALID, b""
    if register == "PROCESSOR_ID":
        if not present:
            return NOT_FOUND, b""
        return (SUCCESS, number.to_bytes(8, "little")) if width == 8 else (INVALID, b"")
    if not present:
        return INVALID, b""
    if register == "LMA":
        return (SUCCESS, bytes([mode_of(image)])) if width == 1 else (INVALID, b"")
    if register == "IO":
        if width != 24:
            return INVALID, b""
        answer = io_answer(image)
        return (NOT_FOUND, b"") if answer is None else (SUCCESS, answer)
    places = parts(image, register)
    if not places:
        return NOT_FOUND, b""
    if width > own_width(image, register):
        return INVALID, b""
    return SUCCESS, b"".join(bytes(image.data[place]) for place in places)[:width]


def write_register(image, present, register, data):
    """The status of a write, which changes the register's low bytes with SUCCESS alone; the first case that holds
    decides."""
    if not data:
        return INVALID
    if register == "PROCESSOR_ID":
        return SUCCESS
    if not present:
        return INVALID
    if register == "LMA":
        return SUCCESS
    places = parts(image, register)
    if register == "IO" or not places:
        return NOT_FOUND
    if not set(REGISTERS[register][1]) <= WRITABLE:
        return UNSUPPORTED
    if len(data) > own_width(image, register):
        return INVALID
    if register == "AUTO_HALT" and bit(data[0], 0) and not bit(image.get(HALT), 0):
        return UNSUPPORTED
    start = places[0].start
    image.data[start:start + len(data)] = data
    return SUCCESS
