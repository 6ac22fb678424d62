"""The area for save states: where each processor's save state lies, and the relocation to it.

The rules are the project's own, after the Intel SDM's SMBASE relocation: each processor begins with SMBASE 30000H, and
gets one of its own where bit 17 of its SMM revision allows it.
"""
from registers import RELOCATION_BIT, bit

FIRST_SMBASE = 0x30000
ENTRY = 0x8000
SAVE_AREA = 1024
LOWEST = 0x40000
TILES = [2048, 4096, 8192, 16384, 32768]
PAGE = 4096


class LayoutFault(Exception):
    """The words of a refusal of a layout."""


class RelocationFault(Exception):
    """The words of a refusal of a relocation."""


def layout_of(smram, processors):
    """The SMBASE of each processor and the end of what they use. The first check that fails is the refusal."""
    if smram.tile not in TILES:
        raise LayoutFault(f"bad-tile {smram.tile}")
    if smram.code > smram.tile - SAVE_AREA:
        raise LayoutFault(f"code-too-long {smram.code}")
    if smram.base < LOWEST:
        raise LayoutFault(f"low {smram.base}")
    end = smram.base + (processors - 1) * smram.tile + ENTRY
    if end > smram.base + smram.size:
        raise LayoutFault(f"past-end {end}")
    return [smram.base - ENTRY + i * smram.tile for i in range(processors)], end


def relocate(smbases, registers):
    """Gives each processor its SMBASE. The first processor that can't be moved is the refusal."""
    for i, held in enumerate(registers):
        if not bit(held["REVISION"], RELOCATION_BIT):
            raise RelocationFault(f"no-relocation {i}")
        if held["SMBASE"] != FIRST_SMBASE:
            raise RelocationFault(f"not-default {i}")
    for smbase, held in zip(smbases, registers):
        held["SMBASE"] = smbase


def pool_area(smram, processors):
    """The start and the number of pages of the pool: from the layout's end, rounded up, to the area's last whole
    page."""
    if smram is None:
        return 0, 0
    start = -(-layout_of(smram, processors)[1] // PAGE) * PAGE
    return start, max(0, (smram.base + smram.size) // PAGE - start // PAGE)
