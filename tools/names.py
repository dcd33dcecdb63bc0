"""Names for what a trace has as numbers: labels, shared bytes, interrupt commands, the numbers of outcomes.

All addresses are computed from the trace's header, as docs/HANDLERS.md has them: the default area's are fixed, those in
TSEG follow from the end of RAM, the size of TSEG and a slot.
"""

from dataclasses import dataclass

from traces import OUTCOMES

FIRST = "F1 F2 F3 F4 F5 F6".split()
RELOCATED = "R1 R2 R3 R4 R5 R6".split()
# In the order of their cells: the labels that look whether an eject went through came last.
MONARCH = (
    "S0 S1 S2 S3 S4 C1 C2 C3 C4 C5 C6 NB N0 N1 N2 N3 N4 N5 N6 N7 N8a N8b N9 N10 N11 "
    "E0 E1 E2 E3 E4a E4b E4c E4d E4e T E5 E6 E7 E4f E4g E4h"
).split()

DEFAULT_SMBASE = 0x30000
DEFAULT_AREA_END = 0x50000
ENTRY = 0x8000  # where SMI entry leads, from SMBASE on; the cells of the labels begin there
TILE = 0x10000

# address and width in bytes
FIXED = {
    (0x30000, 8): "gate",
    (0x30008, 4): "new_smbase",
    (0x3000C, 1): "flag",
    (0x3FF00, 4): "saved_smbase",
    (0x9F000, 4): "pen_mark",
    (0x9F010, 1): "pen_byte",
}
# one byte a slot, each array 0x1000 after the one before it
ARRAYS = ["arrived", "release", "map", "parked"]
ARRAY = 0x1000
SESSION = 0x4000


@dataclass
class Interrupt:
    """What an interrupt command sends, and to whom: one APIC ID, or None for all others."""

    kind: str
    page: int | None
    apic: int | None


def label_at(platform, address):
    """The label whose cell has this address, None where none has."""
    if DEFAULT_SMBASE <= address < DEFAULT_SMBASE + TILE:
        return label_in(FIRST, address - DEFAULT_SMBASE)
    slot, offset = divmod(address - platform.tile(0), TILE)
    if not 0 <= slot < len(platform.apic):
        return None
    return label_in(RELOCATED if slot else MONARCH, offset)


def label_in(labels, offset):
    """The label of a handler at this offset from its SMBASE."""
    index, rest = divmod(offset - ENTRY, 4)
    return labels[index] if rest == 0 and 0 <= index < len(labels) else None


def place_at(platform, address, width):
    """The name of a shared word, or of a label's cell, that this access has as a whole; None for other memory."""
    if (address, width) in FIXED:
        return FIXED[address, width]
    array, slot = divmod(address - platform.tseg, ARRAY)
    if width == 1 and 0 <= array < len(ARRAYS) and slot < len(platform.apic):
        return f"{ARRAYS[array]}[{slot}]"
    if width == 1 and address == platform.tseg + SESSION:
        return "session"
    label = label_at(platform, address) if width == 4 else None
    return label and f"cell[{label}]"


def reached(platform, entry):
    """The name of the memory that an entry's access reaches, None where it has none, or reaches no memory."""
    if entry.kind not in ("load", "store", "cas"):
        return None
    return place_at(platform, entry.value("place"), int(entry.text.get("width") or 8))


def is_hole(platform, entry):
    """An access to memory with a byte past RAM, or outside SMM with a byte that is locked since the boot."""
    if entry.kind not in ("load", "store", "cas"):
        return False
    first = entry.value("place")
    end = first + int(entry.text.get("width") or 8)
    is_open = entry.address is not None or entry.number <= platform.boot_count
    is_in_default = first < DEFAULT_AREA_END and end > DEFAULT_SMBASE
    return end > platform.low or not is_open and (is_in_default or end > platform.tseg)


def interrupt_of(platform, entry):
    """What an interrupt command delivers, None where its delivery mode or shorthand does nothing."""
    high, low = entry.value("high"), entry.value("low")
    kind = {2: "SMI", 5: "INIT", 6: "SIPI"}.get(low >> 8 & 7)
    shorthand = low >> 18 & 3
    if kind is None or shorthand not in (0, 3):
        return None
    page = low & 0xFF if kind == "SIPI" else None
    apic = None if shorthand == 3 else high if platform.x2apic else high >> 24
    return Interrupt(kind, page, apic)


def outcome_of(entry):
    """What is told: its word, and its numbers by name."""
    outcome = entry.text["outcome"]
    return outcome, dict(zip(OUTCOMES[outcome], entry.text["numbers"].split(), strict=True))
