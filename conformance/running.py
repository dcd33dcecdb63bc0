"""Processors that run: SMI entry, RSM, INIT and latches on a QEMU without firmware, as rules with this machine's answers.

Processor 0 runs an image that only halts, and processor 1 waits for SIPI. The handler is put at SMBASE + 8000 through qtest: it
counts an entry in the word at SMBASE, waits until the byte at SMBASE + 10 is 1, counts an exit in the word at SMBASE + 4, and does
RSM. An SMI or INIT reaches one APIC ID as a message-signalled write of that delivery mode.
"""

import os
import time
from dataclasses import dataclass
from typing import Callable

from cases import Machine
from qemu import Qemu

LIMIT, SETTLE = 60, 0.5
MESSAGES = 0xFEE00000
SMI, INIT = 2, 5
DEFAULT, OTHER, CROOKED = 0x30000, 0x40000, 0x41000
SMBASE_FIELD, REVISION_FIELD = 0xFF00, 0xFEFC
# add 1 to the word at 0; wait while the byte at 10 is 0; add 1 to the word at 4; rsm
HANDLER = bytes.fromhex("2e66ff060000 2e803e100000 74f8 2e66ff060400 0faa")
TWO = Machine(count=2, boot=2, low=0x8000000, features=7, smram=True)
REQUESTED, OK = "etc/smi/requested-features", "etc/smi/features-ok"


def image():
    """64 KiB of HLT, with a reset vector that leads to a loop of it."""
    made = bytearray(b"\xf4" * 0x10000)
    made[0:3] = b"\xf4\xeb\xfd"
    made[0xFFF0:0xFFF5] = b"\xea\x00\x00\x00\xf0"
    return made


class Board(Qemu):
    """A QEMU of two processors that runs."""

    def __init__(self, program, folder):
        path = os.path.join(folder, "image")
        with open(path, "wb") as file:
            file.write(image())
        super().__init__(program, TWO, LIMIT, ["-cpu", "qemu64", "-bios", path])
        self.command("cont")
        self.settle()

    def settle(self):
        """Lets the processors come to where they stay."""
        time.sleep(SETTLE)

    def put(self, address, data):
        """Stores bytes."""
        for place, byte in enumerate(data):
            self.store(address + place, 1, byte)

    def handler(self, base, is_held):
        """Puts the handler of an SMBASE, which counts from 0."""
        self.put(base + 0x8000, HANDLER)
        self.store(base, 8, 0)
        self.hold(base, is_held)

    def hold(self, base, is_held):
        """Whether whoever is in the handler stays there."""
        self.store(base + 0x10, 1, 0 if is_held else 1)
        self.settle()

    def send(self, mode, apic):
        """An interrupt of a delivery mode to one processor."""
        self.store(MESSAGES | apic << 12, 4, mode << 8)
        self.settle()

    def entries(self, base=DEFAULT):
        """How often the handler was entered."""
        return self.load(base, 4)

    def exits(self, base=DEFAULT):
        """How often it came to its RSM."""
        return self.load(base + 4, 4)

    def negotiate(self, features):
        """Has features agreed on, as a firmware does."""
        files = self.files()
        self.place_power_block()
        control = files[REQUESTED] << 16 | 0x18
        self.put(0x1000, control.to_bytes(4, "big") + (8).to_bytes(4, "big") + (0x1010).to_bytes(8, "big"))
        self.store(0x1010, 8, features)
        self.write(0x518, 4, 0x00100000)
        self.write(0x510, 2, files[OK])

    def wake(self):
        """Takes processor 1 out of its wait for SIPI: TCG lets an SMI and RSM do that."""
        self.handler(DEFAULT, False)
        self.send(SMI, 1)
        self.handler(DEFAULT, True)


def commanded(board):
    """The SMI command with broadcast, to two processors that run."""
    board.negotiate(7)
    board.wake()
    board.write(0x630, 4, 0x21)
    board.write(0xB2, 1, 4)
    board.settle()
    return f"entries: {board.entries()}"


def entered(board):
    """An SMI to processor 0."""
    board.handler(DEFAULT, True)
    board.send(SMI, 0)
    fields = [board.load(DEFAULT + field, 4) for field in (SMBASE_FIELD, REVISION_FIELD)]
    return f"entries: {board.entries()}, SMBASE {fields[0]:08x}, revision {fields[1]:08x}"


def latched(board):
    """Four SMIs, of which three find the processor in SMM."""
    board.handler(DEFAULT, True)
    for _ in range(4):
        board.send(SMI, 0)
    before = board.entries()
    board.hold(DEFAULT, False)
    return f"entries: {before} before RSM, {board.entries()} in all"


def moved(board, smbase, revision=None):
    """An SMI whose handler saves another SMBASE, and one more after it."""
    for base in (DEFAULT, OTHER, CROOKED):
        board.handler(base, True)
    board.send(SMI, 0)
    board.store(DEFAULT + SMBASE_FIELD, 4, smbase)
    if revision is not None:
        board.store(DEFAULT + REVISION_FIELD, 4, revision)
    board.hold(DEFAULT, False)
    board.hold(DEFAULT, True)
    board.send(SMI, 0)
    where = [f"{base:08x}" for base in (OTHER, CROOKED) if board.entries(base)]
    return f"the next entry at {' '.join(where) or f'{DEFAULT:08x}'}"


def init_in_smm(board):
    """INIT to a processor in SMM, which then may leave."""
    board.wake()
    board.send(SMI, 1)
    board.send(INIT, 1)
    board.hold(DEFAULT, False)
    return f"entries: {board.entries()}, RSM: {board.exits()}"


def smi_before_init(board):
    """In SMM an SMI, and then INIT."""
    board.wake()
    for mode in (SMI, SMI, INIT):
        board.send(mode, 1)
    board.hold(DEFAULT, False)
    return f"entries: {board.entries()}"


def init_of_the_first(board):
    """INIT to processor 0, and two SMIs."""
    board.handler(DEFAULT, True)
    board.send(INIT, 0)
    board.send(SMI, 0)
    board.send(SMI, 0)
    return f"entries: {board.entries()}"


def init_after_a_move(board):
    """INIT to a processor with another SMBASE, and two SMIs: where one is entered."""
    board.wake()
    board.handler(OTHER, True)
    board.send(SMI, 1)
    board.store(DEFAULT + SMBASE_FIELD, 4, OTHER)
    board.hold(DEFAULT, False)
    board.handler(DEFAULT, True)
    board.send(INIT, 1)
    board.send(SMI, 1)
    board.send(SMI, 1)
    where = [f"{base:08x}" for base in (DEFAULT, OTHER) if board.entries(base)]
    return f"an entry at {' '.join(where)}" if where else "no entry"


def waiting(board):
    """An SMI to a processor that waits for SIPI."""
    board.handler(DEFAULT, True)
    board.send(SMI, 1)
    return f"entries: {board.entries()}"


@dataclass
class Rule:
    """A rule, what shows it, and what this machine answers by docs/MACHINE.md."""

    text: str
    shown: Callable
    here: str


RULES = [
    Rule("With broadcast a write of APM_CNT raises an SMI on all processors.", commanded, "entries: 2"),
    Rule(
        "SMI entry goes to SMBASE + 8000, and saves SMBASE and the revision 20064.",
        entered,
        "entries: 1, SMBASE 00030000, revision 00020064",
    ),
    Rule("A latch holds one SMI, which is taken after RSM.", latched, "entries: 1 before RSM, 2 in all"),
    Rule("RSM takes the SMBASE that is saved.", lambda board: moved(board, OTHER), "the next entry at 00040000"),
    Rule("RSM clears bits 15 to 0 of the SMBASE.", lambda board: moved(board, CROOKED), "the next entry at 00040000"),
    Rule("RSM doesn't look at the revision.", lambda board: moved(board, OTHER, 0x64), "the next entry at 00040000"),
    Rule("INIT leaves SMBASE.", init_after_a_move, "no entry"),
    Rule("In SMM INIT is latched, and taken after RSM.", init_in_smm, "entries: 1, RSM: 1"),
    Rule("Of an SMI and an INIT that are latched the SMI is taken first.", smi_before_init, "entries: 2"),
    Rule("INIT makes processor 0 wait for SIPI, as any other.", init_of_the_first, "entries: 0"),
    Rule("A processor that waits for SIPI latches an SMI, and takes it once it is started.", waiting, "entries: 0"),
]
