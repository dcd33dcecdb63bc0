"""Where each processor is at each entry of a trace: what its lane shows.

A trace says it but for two things, which are read off the rules of docs/MACHINE.md: whom an interrupt command starts,
and whom a write of the register block ejects.
"""

from dataclasses import dataclass

from blocks import Block
from names import DEFAULT_SMBASE, TILE, interrupt_of
from registers import Registers

ABSENT, WAITING, RUNNING, HALTED, DEFAULT, TSEG = "absent", "waiting", "running", "halted", "default", "tseg"

APM_CNT, SMI_EN = 0xB2, 0x630
APMC_EN = 1 << 5
BROADCAST = 1


class Machine:
    """Where all processors are, entry by entry."""

    def __init__(self, platform):
        self.platform = platform
        self.block = Block(platform)
        self.modes = [RUNNING if place in platform.boot else ABSENT for place in range(len(platform.apic))]
        self.smi_enabled = False

    def hits(self, entry):
        """What an entry sends to which present processors: None where it is no interrupt command and raises no SMI."""
        if entry.kind == "icr":
            interrupt = interrupt_of(self.platform, entry)
            return interrupt and (interrupt.kind, self.targets(entry.actor, interrupt.apic))
        if entry.kind == "out" and is_at(entry, APM_CNT, 1) and self.smi_enabled:
            everybody = range(len(self.modes)) if self.platform.features & BROADCAST else [entry.actor]
            return "SMI", self.present(everybody)
        return None

    def targets(self, sender, apic):
        """The present processors with this APIC ID, or all but the sender."""
        apics = self.platform.apic
        return self.present([k for k, other in enumerate(apics) if (k != sender if apic is None else other == apic)])

    def present(self, places):
        """Those of them that are present."""
        return [place for place in places if self.modes[place] != ABSENT]

    def step(self, entry, landing):
        """Moves on by an entry, and answers whose mode it changes to what. `landing` is where an SMI entry leads."""
        changed = self.changed(entry, landing)
        for place, mode in changed.items():
            self.modes[place] = mode
        return changed

    def changed(self, entry, landing):
        """The same, before it is noted."""
        ejected = self.block.step(entry)
        if ejected is not None:
            return {ejected: ABSENT}
        if entry.kind == "insert":
            return {entry.processor: WAITING}
        if entry.kind == "out" and is_at(entry, SMI_EN, 4):
            self.smi_enabled = bool(entry.value("value") & APMC_EN)
        if entry.kind == "icr":
            kind, hit = self.hits(entry) or (None, [])
            return {place: RUNNING for place in hit if kind == "SIPI" and self.modes[place] == WAITING}
        mode = {"smi": landing, "init": WAITING, "halt": HALTED, "rsm": RUNNING}.get(entry.kind)
        return {entry.actor: mode} if mode else {}


def is_at(entry, port, width):
    """A port access with this width."""
    return entry.value("place") == port and int(entry.text["width"]) == width


def landings(platform, entries):
    """Where each SMI entry leads, by its number: its processor's next lines alone have an instruction address.

    Where it has no such line any more, it is where its last RSM left it: a new processor at the default SMBASE.
    """
    ahead, found = {}, {}
    for entry in reversed(entries):
        if entry.kind == "smi":
            found[entry.number] = ahead.pop(entry.actor, None)
        elif entry.kind == "insert":
            ahead.pop(entry.processor, None)
        elif entry.address is not None:
            ahead[entry.actor] = DEFAULT if is_default(entry.address) else TSEG
    bases = dict.fromkeys(platform.boot, TSEG)
    for entry in entries:
        if entry.kind == "insert":
            bases[entry.processor] = DEFAULT
        elif entry.kind == "rsm" and is_default(entry.address):
            bases[entry.actor] = TSEG
        elif entry.kind == "smi":
            bases[entry.actor] = found[entry.number] = found[entry.number] or bases.get(entry.actor, TSEG)
    return found


class Latches:
    """Each processor's SMI latch: it is set by a hit, and cleared by the SMI's entry and by an eject."""

    def __init__(self):
        self.since, self.spans = {}, {}

    def step(self, entry, hit, changed):
        """Goes on by an entry, whom it hits with what, and whose mode it changes to what."""
        gone = [place for place, mode in changed.items() if mode == ABSENT]
        for place in [*gone, *([entry.actor] if entry.kind == "smi" else [])]:
            self.clear(place, entry.number)
        if hit and hit[0] == "SMI":
            for place in hit[1]:
                self.since.setdefault(place, entry.number)

    def clear(self, place, number):
        """The latch is cleared by this entry."""
        if place in self.since:
            self.spans.setdefault(place, []).append((self.since.pop(place), number))

    def closed(self, entries):
        """All spans, those that go on up to the last entry."""
        for place in list(self.since):
            self.clear(place, entries[-1].number + 1)
        return self.spans


def is_default(address):
    """An instruction address at the default SMBASE."""
    return DEFAULT_SMBASE <= address < DEFAULT_SMBASE + TILE


@dataclass
class Replay:
    """A trace, played: each processor's changes of mode by entry number, and from which entry to which it has an SMI latched.

    And of each entry whom it hits with what, and at which register it is.
    """

    changes: list
    hits: dict
    registers: dict
    latched: dict

    def spans(self, processor, first, last):
        """The modes of a processor over these entries, as number, number behind, mode."""
        changes = self.changes[processor]
        ends = [number for number, _ in changes[1:]] + [last + 1]
        for (begin, mode), end in zip(changes, ends, strict=True):
            begin, end = max(begin, first), min(end, last + 1)
            if begin < end:
                yield begin, end, mode

    def pending(self, processor, first, last):
        """Where an SMI is latched that the processor, outside SMM, hasn't taken yet, as number and number behind."""
        found = []
        for begin, end in self.latched.get(processor, []):
            for begun, ended, mode in self.spans(processor, max(begin, first), min(end - 1, last)):
                if mode in (DEFAULT, TSEG):
                    continue
                if found and found[-1][1] == begun:
                    begun, _ = found.pop()
                found.append((begun, ended))
        return found


def replay(platform, entries):
    """A mode changes with the entry that changes it, but for RSM, which is still made in SMM."""
    machine = Machine(platform)
    changes = [[(1, mode)] for mode in machine.modes]
    found = landings(platform, entries)
    registers = Registers(platform)
    hits, at, latches = {}, {}, Latches()
    for entry in entries:
        register = registers.step(entry)
        if register:
            at[entry.number] = register
        hit = machine.hits(entry)
        if hit:
            hits[entry.number] = hit
        changed = machine.step(entry, found.get(entry.number))
        latches.step(entry, hit, changed)
        for place, mode in changed.items():
            changes[place].append((entry.number + (entry.kind == "rsm"), mode))
    return Replay(changes, hits, at, latches.closed(entries))
