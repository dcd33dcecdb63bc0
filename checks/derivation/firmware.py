"""The firmware, by the tables of docs/HANDLERS.md. A handler is a generator: it yields its label and what it does, and is sent the answer."""

GATE, NEW_SMBASE, FLAG, SAVED_SMBASE = 0x30000, 0x30008, 0x3000C, 0x3FF00
CLOSED = 2**64 - 1
SELECTOR, STATUS, COMMAND, DATA = 0xCD8, 0xCDC, 0xCDD, 0xCE0
PEN = 0x9F
RSM = ("rsm",)
# each label's place in its handler: its cell is 4 bytes long
MONARCH = ("S0 S1 S2 S3 S4 C1 C2 C3 C4 C5 C6 NB N0 N1 N2 N3 N4 N5 N6 N7 N8a N8b N9 N10 N11 "
           "E0 E1 E2 E3 E4a E4b E4c E4d E4e T E5 E6 E7 E4f E4g E4h").split()
INDICES = {label: index for index, label in enumerate(MONARCH)}
INDICES |= {f"{handler}{number}": number - 1 for handler in "FR" for number in range(1, 7)}


class BootRefused(Exception):
    """The boot is refused, by the value that was read."""


def boot(platform):
    """The boot sequence: yields each access, and is sent its answer. Raises where a check reads another value."""
    for access in (("out", 4, SELECTOR, 0), ("out", 4, SELECTOR, 0), ("out", 1, COMMAND, 0)):
        yield access
    value = yield ("in", 4, SELECTOR)
    if value != 0:
        raise BootRefused(f"command data 2 read {value:08x}")
    yield ("cfgw", 0x9C, 0xFF)
    value = yield ("cfgr", 0x9C)
    if value != 1:
        raise BootRefused(f"register 9c read {value:02x}")
    yield ("store", 4, PEN << 12, int.from_bytes(b"PEN\0", "little"))
    for number in range(6):
        yield ("store", 4, 0x38000 + 4 * number, 0x53000001 + number)
    yield ("store", 8, GATE, CLOSED)
    yield ("cfgw", 0x9C, 2)
    if platform.tseg_mib == 48:
        yield ("cfgw", 0x50, 0xFF)
        value = yield ("cfgr", 0x50)
        if value != 0x30:
            raise BootRefused(f"register 50 read {value:02x}")
    yield ("cfgw", 0x9E, {1: 1, 2: 3, 8: 5, 48: 7}[platform.tseg_mib])
    yield ("cfgw", 0x9D, 0x18)
    yield ("store", 8, 0x1000, 0x080000000A002200)
    yield ("store", 8, 0x1008, 0x1010000000000000)
    yield ("out", 4, 0x518, 0x00100000)
    features = yield ("load", 8, 0x1010)
    yield ("store", 8, 0x1000, 0x0800000018002100)
    yield ("store", 8, 0x1010, features & 7)
    yield ("out", 4, 0x518, 0x00100000)
    yield ("out", 2, 0x510, 0x20)
    value = yield ("in", 1, 0x511)
    if value != 1:
        raise BootRefused(f"features-ok read {value:02x}")
    yield ("out", 4, 0x630, 0x21)


class Firmware:
    """What is kept from one session to the next: who has a slot, who is known, whose add isn't complete."""

    def __init__(self, platform):
        self.platform = platform
        self.bound = [platform.apic[place] for place in platform.boot]
        self.known = set(self.bound)
        self.held = None
        self.arrivals = {}

    def shared(self, kind, slot):
        """The address of one of the bytes that handlers share."""
        return self.platform.tseg + 0x1000 * ("arrived", "release", "map", "parked", "session").index(kind) + slot

    def put(self, label, kind, slot, value):
        """Stores one of these bytes."""
        return label, ("store", 1, self.shared(kind, slot), value)

    def get(self, label, kind, slot):
        """Loads one."""
        return label, ("load", 1, self.shared(kind, slot))

    def handler(self, place, smbase):
        """What a processor does after its SMI entry."""
        if place == 0:
            return self.session()
        if smbase == 0x30000:
            return self.first(self.platform.apic[place])
        return self.relocated((smbase - self.platform.tile(0)) >> 16)

    def first(self, apic):
        """The first handler."""
        while (yield "F1", ("cas", GATE, apic, CLOSED)) != apic:
            pass
        base = yield "F2", ("load", 4, NEW_SMBASE)
        yield "F3", ("store", 4, SAVED_SMBASE, base)
        yield "F4", ("store", 1, FLAG, 1)
        yield "F5", ("icr", self.platform.high_half(apic), 0x200)
        yield "F6", RSM

    def relocated(self, slot):
        """The relocated handler."""
        while True:
            yield self.put("R1", "arrived", slot, 1)
            while (yield self.get("R2", "map", slot)) == 1:
                yield self.put("R6", "parked", slot, 1)
            if (yield self.get("R3", "release", slot)) == 1:
                break
        yield self.put("R4", "arrived", slot, 0)
        yield "R5", RSM

    def session(self):
        """The monarch, from its SMI entry to its RSM."""
        self.arrivals = {}
        yield self.put("S0", "session", 0, 1)
        for slot in range(1, len(self.bound)):
            yield self.put("S1", "release", slot, 0)
        yield "S2", ("icr", 0, 0x000C0200)
        for slot in range(1, len(self.bound)):
            if self.bound[slot] in self.known:
                yield from self.look("S3", slot)
        if (yield "S4", ("in", 1, 0xB2)) == 4:
            for report in (yield from self.collection()):
                yield from self.answer(*report)
        yield self.put("E5", "session", 0, 0)
        for slot in range(1, len(self.bound)):
            yield self.put("E6", "release", slot, 1)
        yield "E7", RSM

    def look(self, label, slot):
        """Looks at an arrived byte until it is 1, `polls` times at most; whether it was."""
        for _ in range(self.platform.polls):
            self.arrivals[slot] = yield self.get(label, "arrived", slot)
            if self.arrivals[slot] == 1:
                return True
        return False

    def collection(self):
        """The reports: place, status, APIC ID."""
        reports, place = [], 0
        while place < len(self.platform.apic):
            yield "C1", ("out", 4, SELECTOR, place)
            yield "C2", ("out", 1, COMMAND, 0)
            found = yield "C3", ("in", 4, DATA)
            if not place <= found < len(self.platform.apic):
                break
            status = yield "C4", ("in", 1, STATUS)
            if status & 0x12:
                yield "C5", ("out", 1, COMMAND, 3)
                reports.append((found, status, (yield "C6", ("in", 4, DATA))))
            place = found + 1
        return reports

    def answer(self, place, status, apic):
        """What becomes of a report."""
        outcome = self.refusal(place, status, apic)
        if outcome is None:
            outcome = yield from self.add(place, apic) if status & 2 else self.eject(place, apic)
        yield "T", ("tell", *outcome)
        if outcome[0] == "added":
            self.known.add(apic)
            self.held = None
        elif outcome[0] == "ejected":
            self.known.remove(apic)

    def refusal(self, place, status, apic):
        """The outcome of one that is refused at once."""
        if place == 0 or apic != self.platform.apic[place]:
            return "foreign", place, apic
        if not status & 1:
            return "disabled", place, f"{status:02x}"
        if status & 0x12 == 0x12:
            return "both", place, f"{status:02x}"
        if status & 2:
            if apic in self.known:
                return "alreadyknown", place, apic, self.bound.index(apic)
            return ("gateheld", place, apic, self.held) if self.held not in (None, apic) else None
        if not self.platform.features & 4:
            return "nounplug", place, self.platform.features
        if apic not in self.known:
            return "notknown", place, apic
        return ("notarrived", place, apic) if self.arrivals.get(self.bound.index(apic)) == 0 else None

    def add(self, place, apic):
        """An add."""
        if apic not in self.bound:
            self.bound.append(apic)
        self.held = apic
        slot, high = self.bound.index(apic), self.platform.high_half(apic)
        yield self.put("NB", "release", slot, 0)
        for _ in range(3):
            yield self.put("N0", "arrived", slot, 0)
            yield "N1", ("store", 1, FLAG, 0)
            yield "N2", ("store", 4, NEW_SMBASE, self.platform.tile(slot))
            for label, low in (("N3", 0x200), ("N4", 0x500), ("N5", 0x600 | PEN), ("N6", 0x600 | PEN)):
                yield label, ("icr", high, low)
            yield "N7", ("store", 8, GATE, apic)
            has_passed = yield from self.watch(slot)
            yield "N9", ("store", 8, GATE, CLOSED)
            if has_passed:
                yield self.put("N10", "arrived", slot, 0)
                if (yield from self.look("N11", slot)):
                    return "added", place, apic, slot
        return "notcheckedin" if has_passed else "notatgate", place, apic

    def watch(self, slot):
        """Looks at flag and arrived byte while the gate is open; whether one was 1."""
        for _ in range(self.platform.polls):
            if (yield "N8a", ("load", 1, FLAG)) == 1:
                return True
            self.arrivals[slot] = yield self.get("N8b", "arrived", slot)
            if self.arrivals[slot] == 1:
                return True
        return False

    def eject(self, place, apic):
        """An eject."""
        slot = self.bound.index(apic)
        yield self.put("E0", "parked", slot, 0)
        yield self.put("E1", "map", slot, 1)
        for _ in range(self.platform.polls):
            if (yield self.get("E2", "parked", slot)) == 1:
                break
        else:
            yield self.put("E3", "map", slot, 0)
            return "notparked", place, apic
        yield "E4a", ("out", 4, SELECTOR, place)
        yield "E4b", ("out", 1, STATUS, 8)
        if self.platform.is_late:
            yield "E4f", ("out", 4, SELECTOR, place)
            status = yield "E4g", ("in", 1, STATUS)
            if status & 0x10:
                yield self.put("E4h", "map", slot, 0)
                return "stillpending", place, f"{status:02x}"
        for label, kind in (("E4c", "arrived"), ("E4d", "map"), ("E4e", "parked")):
            yield self.put(label, kind, slot, 0)
        return "ejected", place, apic, slot
