"""Plays a case on a stopped QEMU, line by line: what QEMU answers, beside what is wanted."""

from dataclasses import dataclass

from cases import Line
from qemu import CONTROLLER, Ended, Qemu

# QEMU's own heap damage after ejects under TCG ends it now and then; what it answers is the same each time
TRIES = 8
LIMIT = 30

SAME, DIFFERENT, NOT_PLAYED = "SAME", "DIFF", "NOT PLAYED"
# the keys that this machine has fixed, and QEMU's directory tells
FILES = {0x20: "etc/smi/features-ok", 0x21: "etc/smi/requested-features", 0x22: "etc/smi/supported-features"}
# keys of no item, in place of files that QEMU doesn't have
NO_ITEM = 0x7F00
SELECT, KNOWN_BITS = 8, 0x1F


@dataclass
class Played:
    """A line that was played: its verdict, None where nothing is compared, and what was found in its stead."""

    line: Line
    verdict: str | None = None
    found: str = ""

    def __str__(self):
        """The line, and behind it how it came out."""
        verdict = f"{self.verdict} {self.found}".strip() if self.verdict else ""
        return f"{self.line.text:<44} {verdict}".rstrip()


def big(value, width):
    """A number of so many bytes, turned round."""
    return int.from_bytes(value.to_bytes(width, "little"), "big")


def keyed(words, keys):
    """An access with QEMU's key: a selection, or the first half of a transfer's descriptor that selects one of the files."""
    if words[:3] == ["out", "2", "0510"] and int(words[3], 16) in keys:
        return [*words[:3], f"{keys[int(words[3], 16)]:04x}"]
    if words[:2] != ["store", "8"]:
        return words
    half = big(int(words[3], 16), 8)
    control, length = divmod(half, 1 << 32)
    key, bits = divmod(control, 1 << 16)
    if key not in keys or not bits & SELECT or bits & ~KNOWN_BITS:
        return words
    turned = big(keys[key] << 48 | bits << 32 | length, 8)
    return [*words[:3], f"{turned:016x}"]


class Player:
    """The QEMU of the machine that began last, and the keys of its files."""

    def __init__(self, program, limit):
        self.program, self.limit = program, limit
        self.qemu, self.keys = None, {}

    def begin(self, machine):
        """A new QEMU."""
        self.close()
        self.qemu = Qemu(self.program, machine, self.limit)
        there = self.qemu.files()
        self.keys = {key: there.get(name, NO_ITEM + key) for key, name in FILES.items()}
        if machine.is_placed:
            self.qemu.place_power_block()

    def close(self):
        """Ends it."""
        if self.qemu:
            self.qemu.close()

    def host(self, what, place, wanted):
        """A host event: refused or not, as wanted or not."""
        refusal = (self.qemu.insert if what == "insert" else self.qemu.remove)(int(place))
        if bool(refusal) == (wanted == "never"):
            return SAME, ""
        return DIFFERENT, f"refused: {refusal}" if refusal else "accepted"

    def access(self, words):
        """What QEMU answers to an access, and how many bytes; None to a write."""
        kind, *rest = keyed(words, self.keys)
        if kind in ("cfgr", "cfgw"):
            register, *value = (int(word, 16) for word in rest)
            return self.qemu.configuration(CONTROLLER, register, 1, *value), 1
        width, place, *value = int(rest[0]), *(int(word, 16) for word in rest[1:])
        calls = {"in": self.qemu.read, "out": self.qemu.write, "load": self.qemu.load, "store": self.qemu.store}
        if kind == "config":
            return self.qemu.configuration(CONTROLLER, place, width, *value), width
        return calls[kind](place, width, *value), width

    def play(self, line):
        """One line."""
        if line.machine:
            self.begin(line.machine)
            return Played(line)
        if not line.words:
            return Played(line, NOT_PLAYED)
        if line.kind == "place":
            self.qemu.place_power_block()
            return Played(line)
        if line.kind in ("insert", "remove"):
            return Played(line, *self.host(*line.words))
        found, width = self.access(line.words)
        if line.wanted is None:
            return Played(line)
        if found == line.wanted:
            return Played(line, SAME)
        return Played(line, DIFFERENT, f"{found:0{2 * width}x}")


def by_machine(case):
    """The case's lines in groups, each from one machine's beginning on."""
    groups = []
    for line in case.lines:
        if line.machine:
            groups.append([])
        groups[-1].append(line)
    return groups


def play_once(lines, program, limit):
    """The lines of one machine as they are played."""
    player = Player(program, limit)
    try:
        return [player.play(line) for line in lines]
    finally:
        player.close()


def play_machine(lines, program, limit):
    """The same. Where QEMU ends by itself the machine is played anew, a few times."""
    for _ in range(TRIES - 1):
        try:
            return play_once(lines, program, limit)
        except Ended:
            pass
    return play_once(lines, program, limit)


def play(case, program, limit=LIMIT):
    """All lines of a case as they were played."""
    return [one for lines in by_machine(case) for one in play_machine(lines, program, limit)]


def compared(played):
    """Those of the lines that were held against an answer."""
    return [one for one in played if one.verdict in (SAME, DIFFERENT)]
