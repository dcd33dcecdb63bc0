"""Platform files, read by the table and the rules of docs/FORMATS.md: the file, or the number of the first rule that fails."""

import re
import tomllib
from dataclasses import dataclass, field

MIB = 0x100000
MOST = {1: 14, 2: 30, 8: 126, 48: 512}
KINDS = ("script", "os", "pen", "seeded", "handed")
MOST_INTEGER = 4294967295


class Refused(Exception):
    """The file is refused: the exit status, and the text behind `hotplug: `."""

    def __init__(self, status, text):
        super().__init__(text)
        self.status = status
        self.text = text


@dataclass
class Platform:
    """The table `[platform]`."""

    apic: list
    boot: list
    low_memory: int
    tseg_mib: int
    features: int
    polls: int
    turns: int
    modern: bool = True
    default_smram: bool = True
    delivery: str = "prompt"
    lag: int = 0
    x2apic: bool = False
    ext_tseg: bool = True

    @property
    def tseg(self):
        """The first address of TSEG."""
        return self.low_memory - self.tseg_mib * MIB

    @property
    def is_late(self):
        """A latched SMI may be taken later."""
        return self.delivery == "late"

    def tile(self, slot):
        """A slot's SMBASE."""
        return self.tseg + 0x20000 + slot * 0x10000

    def high_half(self, apic):
        """The high half of an interrupt command to an APIC ID."""
        return apic if self.x2apic else apic << 24


@dataclass
class File:
    """A platform file: each host event as turn, what, whom; each stall as processor, first and last turn; agents by processor."""

    platform: Platform
    hosts: list = field(default_factory=list)
    stalls: list = field(default_factory=list)
    agents: dict = field(default_factory=dict)


def ensure(rule, holds):
    """The first rule that doesn't hold refuses the file."""
    if not holds:
        raise Refused(6, f"rule {rule}")


def is_integer(value):
    """An integer in range; TOML's booleans are none."""
    return type(value) is int and 0 <= value <= MOST_INTEGER


def is_integers(value):
    """An array of such integers."""
    return isinstance(value, list) and all(is_integer(one) for one in value)


def is_boolean(value):
    """A boolean."""
    return type(value) is bool


def is_text(value):
    """A text."""
    return isinstance(value, str)


def is_texts(value):
    """An array of texts."""
    return isinstance(value, list) and all(is_text(one) for one in value)


NEEDED = {
    "apic": is_integers,
    "boot": is_integers,
    "low_memory": is_integer,
    "tseg_mib": is_integer,
    "features": is_integer,
    "polls": is_integer,
    "turns": is_integer,
}
OPTIONAL = {
    "modern": is_boolean,
    "default_smram": is_boolean,
    "delivery": is_text,
    "lag": is_integer,
    "x2apic": is_boolean,
    "ext_tseg": is_boolean,
}
LISTS = {
    "host": ({"turn": is_integer}, {"insert": is_integer, "remove": is_integer}),
    "stall": ({"cpu": is_integer, "from": is_integer, "to": is_integer}, {}),
    "agent": ({"cpu": is_integer, "kind": lambda value: value in KINDS}, {"steps": is_texts, "seed": is_integer}),
}


def is_table(table, needed, optional):
    """Each key that is needed is there, each other is optional, and each has its type."""
    if not isinstance(table, dict) or not needed.keys() <= table.keys() <= needed.keys() | optional.keys():
        return False
    return all({**needed, **optional}[key](value) for key, value in table.items())


def is_entry(name, table):
    """What a table of a list has besides its keys' types."""
    if name == "host":
        return ("insert" in table) != ("remove" in table)
    if name == "agent":
        return ("steps" in table) == (table["kind"] == "script") and ("seed" in table) == (table["kind"] == "seeded")
    return True


def is_shaped(tree):
    """Rule 1."""
    if "platform" not in tree or not tree.keys() <= {"platform", *LISTS}:
        return False
    table = tree["platform"]
    if not is_table(table, NEEDED, OPTIONAL) or ("lag" in table) != (table.get("delivery") == "late"):
        return False
    lists = ((name, tree.get(name, [])) for name in LISTS)
    return all(
        isinstance(entries, list) and all(is_table(one, *LISTS[name]) and is_entry(name, one) for one in entries)
        for name, entries in lists
    )


HEX = "[0-9a-f]"
# a step of each form; of a value with its own width, and its digits, two a byte
STEPS = [
    rf"load [1248] {HEX}{{8}}",
    rf"store (?P<memory>[1248]) {HEX}{{8}} (?P<stored>{HEX}+)",
    rf"cas {HEX}{{8}} {HEX}{{16}} {HEX}{{16}}",
    rf"in [124] {HEX}{{4}}",
    rf"out (?P<port>[124]) {HEX}{{4}} (?P<written>{HEX}+)",
    rf"cfgr {HEX}{{2}}",
    rf"cfgw {HEX}{{2}} {HEX}{{2}}",
    rf"icr {HEX}{{8}} {HEX}{{8}}",
    "halt",
    "nop",
]
STEP = re.compile("|".join(STEPS))


def is_step(text):
    """Rule 15, of one step."""
    found = STEP.fullmatch(text)
    if not found:
        return False
    width, value = found["memory"] or found["port"], found["stored"] or found["written"]
    return width is None or len(value) == 2 * int(width)


def check_platform(platform):
    """Rules 2 to 11."""
    count, boot = len(platform.apic), platform.boot
    greatest = MOST_INTEGER - 1 if platform.x2apic else 254
    ensure(2, 1 <= count <= 512)
    ensure(3, len(set(platform.apic)) == count and max(platform.apic) <= greatest)
    ensure(4, boot[:1] == [0] and all(a < b for a, b in zip(boot, boot[1:])) and boot[-1] < count)
    ensure(5, platform.low_memory % MIB == 0 and 16 * MIB <= platform.low_memory <= 2048 * MIB)
    ensure(6, platform.tseg_mib in MOST)
    ensure(7, count <= MOST[platform.tseg_mib] and (platform.tseg_mib < 48 or platform.low_memory >= 64 * MIB))
    ensure(8, platform.features <= 7)
    ensure(9, 1 <= platform.polls <= 4096)
    ensure(10, platform.turns <= 200000)
    ensure(11, platform.delivery == "prompt" or platform.delivery == "late" and 1 <= platform.lag <= 1000)


def read(text):
    """The file of a text."""
    try:
        tree = tomllib.loads(text)
    except tomllib.TOMLDecodeError:
        raise Refused(5, "not TOML") from None
    ensure(1, is_shaped(tree))
    platform = Platform(**tree["platform"])
    check_platform(platform)
    count = len(platform.apic)
    hosts = [
        (one["turn"], "insert" if "insert" in one else "remove", one.get("insert", one.get("remove")))
        for one in tree.get("host", [])
    ]
    stalls = [(one["cpu"], one["from"], one["to"]) for one in tree.get("stall", [])]
    agents = tree.get("agent", [])
    places = [one["cpu"] for one in agents]
    ensure(12, all(cpu < count for _, _, cpu in hosts))
    ensure(13, all(cpu < count and first <= last for cpu, first, last in stalls))
    ensure(14, all(cpu < count for cpu in places) and len(set(places)) == len(places))
    ensure(15, all(is_step(step) for one in agents for step in one.get("steps", [])))
    return File(platform, hosts, stalls, {one["cpu"]: one for one in agents})
