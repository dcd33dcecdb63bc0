"""Case files and traces, read: which machine, what is accessed, what is to be answered, and which rule that shows."""

import re
from dataclasses import dataclass, field
from pathlib import Path

HERE = Path(__file__).resolve().parent
TOP = HERE.parent
HEADER = re.compile(
    r"platform apic=(?P<apic>[\d,]+) boot=(?P<boot>[\d,]+) low=(?P<low>[0-9a-f]{8}) tseg=(?P<tseg>\d+)(?P<ext> ext=false)?"
    r" features=(?P<features>\d+) .*\bsmram=(?P<smram>true|false)\b.*"
)
ACTOR = re.compile(r"p\d+ (?P<smm>@[0-9a-f]{8} )?(?P<step>.+)")
HOST = re.compile(r"(?P<never>never )?host (?P<what>insert|remove) (?P<place>\d+)")
# a processor's steps that QEMU can be asked by qtest; the others need instructions that run
PLAYED = {"in", "out", "load", "store", "cfgr", "cfgw"}
MEMORY = {"load", "store"}
# QEMU has its BIOS there, and other versions of it another one
ROM = range(0xC0000, 0x100000)


class Faulty(Exception):
    """A case file that can't be read: its line, and why."""

    def __init__(self, path, number, why):
        super().__init__(f"{path}, line {number}: {why}")


@dataclass
class Machine:
    """What QEMU is started as: possible and boot processors, end of RAM in bytes, SMI features, and words for QEMU alone."""

    count: int
    boot: int
    low: int
    features: int
    smram: bool
    topology: str | None = None
    globals: list = field(default_factory=list)
    is_placed: bool = True


@dataclass
class Line:
    """A line by its number, with its rule: `machine` where one begins, `words` where something is accessed."""

    number: int
    text: str
    rule: str
    machine: Machine | None = None
    words: list = field(default_factory=list)
    wanted: int | None = None

    @property
    def kind(self):
        """The word that says what is done."""
        return self.words[0] if self.words else ""


@dataclass
class Case:
    """A case file or a trace, with the name that answers and page have for it."""

    name: str
    about: str
    lines: list


def machine_of(found, directives):
    """The machine of a header, with the words for QEMU that stand before it."""
    boot = [int(place) for place in found["boot"].split(",")]
    if boot != list(range(len(boot))):
        raise ValueError("QEMU's boot processors have the first places")
    words = dict(word.partition("=")[::2] for word in directives)
    unknown = set(words) - {"topology", "global", "unplaced"}
    if unknown:
        raise ValueError(f"no such word for QEMU: {unknown}")
    more = [words["global"]] if "global" in words else []
    # the size that QEMU's register 50 names; without one it has none
    if found["tseg"] == "48" or found["ext"]:
        more.append(f"mch.extended-tseg-mbytes={0 if found['ext'] else 48}")
    return Machine(
        count=found["apic"].count(",") + 1,
        boot=len(boot),
        low=int(found["low"], 16),
        features=int(found["features"]),
        smram=found["smram"] == "true",
        topology=words.get("topology"),
        globals=more,
        is_placed="unplaced" not in words,
    )


def wanted_of(words):
    """The words without the answer, and the answer."""
    if len(words) > 2 and words[-2] == "=":
        return words[:-2], int(words[-1], 16)
    return words, None


def access_of(text):
    """Words and answer of a line that accesses something, or tells that the host does; no words where QEMU isn't asked."""
    host = HOST.fullmatch(text)
    if host:
        return [host["what"], host["place"], "never" if host["never"] else "accepted"], None
    found = ACTOR.fullmatch(text)
    if not found:
        raise ValueError("neither a line of a trace nor a word of a case")
    words, wanted = wanted_of(found["step"].split())
    is_elsewhere = words[0] in MEMORY and (found["smm"] or int(words[2], 16) in ROM)
    return (words, wanted) if words[0] in PLAYED and not is_elsewhere else ([], None)


class Reader:
    """Reads the lines of a file in their order."""

    def __init__(self, rule):
        self.rule, self.about, self.directives = rule, [], []

    def read(self, number, text):
        """A line of the case, None where it only says something to a reader."""
        if text.startswith("## "):
            self.rule = text[3:]
        elif text.startswith("#? "):
            return self.directed(number, text)
        elif text.startswith("# ") and not self.rule:
            self.about.append(text[2:])
        elif text.startswith("platform "):
            return self.begun(number, text)
        elif text and not text.startswith("#") and not text.startswith("end "):
            words, wanted = access_of(text)
            return Line(number, text, self.rule, None, words, wanted)
        return None

    def directed(self, number, text):
        """A line for QEMU alone: a word for the next machine, or an access of its configuration space."""
        words, wanted = wanted_of(text[3:].split())
        if words[0] in ("config", "place"):
            return Line(number, text, self.rule, None, words, wanted)
        self.directives += words
        return None

    def begun(self, number, text):
        """The header of a machine."""
        found = HEADER.fullmatch(text)
        if not found:
            raise ValueError("no header of a trace")
        machine, self.directives = machine_of(found, self.directives), []
        return Line(number, text, self.rule, machine)


def read(path, name=None, rule=""):
    """The case of a file. A trace has one rule, which is given."""
    reader, lines = Reader(rule), []
    for number, text in enumerate(Path(path).read_text(encoding="ascii").splitlines(), 1):
        try:
            line = reader.read(number, text)
        except ValueError as fault:
            raise Faulty(path, number, fault) from None
        if line:
            lines.append(line)
    return Case(name or Path(path).stem, " ".join(reader.about), lines)


def cases():
    """All case files, in the order of their names."""
    return [read(path) for path in sorted((HERE / "cases").glob("*.txt"))]


def listed():
    """The examples of traces.txt: name, and why it isn't played, nothing where it is."""
    lines = (HERE / "traces.txt").read_text(encoding="ascii").splitlines()
    parts = (line.partition(" not: ") for line in lines if line and not line.startswith("#"))
    return [(name, why) for name, _, why in parts]


def traces():
    """The whole traces that are played, each an example."""
    return [read(TOP / f"examples/{name}.out", f"examples/{name}", "all of it") for name, why in listed() if not why]
