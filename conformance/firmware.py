"""A real firmware's accesses beside the handlers': stories and a trace of our own, session by session."""

import re
from dataclasses import dataclass
from difflib import SequenceMatcher

from cases import HERE

FOLDER = HERE / "firmware"
SAME_BOTH = ["adds_and_eject-7.2.22.txt", "adds_and_eject-10.0.2.txt"]
OURS = "adds_and_eject.out"

LABELS = (
    "S0 S1 S2 S3 S4 C1 C2 C3 C4 C5 C6 NB N0 N1 N2 N3 N4 N5 N6 N7 N8a N8b N9 N10 N11 "
    "E0 E1 E2 E3 E4a E4b E4c E4d E4e T E5 E6 E7 E4f E4g E4h"
).split()
# what is done at a label whose access is one to memory, or none
DEEDS = {
    "S0": "session byte set",
    "S1": "release cleared",
    "S3": "arrived bytes waited for",
    "NB": "release cleared",
    "N0": "arrived cleared",
    "N1": "flag cleared",
    "N2": "new SMBASE stored",
    "N7": "gate opened",
    "N8a": "flag waited for",
    "N8b": "arrived waited for",
    "N9": "gate closed",
    "N10": "arrived cleared",
    "N11": "arrived waited for",
    "E0": "parked cleared",
    "E1": "map set",
    "E2": "parked waited for",
    "E4c": "arrived cleared",
    "E4d": "map cleared",
    "E4e": "parked cleared",
    "T": "outcome told",
    "E5": "session byte cleared",
    "E6": "release set",
    "E7": "RSM",
}
STORY = re.compile(r" *-?\d+\.\d+  (?P<text>.*)")
STEP = re.compile(r"(?:in|out|icr) [0-9a-f= ]*[0-9a-f]")
MONARCH = re.compile(r"p0 @(?P<address>[0-9a-f]{8}) (?P<step>.*)")
BEGIN, ENDS = "in 1 00b2 = 04", ("# back in the shell", "# no prompt after the SMI")
LEVEL = 0x4000
# where a row begins that has no port to compare
BEGINS = {"NB", "T", "E5"}
MEMORY, NONE = "not traced", "none"
# what was done before the SMI of a story's session, by the story's name
STORIES = [
    ("no_event", 0, "nothing"),
    ("no_event", 1, "the removal of 1 was requested"),
    ("no_event", 2, "the eject of 1 was handed over"),
    ("eject_and_add", 0, "the eject of 1 was handed over, 3 was inserted"),
    ("disabled", 0, "1 was inserted, and ejected again"),
    ("both", 0, "1 was inserted, and its eject handed over"),
    ("not_known", 0, "1 was inserted, its event cleared, and its eject handed over"),
    ("no_unplug", 0, "the eject of 1 was handed over, where hot-unplug isn't offered"),
]


@dataclass
class Row:
    """A row of a table: labels, what is done here, and what the real firmware does."""

    labels: list
    here: str
    there: str


@dataclass
class Session:
    """What the real firmware did in one SMI, and whether it came back from it."""

    steps: list
    is_back: bool = False


def is_told(step):
    """Whether a trace event tells of such a step."""
    return step.split()[0] in ("in", "out", "icr")


def story(name):
    """The sessions of a story, each from the read of the SMI command on."""
    sessions, is_in = [], False
    for line in (FOLDER / name).read_text(encoding="ascii").splitlines():
        found = STORY.fullmatch(line)
        text = found["text"] if found else ""
        if text == BEGIN:
            sessions.append(Session([]))
            is_in = True
        if text.startswith(ENDS) and is_in:
            sessions[-1].is_back = text.startswith(ENDS[0])
            is_in = False
        step = STEP.match(text)
        if is_in and step:
            sessions[-1].steps.append(step[0])
    return sessions


def label_at(address, entry):
    """The label of the monarch whose cell this is."""
    return LABELS[(address - entry) // 4]


def trace(name):
    """The sessions of a trace: label and step of each of the monarch's entries."""
    sessions, entry = [], 0
    for line in (FOLDER / name).read_text(encoding="ascii").splitlines():
        found = MONARCH.fullmatch(line)
        if line == "p0 smi":
            sessions.append([])
        elif found:
            address = int(found["address"], 16)
            # the first entry of all is that of S0, the handler's first cell
            entry = entry or address
            sessions[-1].append((label_at(address, entry), found["step"]))
    return sessions


def plain(step):
    """A step without the level bit of an interrupt command, which nothing here looks at."""
    words = step.split()
    if words[0] != "icr":
        return step
    return f"icr {words[1]} {int(words[2], 16) & ~LEVEL:08x}"


def alone(entries):
    """Rows of what only the handlers here do: what a trace event would tell by itself, and other steps in a row as deeds."""
    rows = []
    for label, step in entries:
        if is_told(step):
            rows.append(Row([label], f"`{step}`", NONE))
        elif label in BEGINS or not rows or rows[-1].there != MEMORY:
            rows.append(Row([label], "", MEMORY))
        elif label not in rows[-1].labels:
            rows[-1].labels.append(label)
    for row in rows:
        row.here = row.here or ", ".join(DEEDS[label] for label in row.labels)
    return rows


def beside(entries, steps):
    """The rows of one session: its entries here, and the accesses there."""
    ours, theirs = [plain(step) for _, step in entries], [plain(step) for step in steps]
    rows = []
    for kind, here, here_end, there, there_end in SequenceMatcher(None, ours, theirs, autojunk=False).get_opcodes():
        if kind == "equal":
            for (label, step), other in zip(entries[here:here_end], steps[there:there_end], strict=True):
                rows.append(Row([label], f"`{step}`", "the same" if step == other else f"`{other}`"))
            continue
        rows += alone(entries[here:here_end])
        rows += [Row([], NONE, f"`{step}`") for step in steps[there:there_end]]
    return rows


def sessions():
    """The rows of the add, and those of the eject. Both versions of QEMU saw the same accesses."""
    first, second = (story(name) for name in SAME_BOTH)
    if first != second:
        raise ValueError("the two stories have other accesses")
    return [beside(entries, session.steps) for entries, session in zip(trace(OURS), first, strict=True)]


@dataclass
class Outcome:
    """A session in short: labels of accesses that both make, those of either alone, what is told, and whether OVMF came back."""

    before: str
    name: str
    both: list
    here: list
    there: list
    told: list
    is_back: bool


def outcomes():
    """The sessions of all other stories."""
    for name, place, before in STORIES:
        entries, session = trace(f"{name}.out")[place], story(f"{name}.txt")[place]
        rows = beside(entries, session.steps)
        alone = [row.labels[0] for row in rows if row.there == NONE]
        both = [row.labels[0] for row in rows if row.there not in (NONE, MEMORY) and row.here != NONE]
        there = [row.there for row in rows if row.here == NONE]
        told = [step.removeprefix("tell ") for label, step in entries if label == "T"]
        yield Outcome(before, name, both, alone, there, told, session.is_back)
