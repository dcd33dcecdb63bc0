"""The rows of a chart: one an entry. Rounds of a loop, sweeps over many slots and the steps of a crowd are folded."""

from collections import Counter
from dataclasses import dataclass, field

from names import ARRAYS, RELOCATED, label_at, outcome_of, reached
from words import PLAIN, number, refuses_boot

RECENT = 4  # steps of one processor in which a loop comes round
# rows of handlers that are made again while nothing has changed
POLLED = {"F1", "R1", "R2", "R3", "R6", "S3", "N8a", "N8b", "N11", "E2"}
# rows of the monarch that go over all slots; over more than so many they become one row
SWEEPS, MOST_SLOTS = {"S1", "S3", "E6"}, 6
# what one of a crowd does: it takes its SMI, goes round in its handler, leaves, and does nothing outside but in its pen
CALM, PEN_BYTE = {"smi", "halt", "nop"}, "pen_byte"


@dataclass
class Row:
    """An entry and how often it was made. A note stands for entries folded up to that one, `words` for a sweep.

    `others` counts what the crowd does from this row to the next.
    """

    entry: object
    count: int = 1
    note: str = ""
    words: str = ""
    others: Counter = field(default_factory=Counter)


class Sweep:
    """What the monarch does with all slots at one label: the last value of each."""

    def __init__(self):
        self.entries, self.values = [], {}

    def add(self, platform, entry):
        """One more look or store."""
        self.entries.append(entry)
        self.values[reached(platform, entry)] = entry.text.get("answer") or entry.text["value"]

    @property
    def words(self):
        """The array, its first and last slot, and how many slots have which value."""
        name = next(iter(self.values)).partition("[")[0]
        slots = sorted(map(slot, self.values))
        arrow = "→" if self.entries[0].kind == "load" else "←"
        counts = Counter(map(number, self.values.values())).most_common()
        values = counts[0][0] if len(counts) == 1 else ", ".join(f"{value} of {count}" for value, count in counts)
        return f"{name}[{slots[0]} to {slots[-1]}] {arrow} {values}"


def slot(place):
    """The slot in the name of a shared byte."""
    return int(place.rstrip("]").split("[")[1])


def sweeps_of(platform, entries):
    """The sweep of each entry that is in one, by its number: the monarch's entries in a row at one label."""
    found, at, sweep = {}, None, None
    for entry in entries:
        if entry.actor != 0:
            continue
        label = entry.address is not None and label_at(platform, entry.address)
        if label not in SWEEPS or not is_of_a_slot(platform, entry):
            at = None
            continue
        if label != at:
            at, sweep = label, Sweep()
        sweep.add(platform, entry)
        found[entry.number] = sweep
    return {number: sweep for number, sweep in found.items() if len(sweep.values) > MOST_SLOTS}


def is_of_a_slot(platform, entry):
    """It reaches a shared byte that each slot has."""
    return (reached(platform, entry) or "").split("[")[0] in ARRAYS


def crowd_of(platform, entries, most):
    """The processors that can share a lane, none where there are at most so many lanes.

    They follow the monarch's call and do nothing else, and no outcome or host event speaks of them.
    """
    lanes = {0} | {entry.processor for entry in entries}
    if len(lanes) <= most:
        return set()
    spoken = {int(outcome_of(entry)[1]["processor"]) for entry in entries if entry.kind == "tell"}
    busy = {entry.processor for entry in entries if not is_calm(platform, entry)}
    crowd = lanes - spoken - busy - {0}
    return crowd if len(crowd) > 1 else set()


def is_calm(platform, entry):
    """One of a crowd may do this."""
    if entry.actor is None:
        return False
    if entry.address is not None:
        return label_at(platform, entry.address) in RELOCATED
    return entry.kind in CALM or entry.kind == "store" and reached(platform, entry) == PEN_BYTE


def step_word(platform, entry):
    """What one of a crowd does, in a word: a row of its handler, or what it does outside."""
    if entry.address is not None:
        return label_at(platform, entry.address)
    return PLAIN.get(entry.kind, "pen byte")


def folded_boot(platform, entries):
    """How many entries of the boot become one row: all, or all but the one that refuses it."""
    if entries[0].number != 1:
        return 0
    return len(entries) - 1 if refuses_boot(platform, entries) else min(platform.boot_count, len(entries))


def rows_of(platform, entries, crowd, marked):
    """The rows: the boot is one, what a loop does again is counted in the row where it was done first.

    An entry whose number is in `marked` is no round of a loop.
    """
    boot = folded_boot(platform, entries) if entries else 0
    rows = [Row(entries[boot - 1], note=f"boot: {boot} accesses")] if boot else []
    sweeps = sweeps_of(platform, entries[boot:])
    recent = {}
    for entry in entries[boot:]:
        if entry.processor in crowd and rows:
            rows[-1].others[step_word(platform, entry)] += 1
            continue
        sweep = sweeps.get(entry.number)
        if sweep:
            if entry is sweep.entries[0]:
                rows.append(Row(entry, count=len(sweep.entries), words=sweep.words))
            continue
        seen = recent.setdefault(entry.actor, [])
        key = (entry.address, entry.kind, tuple(entry.text.values()), entry.number in marked)
        again = next((row for old, row in seen if old == key), None) if repeats(platform, entry, key, seen) else None
        if again:
            again.count += 1
            continue
        rows.append(Row(entry))
        seen.append((key, rows[-1]))
        del seen[:-RECENT]
    return rows


def repeats(platform, entry, key, seen):
    """It may be a round of a loop: a polled row in SMM, or outside the step just made again. No loop sends interrupts.

    The rounds of a collection aren't: each is of another processor.
    """
    if entry.actor is None or entry.kind in ("icr", "tell"):
        return False
    if entry.address is not None:
        return label_at(platform, entry.address) in POLLED
    return bool(seen) and seen[-1][0] == key
