"""What agents say, by docs/FORMATS.md: each is a generator of accesses, sent where its processor runs and the answer to its last access."""

from pathlib import Path
from runpy import run_path

GENERATORS = Path(__file__).resolve().parent.parent.parent / "tools/generators.py"
PEN_STORE = ("store", 1, 0x9F010, 1)
HALT, NOP = ("halt",), ("nop",)


def access_of(text):
    """A script's step."""
    kind, *words = text.split()
    if kind in ("load", "store", "in", "out"):
        return kind, int(words[0]), *(int(word, 16) for word in words[1:])
    return kind, *(int(word, 16) for word in words)


def script(steps):
    """Its steps, then halts."""
    for step in steps:
        yield access_of(step)
    while True:
        yield HALT


def pen():
    """Its byte once, at its page. The first question comes with the first access."""
    page, _ = yield
    while page != 0x9F:
        page, _ = yield HALT
    yield PEN_STORE
    while True:
        yield HALT


def asked(access):
    """Says an access, and answers what that was answered, 0 where nothing."""
    _, answer = yield access
    return answer or 0


def system(platform):
    """The operating system."""
    yield
    while True:
        while not (yield from asked(("in", 1, 0x620))) & 4:
            pass
        yield from asked(("out", 1, 0x620, 4))
        starting, leaving = yield from scan(len(platform.apic))
        if starting:
            yield from asked(("out", 1, 0xB2, 4))
        for place in starting:
            high = platform.high_half(platform.apic[place])
            said = [("out", 4, 0xCD8, place), ("out", 1, 0xCDC, 2), *[NOP] * 8, ("icr", high, 0x500), NOP, NOP]
            for access in [*said, ("icr", high, 0x610), ("icr", high, 0x610)]:
                yield from asked(access)
        for place in leaving:
            writes = (("out", 4, 0xCD8, place), ("out", 1, 0xCDC, 4), ("out", 1, 0xCDC, 0x10), ("out", 1, 0xB2, 4))
            for access in writes:
                yield from asked(access)


def scan(count):
    """Who is to be started, and who is to be ejected."""
    starting, leaving, place = [], [], 0
    while place < count:
        yield from asked(("out", 4, 0xCD8, place))
        yield from asked(("out", 1, 0xCDD, 0))
        found = yield from asked(("in", 4, 0xCE0))
        if not place <= found < count:
            break
        status = yield from asked(("in", 1, 0xCDC))
        if status & 3 == 3:
            starting.append(found)
        if status & 5 == 5:
            leaving.append(found)
        place = found + 1
    return starting, leaving


def seeded(seed):
    """Accesses that are drawn."""
    for word in run_path(str(GENERATORS))["words_of"](seed):
        drawn = word >> 8
        place = 4 * (drawn % 262144)
        yield (
            ("load", 4, place),
            ("store", 4, place, word),
            ("in", 1, 0xCDC),
            ("out", 4, 0xCD8, drawn % 80),
            ("in", 4, 0xCE0),
            ("icr", drawn % 64 << 24, 0x200),
            ("load", 8, 0x30000),
            NOP,
        )[word % 8]


def storm(count):
    """The storm, for so many processors."""
    number = 0
    while True:
        yield (
            ("out", 4, 0xCD8, number % (count + 2)),
            ("out", 1, 0xCDC, 0x10),
            ("icr", 0, 0x000C0500),
            ("icr", 0, 0x000C0200),
            ("store", 8, 0x30000, 0),
            ("out", 1, 0xB2, 4),
        )[number % 6]
        number += 1


class Agent:
    """A voice that is asked: where its processor runs, and with the answer to what it said last."""

    def __init__(self, says, listens=False):
        self.says = says
        self.answer = None
        if listens:
            next(says)
        self.listens = listens

    def ask(self, page):
        """What it says now."""
        return self.says.send((page, self.answer)) if self.listens else next(self.says)


def agents_of(file):
    """An agent for each processor: that of the file, or of its kind without one; those handed in are the program's."""
    handed = [seeded(1), storm(64)]
    found = []
    for place in range(len(file.platform.apic)):
        table = file.agents.get(place)
        kind = table["kind"] if table else "script" if place in file.platform.boot else "pen"
        if kind == "script":
            found.append(Agent(script(table["steps"] if table else [])))
        elif kind == "os":
            found.append(Agent(system(file.platform), True))
        elif kind == "pen":
            found.append(Agent(pen(), True))
        elif kind == "seeded":
            found.append(Agent(seeded(table["seed"])))
        else:
            found.append(Agent(handed.pop(0) if handed else script([])))
    return found
