"""The monarch's sessions in a trace: where each begins and ends, what it tells, and who disturbs it.

A session is the entries from an SMI entry of processor 0 to its RSM. Its monarch has called all others in from its entry
at S2 to that at E5; a write to a port of the register block by a processor outside SMM meanwhile disturbs the session.
`Sessions.antt` of hp_model defines both words.
"""

from dataclasses import dataclass, field

from blocks import writes_block
from names import label_at


@dataclass
class Session:
    """One session: its number from 1, its first and last entry, what it told, and the entries that disturb it.

    `last` is None while it goes on.
    """

    number: int
    first: int
    last: int | None = None
    told: list = field(default_factory=list)
    disturbing: list = field(default_factory=list)
    has_called: bool = False

    @property
    def is_disturbed(self):
        """Somebody outside SMM wrote to the register block while all others were called in."""
        return bool(self.disturbing)


class Sessions:
    """The sessions of a trace, whose entries are handed over in order."""

    def __init__(self, platform):
        self.platform, self.all = platform, []

    @property
    def running(self):
        """The session that goes on, None between two."""
        return self.all[-1] if self.all and self.all[-1].last is None else None

    def step(self, entry):
        """Goes on by an entry."""
        session = self.running
        if entry.kind == "smi" and entry.actor == 0:
            self.all.append(Session(len(self.all) + 1, entry.number))
        elif session and entry.address is not None:
            self.inside(session, entry)
        elif session and session.has_called and writes_block(entry):
            session.disturbing.append(entry)

    def inside(self, session, entry):
        """An entry in SMM during a session."""
        label = label_at(self.platform, entry.address)
        if label in ("S2", "E5"):
            session.has_called = label == "S2"
        if entry.kind == "tell":
            session.told.append(entry)
        if entry.kind == "rsm" and entry.actor == 0:
            session.last = entry.number


def sessions_of(platform, entries):
    """All sessions of these entries, which are a whole trace's."""
    found = Sessions(platform)
    for entry in entries:
        found.step(entry)
    return found.all
