"""What a picture shows of a trace: all of it, some entries, or one session."""

from dataclasses import dataclass

from replay import Replay
from traces import Platform, Refused

TITLE = "Processor hot-plug in SMM"


@dataclass
class Shown:
    """The entries that are shown, and what is known of the whole trace."""

    platform: Platform
    entries: list
    replay: Replay
    sessions: list
    title: str = TITLE

    def cut(self, first, last):
        """Shows these entries alone, both by number; None is the first or the last there is."""
        count = len(self.entries)
        span = range(first or 1, (count if last is None else last) + 1)
        kept = [entry for entry in self.entries if entry.number in span]
        if not kept and (first, last) != (None, None):
            raise Refused(f"nothing to show: the trace has entries 1 to {count}")
        self.entries = kept

    def cut_to_session(self, number):
        """Shows one session alone."""
        if not 1 <= number <= len(self.sessions):
            raise Refused(f"there is no session {number}: the trace has {len(self.sessions)}")
        session = self.sessions[number - 1]
        self.cut(session.first, session.last)
        self.title = f"{TITLE}: session {number} of {len(self.sessions)}"
