"""A trace summed up: entries, boot, processors, sessions, outcomes and refusals, each with the fact that it names."""

from collections import Counter

from blocks import Block
from names import outcome_of
from sessions import Sessions
from words import DONE, platform_words, refuses_boot

# of each refusal its name and its fact, and of each refused boot by the access that read it
FACTS = {
    "disabled": ("Disabled", "the processor isn't enabled"),
    "both": ("Both", "an insert event and a firmware eject at once"),
    "alreadyknown": ("AlreadyKnown", "an insert event of an APIC ID that is known"),
    "gateheld": ("GateHeld", "an insert event while the add of another APIC ID isn't complete"),
    "notatgate": ("NotAtGate", "in the third attempt no look at the flag or the arrived byte read 1"),
    "notcheckedin": ("NotCheckedIn", "in the third attempt one did, but none at the arrived byte once the gate was closed"),
    "nounplug": ("NoUnplug", "a firmware eject, and hot-unplug wasn't negotiated"),
    "notknown": ("NotKnown", "a firmware eject of an APIC ID that isn't known"),
    "notarrived": ("NotArrived", "a firmware eject, and its arrived byte was last read as 0"),
    "notparked": ("NotParked", "a firmware eject, and no look at its parked byte read 1"),
    "foreign": ("Foreign", "the APIC ID that was read isn't the processor's, or the processor is 0"),
    "stillpending": ("StillPending", "after the eject the status still had fw_remove"),
}
BOOT_FACTS = {
    ("in", "0cd8"): ("NotModern", "command data 2"),
    ("cfgr", "9c"): ("NoDefaultSmram", "register 9c"),
    ("cfgr", "50"): ("NoExtTseg", "register 50"),
    ("in", "0511"): ("NotNegotiated", "features-ok"),
}
KINDS = ["of the boot", "of the host", "outside SMM", "in SMM"]
KEY = 12


class Summary:
    """What is counted of a trace, whose entries are handed over in order."""

    def __init__(self, platform):
        self.platform = platform
        self.sessions, self.block = Sessions(platform), Block(platform)
        self.counts, self.ejected, self.inserted, self.removals = Counter(), 0, 0, 0
        self.told = Counter()
        self.last, self.has_end = None, False

    def step(self, entry):
        """Goes on by an entry."""
        self.last = entry
        self.counts[self.kind_of(entry)] += 1
        self.inserted += entry.kind == "insert"
        self.removals += entry.kind == "remove"
        self.ejected += self.block.step(entry) is not None
        self.sessions.step(entry)
        if entry.kind == "tell":
            self.told[outcome_of(entry)[0]] += 1

    def kind_of(self, entry):
        """Among which entries it is counted."""
        if entry.number <= self.platform.boot_count:
            return "of the boot"
        if entry.actor is None:
            return "of the host"
        return "outside SMM" if entry.address is None else "in SMM"

    def lines(self):
        """The summary, line by line."""
        yield from keyed("platform", [platform_words(self.platform)])
        yield from keyed("entries", [self.entries()])
        yield from keyed("boot", [self.boot()])
        yield from keyed("processors", [self.processors()])
        yield from keyed("sessions", [self.counted(), *map(session_words, filter(is_worth_a_line, self.sessions.all))])
        yield from keyed("outcomes", [self.outcomes()])
        yield from keyed("refusals", list(self.refusals()) or ["none"])

    def entries(self):
        """How many entries of which kind, and whether the trace has its end."""
        kinds = ", ".join(f"{self.counts[kind]} {kind}" for kind in KINDS)
        return f"{sum(self.counts.values())}: {kinds}" + ("" if self.has_end else "; no end line")

    def boot(self):
        """How the boot ended."""
        count, last = self.platform.boot_count, self.last
        if last and last.number >= count:
            return f"handed over after {count} accesses"
        if refuses_boot(self.platform, [last] if last else []):
            name, register = BOOT_FACTS[last.kind, last.text["place"]]
            return f"refused, {name}: {register} read {last.text['answer']}"
        return f"not at its end: {last.number if last else 0} of {count} accesses"

    def processors(self):
        """How many there are, came and went."""
        present = sum(slot.enabled for slot in self.block.slots)
        return (
            f"{len(self.platform.apic)} possible: {len(self.platform.boot)} at boot, {self.inserted} inserted, "
            f"{self.removals} asked to go, {self.ejected} ejected, {present} at the end"
        )

    def counted(self):
        """How many sessions."""
        sessions = self.sessions.all
        disturbed = sum(session.is_disturbed for session in sessions)
        running = "; the last one isn't at its end" if self.sessions.running else ""
        return f"{len(sessions)}: {len(sessions) - disturbed} undisturbed, {disturbed} disturbed{running}"

    def outcomes(self):
        """How many outcomes."""
        refused = sum(count for outcome, count in self.told.items() if outcome not in DONE)
        return f"{sum(self.told.values())}: {self.told['added']} added, {self.told['ejected']} ejected, {refused} refused"

    def refusals(self):
        """How many refusals of which fact."""
        for outcome, (name, fact) in FACTS.items():
            if self.told[outcome]:
                yield f"{self.told[outcome]} {name}: {fact}"


def keyed(key, texts):
    """Lines of one key, which the first has in front."""
    for index, text in enumerate(texts):
        yield f"{'' if index else key:<{KEY}}{text}"


def is_worth_a_line(session):
    """It told something, or was disturbed."""
    return session.told or session.is_disturbed


def session_words(session):
    """A session in one line."""
    end = f" to {session.last}" if session.last else " on"
    told = ", ".join(told_words(entry) for entry in session.told) or "nothing told"
    return f"session {session.number}, entries {session.first}{end}, {standing_words(session)}: {told}"


def standing_words(session):
    """Whether a session is disturbed, and where first."""
    if not session.is_disturbed:
        return "undisturbed"
    first, more = session.disturbing[0], len(session.disturbing) - 1
    return f"disturbed by p{first.actor} in entry {first.number}" + (f" and {more} more" if more else "")


def told_words(entry):
    """An outcome, with the name of a refusal's fact."""
    outcome, numbers = outcome_of(entry)
    return f"{FACTS[outcome][0] if outcome in FACTS else outcome} p{numbers['processor']}"
