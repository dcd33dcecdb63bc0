"""Traces of `hotplug`, read: the header's platform and one entry a line, by the grammar of docs/FORMATS.md."""

import argparse
import contextlib
import os
import re
import signal
import sys
from dataclasses import dataclass

MIB = 0x100000
# how many processors have room in a TSEG of so many MiB
ROOM = {1: 14, 2: 30, 8: 126, 48: 512}
LOWEST, HIGHEST, LOWEST_EXT = 0x1000000, 0x80000000, 0x4000000
GREATEST_ID, GREATEST_WIDE_ID = 254, 0xFFFFFFFE
FEATURES, POLLS, TURNS, LAG = range(8), range(1, 4097), range(200001), range(1, 1001)

# a decimal below 2^32, and so of at most ten digits, with no zero in front
N = r"(?:0|[1-9]\d{0,9})"
HEADER = re.compile(
    rf"platform apic=(?P<apic>{N}(,{N})*) boot=(?P<boot>{N}(,{N})*) low=(?P<low>[0-9a-f]{{8}})"
    rf" tseg=(?P<tseg>{N})( ext=false)?"
    rf" features=(?P<features>{N}) polls=(?P<polls>{N}) turns=(?P<turns>{N}) modern=(?P<modern>true|false)"
    rf" smram=(true|false) delivery=(prompt|late lag=(?P<lag>{N}))(?P<x2apic> x2apic=true)?"
)
ACTOR = re.compile(rf"(?P<actor>host|p{N}) (@(?P<address>[0-9a-f]{{8}}) )?(?P<kind>[a-z]+)(?P<rest>.*)")
END = re.compile(r"end \d+")

# What stands behind each step's word. Values have two digits for each byte of the width.
STEPS = {
    "load": re.compile(r" (?P<width>[1248]) (?P<place>[0-9a-f]{8}) = (?P<answer>[0-9a-f]+)"),
    "store": re.compile(r" (?P<width>[1248]) (?P<place>[0-9a-f]{8}) (?P<value>[0-9a-f]+)"),
    "cas": re.compile(
        r" (?P<place>[0-9a-f]{8}) (?P<expected>[0-9a-f]{16}) (?P<value>[0-9a-f]{16}) = (?P<answer>[0-9a-f]{16})"
    ),
    "in": re.compile(r" (?P<width>[124]) (?P<place>[0-9a-f]{4}) = (?P<answer>[0-9a-f]+)"),
    "out": re.compile(r" (?P<width>[124]) (?P<place>[0-9a-f]{4}) (?P<value>[0-9a-f]+)"),
    "cfgr": re.compile(r" (?P<place>[0-9a-f]{2}) = (?P<answer>[0-9a-f]{2})"),
    "cfgw": re.compile(r" (?P<place>[0-9a-f]{2}) (?P<value>[0-9a-f]{2})"),
    "icr": re.compile(r" (?P<high>[0-9a-f]{8}) (?P<low>[0-9a-f]{8})"),
    "tell": re.compile(r" (?P<outcome>[a-z]+) (?P<numbers>[0-9a-f]+( [0-9a-f]+){1,2})"),
    "insert": re.compile(rf" (?P<processor>{N})"),
    "remove": re.compile(rf" (?P<processor>{N})"),
    "halt": re.compile(""),
    "nop": re.compile(""),
    "smi": re.compile(""),
    "init": re.compile(""),
    "rsm": re.compile(""),
}
HOST_EVENTS = {"insert", "remove"}
# what stands in SMM alone, and what outside SMM alone
INSIDE, OUTSIDE = {"rsm", "tell"}, {"smi", "init"}

# what the numbers of each outcome are
OUTCOMES = {
    "added": ("processor", "apic", "slot"),
    "ejected": ("processor", "apic", "slot"),
    "disabled": ("processor", "status"),
    "both": ("processor", "status"),
    "alreadyknown": ("processor", "apic", "slot"),
    "gateheld": ("processor", "apic", "held"),
    "notatgate": ("processor", "apic"),
    "notcheckedin": ("processor", "apic"),
    "nounplug": ("processor", "features"),
    "notknown": ("processor", "apic"),
    "notarrived": ("processor", "apic"),
    "notparked": ("processor", "apic"),
    "foreign": ("processor", "apic"),
    "stillpending": ("processor", "status"),
}
NUMBER, STATUS = re.compile(N), re.compile(r"[0-9a-f]{2}")


class Refused(Exception):
    """What is asked for can't be had, and why."""


class NoTrace(Refused):
    """What is read is no trace: in which line, counted from 1, and why."""

    def __init__(self, line, why):
        super().__init__(f"line {line}: {why}")


@dataclass
class Platform:
    """What the header says of the machine. `lag` is 0 where SMIs are prompt."""

    line: str
    apic: list
    boot: list
    low: int
    tseg_mib: int
    features: int
    modern: bool
    lag: int
    x2apic: bool

    @property
    def boot_count(self):
        """How many accesses the boot sequence has."""
        return 29 if self.tseg_mib == 48 else 27

    @property
    def tseg(self):
        """The first address of TSEG, which ends where RAM ends."""
        return self.low - self.tseg_mib * MIB

    def tile(self, slot):
        """The SMBASE of a slot's processor."""
        return self.tseg + 0x20000 + slot * 0x10000


@dataclass
class Entry:
    """One step: its line, its number from 1, who acts, its instruction address, the step's word, what stands behind it.

    `actor` is None for the host, `address` outside SMM.
    """

    line: str
    number: int
    actor: int | None
    address: int | None
    kind: str
    text: dict

    def value(self, name):
        """The number that stands as hexadecimal in this field, None where the step has no such field."""
        return int(self.text[name], 16) if self.text.get(name) else None

    @property
    def processor(self):
        """Whose lane the entry is in: the actor's, or that of the host's processor."""
        return int(self.text["processor"]) if self.actor is None else self.actor


@dataclass
class End:
    """The end line, whose number is that of the entries."""

    line: str


def read_header(line):
    """The platform of line 1."""
    found = HEADER.fullmatch(line)
    if not found:
        raise NoTrace(1, "no header of a trace")
    platform = Platform(
        line=line,
        apic=[int(number) for number in found["apic"].split(",")],
        boot=[int(number) for number in found["boot"].split(",")],
        low=int(found["low"], 16),
        tseg_mib=int(found["tseg"]),
        features=int(found["features"]),
        modern=found["modern"] == "true",
        lag=int(found["lag"] or 0),
        x2apic=found["x2apic"] is not None,
    )
    if not is_platform(platform, found):
        raise NoTrace(1, "no platform has these numbers")
    return platform


def is_platform(platform, found):
    """There may be such a machine, by the rules of docs/FORMATS.md on platforms."""
    return all(
        [
            len(set(platform.apic)) == len(platform.apic),
            max(platform.apic) <= (GREATEST_WIDE_ID if platform.x2apic else GREATEST_ID),
            platform.boot == sorted({0, *platform.boot}) and platform.boot[-1] < len(platform.apic),
            platform.low % MIB == 0 and LOWEST <= platform.low <= HIGHEST,
            len(platform.apic) <= ROOM.get(platform.tseg_mib, 0),
            platform.tseg_mib != 48 or platform.low >= LOWEST_EXT,
            platform.features in FEATURES and int(found["polls"]) in POLLS and int(found["turns"]) in TURNS,
            found["lag"] is None or platform.lag in LAG,
        ]
    )


def read_step(kind, rest):
    """The fields behind a step's word, None where they are none of that step."""
    found = STEPS[kind].fullmatch(rest) if kind in STEPS else None
    if not found:
        return None
    text = found.groupdict()
    if kind == "tell" and not is_outcome(text["outcome"], text["numbers"].split()):
        return None
    digits = 2 * int(text["width"]) if text.get("width") else None
    values = [text[name] for name in ("value", "answer") if digits and text.get(name)]
    return text if all(len(value) == digits for value in values) else None


def is_outcome(outcome, numbers):
    """The numbers are those of this outcome: a status byte in two hexadecimal digits, all others decimal."""
    names = OUTCOMES.get(outcome, ())
    if len(names) != len(numbers):
        return False
    return all(is_number(name, digits) for name, digits in zip(names, numbers, strict=True))


def is_number(name, digits):
    """A status byte has two hexadecimal digits; all others are decimal, and below 2^32."""
    if name == "status":
        return STATUS.fullmatch(digits) is not None
    return NUMBER.fullmatch(digits) is not None and int(digits) < 2**32


def is_by(actor, address, kind):
    """Who makes such a step, and where: the host its events, p0 outcomes; RSM is in SMM, SMI entry and INIT outside."""
    if (actor == "host") != (kind in HOST_EVENTS) or kind == "tell" and actor != "p0":
        return False
    return kind not in (INSIDE if address is None else {*OUTSIDE, *HOST_EVENTS})


def read_entry(line, number, count):
    """The entry of a line, on a platform of so many possible processors."""
    found = ACTOR.fullmatch(line)
    text = read_step(found["kind"], found["rest"]) if found else None
    if text is None or not is_by(found["actor"], found["address"], found["kind"]):
        raise NoTrace(number + 1, f"no entry of a trace: {shown(line)}")
    actor = None if found["actor"] == "host" else int(found["actor"][1:])
    address = int(found["address"], 16) if found["address"] else None
    entry = Entry(line, number, actor, address, found["kind"], text)
    told = [int(text["numbers"].split()[0])] if entry.kind == "tell" else []
    missing = [place for place in (entry.processor, *told) if place >= count]
    if missing:
        raise NoTrace(number + 1, f"the platform has no processor {missing[0]}")
    return entry


def shown(line):
    """The front of a line, with nothing in it that a terminal would act on."""
    return "".join(letter if letter.isprintable() else "?" for letter in line[:60])


def read_end(line, number):
    """The end line behind so many entries."""
    if line != f"end {number}":
        raise NoTrace(number + 2, f"{shown(line)}, where there are {number} entries")
    return End(line)


def read(lines):
    """The platform, each entry, and the end where there is one: the trace of a refused boot has none."""
    lines = (line.rstrip("\n") for line in lines)
    platform = read_header(next(lines, ""))
    yield platform
    number = 0
    for line in lines:
        if END.fullmatch(line):
            yield read_end(line, number)
            break
        number += 1
        yield read_entry(line, number, len(platform.apic))
    if next(lines, None) is not None:
        raise NoTrace(number + 3, "there is something behind the end line")


def command(about):
    """The command line that all tools have: an optional file, standard input without it."""
    words = argparse.ArgumentParser(description=about, formatter_class=argparse.RawDescriptionHelpFormatter)
    words.add_argument("trace", nargs="?", help="the trace as `./hotplug run` writes it; standard input if absent")
    return words


def opened(trace):
    """The lines of a file, or of standard input where none is named."""
    if trace is None and sys.stdin is None:
        raise OSError("standard input is closed")
    source = sys.stdin.fileno() if trace is None else trace
    return open(source, encoding="ascii", errors="replace", newline="\n")


def reason_of(fault):
    """What is wrong: a file by its name."""
    if isinstance(fault, OSError) and fault.strerror:
        return f"{fault.filename}: {fault.strerror}" if isinstance(fault.filename, str) else fault.strerror
    return str(fault)


def guarded(name, work):
    """Calls `work`; status 2 and one line on standard error where it finds no trace, or can't read or write.

    So it is where what it wrote can't be handed on.
    """
    # a reader that goes away ends a tool as it ends `cat`, and so does a signal from the keyboard
    for it in (signal.SIGPIPE, signal.SIGINT):
        signal.signal(it, signal.SIG_DFL)
    try:
        if sys.stdout is None:
            raise OSError("standard output is closed")
        work()
        sys.stdout.flush()
    except (Refused, OSError) as fault:
        with contextlib.suppress(OSError):
            if sys.stdout:
                sys.stdout.flush()
        with contextlib.suppress(OSError):
            if sys.stderr:
                print(f"{name}: {reason_of(fault)}", file=sys.stderr, flush=True)
        # what couldn't be written isn't tried again at the end
        os._exit(2)


def run(name, work, trace):
    """Hands the lines of a trace to `work`, guarded."""

    def on_lines():
        with opened(trace) as lines:
            work(lines)

    guarded(name, on_lines)
