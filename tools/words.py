"""What pictures say of a platform and of an entry."""

from names import interrupt_of, is_hole, outcome_of, reached
from replay import ABSENT, DEFAULT, HALTED, RUNNING, TSEG, WAITING

CLOSED = "f" * 16
FEW = 4
DONE = {"added", "ejected"}
MODES = {
    RUNNING: "outside SMM",
    DEFAULT: "SMM, default SMBASE",
    TSEG: "SMM, SMBASE in TSEG",
    WAITING: "waits for SIPI",
    HALTED: "halted",
    ABSENT: "absent",
}
PLAIN = {"smi": "takes the SMI", "init": "takes INIT", "halt": "halts", "rsm": "RSM", "nop": "nop"}
# of the boot's reads that are checked, the value with which it goes on
CHECKED = {("in", "0cd8"): 0, ("cfgr", "9c"): 1, ("cfgr", "50"): 0x30, ("in", "0511"): 1}


def platform_words(platform):
    """A platform in one line."""
    count = len(platform.apic)
    delivery = f"SMIs late, lag {platform.lag}" if platform.lag else "SMIs prompt"
    return (
        f"{count} possible processor{'s' * (count > 1)}, {platform.low >> 20} MiB of RAM, "
        f"TSEG of {platform.tseg_mib} MiB at {platform.tseg:08x}, {delivery}"
    )


def places_words(places):
    """Some processors: a few by name, many by the first and the last, and how many between them aren't meant."""
    if len(places) <= FEW:
        return ", ".join(f"p{place}" for place in sorted(places))
    first, last = min(places), max(places)
    missing = last - first + 1 - len(places)
    return f"p{first} to p{last}" + (f", but {missing}" if missing else "")


def in_words(name):
    """A name as it stands in a picture."""
    return name.replace("_", " ").replace("smbase", "SMBASE") if name.islower() else name


def number(digits):
    """A value without the zeros in front."""
    return "closed" if digits == CLOSED else digits.lstrip("0") or "0"


def interrupt_words(platform, entry):
    """An interrupt command."""
    interrupt = interrupt_of(platform, entry)
    if interrupt is None:
        return f"command {entry.text['high']} {entry.text['low']}"
    page = "" if interrupt.page is None else f" {interrupt.page:02x}"
    if interrupt.apic is None:
        return f"{interrupt.kind}{page} to all others"
    known = interrupt.apic in platform.apic
    to = f"p{platform.apic.index(interrupt.apic)}" if known else f"nobody (APIC ID {interrupt.apic})"
    return f"{interrupt.kind}{page} to {to}"


def entry_words(platform, entry, register):
    """One step, without who makes it; `register` is the register that it is at, if it is at one."""
    if entry.kind in PLAIN:
        return PLAIN[entry.kind]
    if entry.kind == "icr":
        return interrupt_words(platform, entry)
    if register:
        return register_words(entry, register)
    return access_words(platform, entry) + (", a hole" if is_hole(platform, entry) else "")


def register_words(entry, register):
    """A register's value as words, else as its digits."""
    is_read = entry.kind in ("in", "cfgr")
    value = register.words or number(entry.text["answer" if is_read else "value"])
    return f"{in_words(register.name)} {'→' if is_read else '←'} {value}"


def access_words(platform, entry):
    """A read of a place as `place → value`, a write as `place ← value`, an exchange as a question."""
    text = entry.text
    place = in_words(reached(platform, entry) or text["place"])
    if entry.kind == "cas":
        passed = text["answer"] == text["expected"]
        found = f"yes, now {number(text['value'])}" if passed else f"no, {number(text['answer'])}"
        found = "nothing is stored" if is_hole(platform, entry) else found
        return f"{place} = {number(text['expected'])}? {found}"
    return f"{place} → {number(text['answer'])}" if text.get("answer") else f"{place} ← {number(text['value'])}"


def outcome_words(entry):
    """What is told: the outcome, its processor, and what else it names."""
    outcome, numbers = outcome_of(entry)
    rest = [f"{name}={value}" for name, value in numbers.items() if name != "processor"]
    return " ".join([outcome, f"p{numbers['processor']}", *rest])


def is_done(entry):
    """The outcome is no refusal."""
    return entry.text["outcome"] in DONE


def refuses_boot(platform, entries):
    """The boot ended with the entry that read another value than the one it goes on with."""
    if not entries or entries[-1].number >= platform.boot_count:
        return False
    value = entries[-1].value("answer")
    return value is not None and CHECKED.get((entries[-1].kind, entries[-1].text.get("place")), value) != value
