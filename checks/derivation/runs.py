"""Runs: what the schedule of docs/FORMATS.md makes of a platform file, as the text of its trace."""

from agents import Agent, agents_of, script
from files import Refused
from firmware import INDICES, BootRefused, Firmware, boot
from machine import RUNNING, SMM, WAIT, Machine


def header(platform):
    """The first line."""
    extended = "" if platform.ext_tseg else " ext=false"
    delivery = f"late lag={platform.lag}" if platform.is_late else "prompt"
    wide = " x2apic=true" if platform.x2apic else ""
    return (
        f"platform apic={','.join(map(str, platform.apic))} boot={','.join(map(str, platform.boot))}"
        f" low={platform.low_memory:08x} tseg={platform.tseg_mib}{extended} features={platform.features}"
        f" polls={platform.polls} turns={platform.turns} modern={str(platform.modern).lower()}"
        f" smram={str(platform.default_smram).lower()} delivery={delivery}{wide}"
    )


# how many digits the place of an access has, and which accesses have a width of their own
DIGITS = {"load": 8, "store": 8, "cas": 8, "in": 4, "out": 4, "cfgr": 2, "cfgw": 2}
WIDTHS = {"cas": 8, "cfgr": 1, "cfgw": 1}


def step_text(access, answer):
    """A step, with its answer."""
    kind, *rest = access
    if kind == "icr":
        return f"icr {rest[0]:08x} {rest[1]:08x}"
    if kind not in DIGITS:
        return " ".join(map(str, access))
    width = WIDTHS.get(kind) or rest.pop(0)
    front = kind if kind in WIDTHS else f"{kind} {width}"
    place, *values = rest
    text = f"{front} {place:0{DIGITS[kind]}x}" + "".join(f" {value:0{2 * width}x}" for value in values)
    return text if answer is None else f"{text} = {answer:0{2 * width}x}"


class Run:
    """A file, played."""

    def __init__(self, file):
        self.file, self.platform = file, file.platform
        self.machine, self.firmware = Machine(self.platform), Firmware(self.platform)
        for slot in range(1, len(self.platform.boot)):
            _, (_, width, address, value) = self.firmware.put("", "release", slot, 1)
            self.machine.memory.store(True, address, width, value)
        self.agents = agents_of(file)
        self.hosts = {}
        for turn, what, place in file.hosts:
            self.hosts.setdefault(turn, []).append((what, place))
        # of each processor in SMM: its handler, and what that wants now
        self.handlers, self.wanted = {}, {}
        self.lines = [header(self.platform)]

    def note(self, actor, text):
        """An entry."""
        self.lines.append(f"{actor} {text}")

    def make(self, place, access, at=None):
        """Makes an access, notes it, and answers what it was answered. Whom it ejects loses handler and agent."""
        answer, ejected = self.machine.access(place, at is not None, access)
        self.note(f"p{place}" if at is None else f"p{place} @{at:08x}", step_text(access, answer))
        if ejected is not None:
            self.handlers.pop(ejected, None)
            self.agents[ejected] = Agent(script([]))
        return answer

    def boot(self):
        """The boot sequence."""
        accesses, answer = boot(self.platform), None
        try:
            while True:
                answer = self.make(0, accesses.send(answer))
        except StopIteration:
            return

    def turn(self, number):
        """A turn: the host's events, then the processor's, or its SMI's."""
        for what, place in self.hosts.get(number, []):
            if self.machine.host(what, place):
                self.note("host", f"{what} {place}")
        count = len(self.platform.apic)
        place = number % count
        if any(cpu == place and first <= number <= last for cpu, first, last in self.file.stalls):
            return
        cpu = self.machine.cpus[place]
        own = number // count
        if self.platform.is_late and own % (self.platform.lag + 1) == self.platform.lag:
            if cpu.smi and cpu.is_outside:
                self.enter(place, cpu)
        elif cpu.mode == SMM:
            self.handle(place, cpu)
        elif cpu.is_outside:
            self.act(place, cpu)

    def act(self, place, cpu):
        """A processor outside SMM."""
        if cpu.smi and not self.platform.is_late:
            self.enter(place, cpu)
        elif cpu.init and not cpu.smi:
            self.note(f"p{place}", "init")
            cpu.init, cpu.mode = False, WAIT
        elif cpu.mode == RUNNING:
            agent = self.agents[place]
            agent.answer = self.make(place, agent.ask(cpu.page))

    def enter(self, place, cpu):
        """SMI entry."""
        self.note(f"p{place}", "smi")
        self.machine.enter(cpu)
        self.handlers[place] = self.firmware.handler(place, cpu.smbase)
        self.wanted[place] = next(self.handlers[place])

    def handle(self, place, cpu):
        """A processor in SMM."""
        label, access = self.wanted[place]
        at = cpu.smbase + 0x8000 + 4 * INDICES[label]
        answer = self.make(place, access, at)
        if access == ("rsm",):
            self.machine.resume(cpu)
        elif place in self.handlers:
            self.wanted[place] = self.handlers[place].send(answer)

    def text(self):
        """All lines so far."""
        return "".join(f"{line}\n" for line in self.lines)


def derived(file):
    """What `run` writes of a file: status, output, and the text behind `hotplug: `."""
    run = Run(file)
    try:
        run.boot()
    except BootRefused as fault:
        return 7, run.text(), f"boot refused: {fault}"
    for number in range(run.platform.turns):
        run.turn(number)
    run.lines.append(f"end {len(run.lines) - 1}")
    return 0, run.text(), ""


def answered(read, text):
    """The same of a file's text."""
    try:
        return derived(read(text))
    except Refused as fault:
        return fault.status, "", fault.text
