"""The machine, by the rules of docs/MACHINE.md: memory behind its locks, processors, interrupt commands, register block, ICH9, fw_cfg."""

from dataclasses import dataclass

MIB = 0x100000
WAIT, RUNNING, HALTED, SMM = "wait", "running", "halted", "smm"
DEFAULT_SMBASE = 0x30000
REVISION = 0x20064
BLOCK, BLOCK_END = 0xCD8, 0xCE4
FILES = (("features-ok", 1, 0x20), ("requested-features", 8, 0x21), ("supported-features", 8, 0x22))


@dataclass
class Cpu:
    """A processor. `page` is where it runs or is halted outside SMM."""

    present: bool = False
    mode: str = WAIT
    page: int = 0
    smbase: int = DEFAULT_SMBASE
    smi: bool = False
    init: bool = False

    @property
    def is_outside(self):
        """It is there, and takes SMIs."""
        return self.present and self.mode in (RUNNING, HALTED)

    def hit(self, kind, vector=0):
        """An SMI, INIT or SIPI reaches it."""
        if not self.present:
            return
        if kind == "smi":
            self.smi = True
        elif kind == "init":
            self.init = self.init or self.mode != WAIT
        elif self.mode == WAIT:
            self.mode, self.page = RUNNING, vector


class Memory:
    """Bytes, and the registers that lock them."""

    def __init__(self, platform):
        self.platform = platform
        self.bytes = {}
        self.area = self.smram = self.esmramc = self.extended = 0

    @property
    def is_fixed(self):
        """D_LCK is set."""
        return bool(self.smram & 0x10)

    def read_register(self, register):
        """A byte of configuration space."""
        return {0x9C: self.area, 0x9D: self.smram, 0x9E: self.esmramc, 0x50: self.extended}.get(register, 0)

    def write_register(self, register, value):
        """The same, written."""
        if register == 0x9C:
            if self.area == 0 and value == 0xFF:
                self.area = int(self.platform.default_smram)
            elif self.area == 1 and value != 0xFF and value & 2:
                self.area = 2
        elif self.is_fixed:
            return
        elif register == 0x9D:
            self.smram = value & 0x18
        elif register == 0x9E:
            self.esmramc = value & 0x07
        elif register == 0x50 and value == 0xFF and self.platform.ext_tseg and self.platform.low_memory >= 64 * MIB:
            self.extended = 0x30

    def is_locked(self, address):
        """The byte is in a locked range."""
        if self.area == 2 and 0x30000 <= address <= 0x4FFFF:
            return True
        size = (1, 2, 8, self.extended)[self.esmramc >> 1] if self.esmramc & 1 else 0
        return self.smram == 0x18 and self.platform.low_memory - size * MIB <= address < self.platform.low_memory

    def is_hole(self, inside, address, width):
        """One of the bytes is hidden."""
        span = range(address, address + width)
        return any(at >= self.platform.low_memory or not inside and self.is_locked(at) for at in span)

    def load(self, inside, address, width):
        """All ones of a hole."""
        if self.is_hole(inside, address, width):
            return 256**width - 1
        return int.from_bytes(bytes(self.bytes.get(address + at, 0) for at in range(width)), "little")

    def store(self, inside, address, width, value):
        """A hole takes nothing."""
        if not self.is_hole(inside, address, width):
            self.bytes.update(enumerate(value.to_bytes(width, "little"), address))


class Block:
    """The register block."""

    def __init__(self, platform):
        self.platform = platform
        self.is_modern = False
        self.selector = self.command = 0
        count = len(platform.apic)
        self.enabled = [place in platform.boot for place in range(count)]
        self.inserted, self.removed, self.handed = [False] * count, [False] * count, [False] * count

    def status(self):
        """The status byte of the selected processor."""
        place = self.selector
        return self.enabled[place] | self.inserted[place] << 1 | self.removed[place] << 2 | self.handed[place] << 4

    def read(self, offset):
        """A register, before it is cut to the width."""
        if not self.is_modern:
            return sum(1 << place for place, there in enumerate(self.enabled[:32]) if there) if offset == 0 else 0
        if self.selector >= len(self.enabled):
            return 0
        if offset == 4:
            return self.status()
        return {0: self.selector, 3: self.platform.apic[self.selector]}.get(self.command, 0) if offset == 8 else 0

    def write(self, offset, value):
        """Writes a register, and answers whom that ejects, if anybody."""
        if not self.is_modern:
            self.is_modern = self.platform.modern and offset == 0 and value == 0
        elif offset == 0:
            self.selector = value
        elif self.selector < len(self.enabled):
            if offset == 4:
                return self.control(value)
            if offset == 5:
                self.command = value & 0xFF
                if self.command == 0:
                    self.search()
        return None

    def control(self, value):
        """The lowest of bits 1 to 4 acts alone."""
        place, lowest = self.selector, next((bit for bit in (1, 2, 3, 4) if value >> bit & 1), None)
        can_leave = place != 0 and self.enabled[place]
        if lowest == 1:
            self.inserted[place] = False
        elif lowest == 2:
            self.removed[place] = False
        elif lowest == 3 and can_leave:
            self.enabled[place] = self.handed[place] = False
            return place
        elif lowest == 4 and can_leave:
            self.handed[place] = True
        return None

    def search(self):
        """Command 0."""
        count = len(self.enabled)
        for place in (*range(self.selector, count), *range(self.selector)):
            if self.inserted[place] or self.removed[place] or self.handed[place]:
                self.selector = place
                return


class FwCfg:
    """fw_cfg: its items, and the negotiation of SMI features."""

    def __init__(self, platform):
        self.supported = platform.features
        self.request = bytearray(8)
        self.negotiated = None
        self.key = self.offset = self.high = 0

    def item(self):
        """The bytes of the selected item."""
        if self.key == 0x19:
            return len(FILES).to_bytes(4) + b"".join(listed(*file) for file in FILES)
        supported = self.supported.to_bytes(8, "little")
        return {0x20: bytes([self.negotiated is not None]), 0x21: bytes(self.request), 0x22: supported}.get(self.key, b"")

    def select(self, key):
        """Selects an item; features-ok looks at the request."""
        self.key, self.offset = key, 0
        wanted = int.from_bytes(self.request, "little")
        if key == 0x20 and self.negotiated is None and wanted in (0, 1, 3, 7) and not wanted & ~self.supported:
            self.negotiated = wanted

    def take(self, count):
        """The next bytes of the item, 0 past its end, where the offset stays."""
        item = self.item()
        taken = item[self.offset : self.offset + count].ljust(count, b"\0")
        self.offset = min(len(item), self.offset + count)
        return taken

    def transfer(self, memory, low):
        """A transfer: the descriptor's address is in both halves."""
        at, self.high = self.high << 32 | turned(low), 0
        if memory.is_hole(False, at, 16):
            return
        fields = bytes(memory.load(False, at + place, 1) for place in range(16))
        control, length = int.from_bytes(fields[:4]), int.from_bytes(fields[4:8])
        if control & 8:
            self.select(control >> 16)
        failed = self.move(memory, control, length, int.from_bytes(fields[8:]))
        memory.store(False, at, 4, turned(int(failed)))

    def move(self, memory, control, length, address):
        """Its data; whether that is an error."""
        is_near = length <= 256 and address < 2**32
        if control & 2:
            if is_near:
                for place, one in enumerate(self.take(length)):
                    memory.store(False, address + place, 1, one)
            return not is_near
        if control & 16:
            if not is_near or self.key != 0x21 or self.offset + length > 8:
                return True
            for place in range(length):
                self.request[self.offset + place] = memory.load(False, address + place, 1)
            self.offset += length
        elif control & 4:
            self.take(length if length <= 256 else 0)
            return length > 256
        return False


def listed(name, size, key):
    """A file of the directory."""
    return size.to_bytes(4) + key.to_bytes(2) + bytes(2) + f"etc/smi/{name}".encode().ljust(56, b"\0")


def turned(word):
    """The 4 bytes of a number, the other way round."""
    return int.from_bytes(word.to_bytes(4, "little"))


class Machine:
    """All of it. An access is a tuple, as (`load`, width, address); a port's as (`in`, width, port)."""

    def __init__(self, platform):
        self.platform = platform
        self.memory, self.block, self.fw_cfg = Memory(platform), Block(platform), FwCfg(platform)
        self.command = self.command_status = self.gpe = self.smi_enable = 0
        self.cpus = [Cpu() for _ in platform.apic]
        for slot, place in enumerate(platform.boot):
            self.cpus[place] = Cpu(True, RUNNING, 0, platform.tile(slot))

    def host(self, what, place):
        """A host event; whether it is a step."""
        cpu = self.cpus[place]
        if what == "insert":
            if cpu.present:
                return False
            self.cpus[place] = Cpu(True)
            self.block.enabled[place] = self.block.inserted[place] = True
        elif cpu.present and place:
            self.block.removed[place] = True
        else:
            return False
        self.gpe |= 4
        return True

    def access(self, place, inside, access):
        """Makes an access: its answer, None where it has none, and whom it ejected."""
        kind, *rest = access
        if kind == "load":
            return self.memory.load(inside, rest[1], rest[0]), None
        if kind == "store":
            self.memory.store(inside, rest[1], rest[0], rest[2])
        elif kind == "cas":
            seen = self.memory.load(inside, rest[0], 8)
            if seen == rest[1]:
                self.memory.store(inside, rest[0], 8, rest[2])
            return seen, None
        elif kind == "in":
            return self.read_port(*rest), None
        elif kind == "out":
            return None, self.write_port(place, *rest)
        elif kind == "cfgr":
            return self.memory.read_register(rest[0]), None
        elif kind == "cfgw":
            self.memory.write_register(*rest)
        elif kind == "icr":
            self.send(place, *rest)
        elif kind == "halt":
            self.cpus[place].mode = HALTED
        return None, None

    def read_port(self, width, port):
        """What a port reads."""
        if BLOCK <= port < BLOCK_END:
            return self.block.read(port - BLOCK) % 256**width
        if (width, port) == (1, 0x511):
            return self.fw_cfg.take(1)[0]
        ports = {
            (1, 0xB2): self.command,
            (1, 0xB3): self.command_status,
            (1, 0x620): self.gpe,
            (4, 0x630): self.smi_enable,
        }
        return ports.get((width, port), 0)

    def write_port(self, place, width, port, value):
        """Writes a port, and answers whom that ejects."""
        where = width, port
        if BLOCK <= port < BLOCK_END:
            ejected = self.block.write(port - BLOCK, value)
            if ejected is not None:
                self.cpus[ejected] = Cpu()
            return ejected
        if where == (1, 0xB2):
            self.command = value
            if self.smi_enable & 0x20:
                everybody = (self.fw_cfg.negotiated or 0) & 1
                for cpu in self.cpus if everybody else [self.cpus[place]]:
                    cpu.hit("smi")
        elif where == (1, 0xB3):
            self.command_status = value
        elif where == (1, 0x620):
            self.gpe &= ~value
        elif where == (4, 0x630):
            self.smi_enable = value
        elif where == (2, 0x510):
            self.fw_cfg.select(value)
        elif where == (4, 0x514):
            self.fw_cfg.high = turned(value)
        elif where == (4, 0x518):
            self.fw_cfg.transfer(self.memory, value)
        return None

    def send(self, sender, high, low):
        """An interrupt command."""
        kind = {2: "smi", 5: "init", 6: "sipi"}.get(low >> 8 & 7)
        shorthand = low >> 18 & 3
        wanted = high if self.platform.x2apic else high >> 24
        for place, cpu in enumerate(self.cpus):
            is_named = shorthand == 3 and place != sender or shorthand == 0 and self.platform.apic[place] == wanted
            if kind and is_named:
                cpu.hit(kind, low & 0xFF)

    def enter(self, cpu):
        """SMI entry."""
        for offset, width, value in ((0xFF00, 4, cpu.smbase), (0xFEFC, 4, REVISION), (0xFF78, 8, cpu.page << 12)):
            self.memory.store(True, cpu.smbase + offset, width, value)
        cpu.smi, cpu.mode = False, SMM

    def resume(self, cpu):
        """RSM."""
        smbase, rip = (self.memory.load(True, cpu.smbase + at, width) for at, width in ((0xFF00, 4), (0xFF78, 8)))
        cpu.mode, cpu.smbase, cpu.page = RUNNING, smbase & ~0xFFFF, rip >> 12 & 0xFFFFF
