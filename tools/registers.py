"""Registers by the names that EDK II and QEMU have for them, and their values as words.

docs/FORMATS.md has a table of the names. What a value says goes by docs/MACHINE.md, and so does which accesses are a
register's: the register block takes any width at a register's first port, all other ports one width alone. Some words
depend on what was written before: the block's form and its last command, the key that fw_cfg has selected.
"""

from dataclasses import dataclass

from blocks import FIRST, GET_ARCH_ID, GET_PENDING, Block

SELECTOR, CONTROL, COMMAND, DATA = FIRST, FIRST + 4, FIRST + 5, FIRST + 8
APM_CNT, APM_STS, GPE0_STS, SMI_EN = 0xB2, 0xB3, 0x620, 0x630
FW_CFG_SELECTOR, FW_CFG_DATA, FW_CFG_DMA_HIGH, FW_CFG_DMA_LOW = 0x510, 0x511, 0x514, 0x518
EXT_TSEG_MBYTES, F_SMBASE, MCH_SMRAM, MCH_ESMRAMC = 0x50, 0x9C, 0x9D, 0x9E

# the register block's, by port, and by whether it is read or written
BLOCK = {
    (SELECTOR, "out"): "selector",
    (SELECTOR, "in"): "command_data_2",
    (CONTROL, "out"): "control",
    (CONTROL, "in"): "status",
    (COMMAND, "out"): "command",
    (DATA, "out"): "command_data",
    (DATA, "in"): "command_data",
}
BITMAP = "cpu_bitmap"
# port and width in bytes; each answers at these alone
PORTS = {
    (APM_CNT, 1): "APM_CNT",
    (APM_STS, 1): "APM_STS",
    (GPE0_STS, 1): "GPE0_STS",
    (SMI_EN, 4): "SMI_EN",
    (FW_CFG_SELECTOR, 2): "FW_CFG_SELECTOR",
    (FW_CFG_DATA, 1): "FW_CFG_DATA",
    (FW_CFG_DMA_HIGH, 4): "FW_CFG_DMA_HIGH",
    (FW_CFG_DMA_LOW, 4): "FW_CFG_DMA_LOW",
}
CONFIGURATION = {
    EXT_TSEG_MBYTES: "EXT_TSEG_MBYTES",
    F_SMBASE: "F_SMBASE",
    MCH_SMRAM: "MCH_SMRAM",
    MCH_ESMRAMC: "MCH_ESMRAMC",
}

# words of bits, of registers where each bit has its own
BITS = {
    "status": {0: "enabled", 1: "insert", 2: "remove", 4: "fw_remove"},
    "control": {1: "clear insert", 2: "clear remove", 3: "eject", 4: "fw_remove"},
    "GPE0_STS": {2: "CPU_HOTPLUG"},
    "SMI_EN": {0: "GBL_SMI_EN", 5: "APMC_EN"},
    "MCH_SMRAM": {3: "G_SMRAME", 4: "D_LCK"},
}
# words of values
COMMANDS = {GET_PENDING: "GET_PENDING", 1: "OST_EVENT", 2: "OST_STATUS", GET_ARCH_ID: "GET_ARCH_ID"}
OST = {1: "OST event", 2: "OST status"}
TSEG_SIZES = ["TSEG_1MB", "TSEG_2MB", "TSEG_8MB", "TSEG_EXT"]
QUERY = 0xFF
ITEMS = {
    0x19: "FILE_DIR",
    0x20: "etc/smi/features-ok",
    0x21: "etc/smi/requested-features",
    0x22: "etc/smi/supported-features",
}


@dataclass
class Register:
    """The register that an access is at, and what its value says, empty where nothing is to be said."""

    name: str
    words: str = ""


def bits_of(value, names):
    """The words of the bits that are set; those without a word as one number."""
    rest = value & ~sum(1 << bit for bit in names)
    words = [word for bit, word in names.items() if value >> bit & 1]
    return ", ".join([*words, *([f"other bits {rest:x}"] if rest else [])])


class Registers:
    """The registers over a whole trace: each entry is handed over once, in order."""

    def __init__(self, platform):
        self.apic = platform.apic
        self.block = Block(platform)
        self.key, self.high = 0, 0

    def step(self, entry):
        """The register of an entry's access, None where it is at none. Moves on by the entry."""
        found = self.named(entry)
        if entry.kind == "out":
            self.select(entry)
        self.block.step(entry)
        return found

    def select(self, entry):
        """Keeps what fw_cfg has selected; a transfer may select too, which isn't followed into memory."""
        at = PORTS.get((entry.value("place"), int(entry.text["width"])))
        if at == "FW_CFG_SELECTOR":
            self.key = entry.value("value")
        elif at == "FW_CFG_DMA_HIGH":
            self.high = swapped(entry.value("value"))
        elif at == "FW_CFG_DMA_LOW":
            self.key, self.high = None, 0

    def named(self, entry):
        """The register, before the entry is made."""
        place, value = entry.value("place"), entry.value("answer" if entry.kind in ("in", "cfgr") else "value")
        if entry.kind in ("cfgr", "cfgw") and place in CONFIGURATION:
            name = CONFIGURATION[place]
            return Register(name, self.configured(name, value, entry.kind == "cfgw"))
        if entry.kind not in ("in", "out"):
            return None
        if (place, entry.kind) in BLOCK:
            return self.on_block(BLOCK[place, entry.kind], value, entry.kind == "out")
        name = PORTS.get((place, int(entry.text["width"])))
        return name and Register(name, self.at_port(name, value, entry.kind == "out"))

    def configured(self, name, value, is_write):
        """What a value of a lock register says."""
        if name == "MCH_ESMRAMC":
            words = ["T_EN" if value & 1 else "", TSEG_SIZES[value >> 1 & 3], bits_of(value & ~7, {})]
            return ", ".join(filter(None, words))
        if name == "MCH_SMRAM":
            return bits_of(value, BITS[name])
        if is_write and value == QUERY:
            return "QUERY"
        if name == "F_SMBASE":
            return "LCK" if value & 2 else "IN_RAM" if value == 1 else ""
        return f"{value} MiB" if value and not is_write else ""

    def at_port(self, name, value, is_write):
        """What a value says at a port of ICH9 or fw_cfg."""
        if name == "APM_CNT":
            return "CPU_HOTPLUG" if value == 4 else ""
        if name == "GPE0_STS":
            return ("clear " if is_write and value else "") + bits_of(value, BITS[name])
        if name == "SMI_EN":
            return bits_of(value, BITS[name])
        if name == "FW_CFG_SELECTOR" and is_write:
            return ITEMS.get(value, "an empty item")
        if name == "FW_CFG_DATA" and not is_write:
            return ITEMS.get(self.key, "")
        if name == "FW_CFG_DMA_LOW" and is_write:
            address = self.high << 32 | swapped(value)
            return f"descriptor at {address:08x}"
        return ""

    def on_block(self, name, value, is_write):
        """A register of the block, in the form that it has."""
        if not self.block.modern:
            return self.in_legacy(name, value, is_write)
        if name == "selector":
            return Register(name, self.place(value))
        if not self.block.is_selected:
            return Register(name, "no processor is selected")
        if name in BITS:
            return Register(name, bits_of(value & 0xFF, BITS[name]))
        if name == "command":
            return Register(name, COMMANDS.get(value & 0xFF, ""))
        if name == "command_data":
            return Register(name, OST.get(self.block.command, "") if is_write else self.data(value))
        return Register(name)

    def in_legacy(self, name, value, is_write):
        """The same in the legacy form: a write of 0 at the first port leaves it, and a read has a bit a processor."""
        if name == "command_data_2":
            there = [f"p{place}" for place in range(32) if value >> place & 1]
            return Register(BITMAP, ", ".join(there))
        if name == "selector" and value == 0 and self.block.can_switch:
            return Register(name, "to the modern form")
        return Register(name, "ignored in the legacy form" if is_write else "")

    def data(self, value):
        """What command data reads: whom the search has found, or an APIC ID; nothing where the width has cut it."""
        selected = self.block.selector
        if self.block.command == GET_PENDING and value == selected:
            return self.place(value)
        if self.block.command == GET_ARCH_ID and value == self.apic[selected]:
            return f"APIC ID {value}"
        return ""

    def place(self, value):
        """The processor with this number."""
        return f"p{value}" if value < len(self.apic) else "no processor"


def swapped(value):
    """Four bytes in the other order: the highest comes first at the DMA address."""
    return int.from_bytes(value.to_bytes(4, "little"), "big")
