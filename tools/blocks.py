"""The processor hot-plug register block: its form, selector, command and events, as far as a trace is read by them."""

from dataclasses import dataclass

FIRST, PAST = 0xCD8, 0xCE4
GET_PENDING, GET_ARCH_ID = 0, 3


@dataclass
class Slot:
    """What the register block keeps of one processor."""

    enabled: bool
    inserting: bool = False
    removing: bool = False
    ejecting: bool = False

    @property
    def has_event(self):
        """The search finds it."""
        return self.inserting or self.removing or self.ejecting


class Block:
    """The block, which begins in its legacy form."""

    def __init__(self, platform):
        self.can_switch = platform.modern
        self.modern = False
        self.selector = 0
        self.command = GET_PENDING
        self.slots = [Slot(enabled=place in platform.boot) for place in range(len(platform.apic))]

    @property
    def is_selected(self):
        """The modern form's selector names a possible processor."""
        return self.modern and self.selector < len(self.slots)

    def step(self, entry):
        """Moves on by an entry, and answers the processor that this ejects, None where it ejects none."""
        if entry.kind == "insert":
            slot = self.slots[entry.processor]
            slot.enabled = slot.inserting = True
        elif entry.kind == "remove":
            self.slots[entry.processor].removing = True
        elif writes_block(entry):
            return self.write(entry.value("place") - FIRST, entry.value("value"))
        return None

    def write(self, offset, value):
        """Writes a register, and answers the processor that this ejects, None where it ejects none."""
        if not self.modern:
            self.modern = self.can_switch and offset == 0 and value == 0
        elif offset == 0:
            self.selector = value
        elif self.is_selected:
            if offset == 4:
                return self.control(value & 0xFF)
            if offset == 5:
                self.order(value & 0xFF)
        return None

    def control(self, value):
        """The lowest of bits 1 to 4 acts alone."""
        slot = self.slots[self.selector]
        if value & 2:
            slot.inserting = False
        elif value & 4:
            slot.removing = False
        elif self.selector and slot.enabled and value & 8:
            slot.enabled = slot.ejecting = False
            return self.selector
        elif self.selector and slot.enabled and value & 16:
            slot.ejecting = True
        return None

    def order(self, command):
        """A command. The search finds the next processor with an event, from the selector upward and round."""
        self.command = command
        if command == GET_PENDING:
            count = len(self.slots)
            places = ((self.selector + step) % count for step in range(count))
            self.selector = next((place for place in places if self.slots[place].has_event), self.selector)


def writes_block(entry):
    """A write to a port of the register block, at any width."""
    return entry.kind == "out" and FIRST <= entry.value("place") < PAST
