"""Why a step stands where it does: a short reason for each label and each access of the boot, from docs/HANDLERS.md."""

import os
import re

from names import label_at

HANDLERS = os.path.join(os.path.dirname(os.path.dirname(os.path.abspath(__file__))), "docs", "HANDLERS.md")
# the tables by their heads, and the column of the reason
TABLES = {"| Label | Access | Next | Why here |": 3, "| No. | Access | For | Definition |": 2}
# the two accesses that a TSEG of 48 MiB puts between the boot's accesses 15 and 16
EXTRA, AFTER = ["15a", "15b"], 15
RANGE = re.compile(r"(\d+) to (\d+)")
DEFINITION = re.compile(r" \(`[^`]*`\)")


class NoReasons(OSError):
    """The page with the reasons isn't there, or has none for a label."""


def rows_of(lines):
    """The cells of each row of a table of reasons, with the column of the reason."""
    column = None
    for line in lines:
        line = line.strip()
        column = TABLES.get(line, column if line.startswith("|") else None)
        if column and line not in TABLES and not line.startswith("|---"):
            yield [cell.strip() for cell in line.strip("|").split("|")], column


def named_in(cell):
    """The labels or numbers in the first cell of a row: one, some with commas, or a range of numbers."""
    found = RANGE.fullmatch(cell)
    return [str(number) for number in range(int(found[1]), int(found[2]) + 1)] if found else cell.split(", ")


def short(cell):
    """The first sentence, without names of definitions and the marks of code."""
    return DEFINITION.sub("", cell).replace("`", "").partition(". ")[0].rstrip(".")


class Reasons:
    """The reasons of labels and of the boot's accesses."""

    def __init__(self, platform):
        try:
            with open(HANDLERS, encoding="utf-8") as lines:
                self.by_name = {name: short(cells[at]) for cells, at in rows_of(lines) for name in named_in(cells[0])}
        except OSError as fault:
            raise NoReasons(f"{HANDLERS}: {fault.strerror}") from fault
        self.platform = platform
        numbers = [str(number) for number in range(1, 28)]
        self.boot = [*numbers[:AFTER], *(EXTRA if platform.tseg_mib == 48 else []), *numbers[AFTER:]]

    def of(self, entry):
        """Why an entry is made, None where no table says it: outside SMM after the boot, and of the host."""
        if entry.address is not None:
            return self.by_name.get(label_at(self.platform, entry.address))
        is_boots = entry.actor == 0 and entry.number <= len(self.boot)
        return self.by_name.get(self.boot[entry.number - 1]) if is_boots else None
