"""Recorded answers: what a version of QEMU said to each case and trace, line by line."""

import re
import zlib
from dataclasses import dataclass
from pathlib import Path

from cases import HERE, cases, traces
from playing import compared

FOLDER = HERE / "answers"
FIRST = re.compile(r"QEMU (?P<number>[\d.]+)(?P<package>.*)")
DAY = re.compile(r".*played on (?P<day>\d{4}-\d{2}-\d{2})\.")
ANSWER = re.compile(r" *(?P<number>\d+) (?P<text>.*?) +(?P<verdict>SAME|DIFF .+)")


class Stale(Exception):
    """No recorded answers are those of a case as it is: record them anew."""


@dataclass
class Answers:
    """Those of one version: number and package as QEMU prints them, the day, and by case its sum and a verdict for each compared line."""

    number: str
    package: str
    day: str
    verdicts: dict

    @property
    def order(self):
        """Versions in ascending order."""
        return [int(part) for part in self.number.split(".")]


def everything():
    """All that is played."""
    return cases() + traces()


def sum_of(case):
    """Tells whether a case is as it was: over the lines that say something to QEMU, and their numbers."""
    return f"{zlib.crc32(''.join(f'{line.number} {line.text} {line.machine}' for line in case.lines).encode()):08x}"


def is_compared(line):
    """Whether a line of a case has an answer to be held against."""
    return line.kind in ("insert", "remove") or line.wanted is not None and bool(line.words)


def lines_of(case, played):
    """The recorded form of a case."""
    yield f"== {case.name} {sum_of(case)}"
    for one in compared(played):
        yield f"{one.line.number:>5} {one}"


def written(version, day, results):
    """The text of a file of answers, from pairs of a case and how it was played."""
    lines = [f"QEMU {version}", f"q35, stopped, under TCG; played on {day}."]
    for case, played in results:
        lines += ["", *lines_of(case, played)]
    return "\n".join(lines) + "\n"


def read(path):
    """The answers of a file."""
    lines = Path(path).read_text(encoding="ascii").splitlines()
    first, day = FIRST.fullmatch(lines[0]), DAY.fullmatch(lines[1])
    verdicts, name = {}, None
    for text in lines[2:]:
        if text.startswith("== "):
            _, name, told = text.split()
            verdicts[name] = (told, {})
        elif text:
            found = ANSWER.fullmatch(text)
            verdicts[name][1][int(found["number"])] = found["verdict"]
    return Answers(first["number"], first["package"].strip(" ()"), day["day"], verdicts)


def recorded():
    """All files of answers, the oldest version first."""
    return sorted((read(path) for path in FOLDER.glob("qemu-*.txt")), key=lambda answers: answers.order)


def read_running(path):
    """The number of a version, and what it came to by rule, where processors ran."""
    lines = Path(path).read_text(encoding="ascii").splitlines()
    return FIRST.fullmatch(lines[0])["number"], dict(zip(lines[3::2], (line.strip() for line in lines[4::2]), strict=True))


def recorded_running():
    """The same of each version."""
    return dict(read_running(path) for path in sorted(FOLDER.glob("processors-*.txt")))


def by_line(answers, case):
    """The verdict on each compared line of a case, by its number; None where the case was another one then."""
    told, verdicts = answers.verdicts.get(case.name, (None, None))
    return verdicts if told == sum_of(case) else None
