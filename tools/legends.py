"""The legend of a picture."""

from dataclasses import dataclass
from typing import Callable

import svg
from words import MODES

LINE, SIZE = 17, 10


@dataclass
class Sample:
    """A shape that stands before its words."""

    width: float
    draw: Callable
    words: str

    @property
    def whole(self):
        """How wide both are, with the gap behind them."""
        return self.width + 6 + svg.sans_width(self.words, SIZE) + 18


def modes(fill):
    """A box for each colour, with the words of all modes that have it."""
    for colour in dict.fromkeys(fill.values()):
        words = " or ".join(MODES[mode] for mode in fill if fill[mode] == colour)
        yield Sample(13, lambda x, y, colour=colour: svg.box(x, y - 9.5, 13, 11, colour, svg.LINE), words)


def arrow_sample(head, words):
    """A short arrow."""
    return Sample(26, lambda x, y: svg.arrow(x, y - 4, x + 26, y - 4, head), words)


def bar_sample(width, height, colour, words):
    """A bar."""
    return Sample(13, lambda x, y: svg.box(x + 6.5 - width / 2, y - 4 - height / 2, width, height, colour), words)


def placed(left, right, samples):
    """Each sample with its x and its line, in as many lines as it takes."""
    x, line = left, 0
    for sample in samples:
        if x + sample.whole - 18 > right and x > left:
            x, line = left, line + 1
        yield x, line, sample
        x += sample.whole


def height(left, right, samples):
    """How far below its first base line a legend's last one is."""
    return LINE * max(line for _, line, _ in placed(left, right, samples))


def legend(left, top, right, samples):
    """What each sample means, from `left` to `right`."""
    for x, line, sample in placed(left, right, samples):
        y = top + LINE * line
        yield sample.draw(x, y)
        yield svg.text(x + sample.width + 6, y, sample.words, SIZE, svg.FAINT, font=svg.SANS)
