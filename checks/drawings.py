"""SVG pictures read back for checks/tools: their texts with the room that these take, and their boxes."""

import xml.dom.minidom
from dataclasses import dataclass

# the width of a letter over its size: of each letter in a font of one width, and in another at least
MONO, SANS = 0.602, 0.5
# where the entries' numbers end in a chart
NUMBERS_END = 48


@dataclass
class Text:
    """Words and the room that they take: from left to right, and from the top of a capital to below the base line."""

    words: str
    left: float
    right: float
    base: float
    size: float

    def crosses(self, other):
        """Both have the same room somewhere."""
        is_beside = self.right <= other.left + 0.5 or other.right <= self.left + 0.5
        upper, lower = sorted((self, other), key=lambda text: text.base)
        return not is_beside and lower.base - 0.7 * lower.size < upper.base + 0.2 * upper.size


class Drawing:
    """A picture: its width and height, its texts and its boxes, of which each is width, height, colour, x and y."""

    def __init__(self, svg):
        page = xml.dom.minidom.parseString(svg).documentElement
        self.width, self.height = (float(page.getAttribute(name)) for name in ("width", "height"))
        self.texts = [text_of(element) for element in page.getElementsByTagName("text")]
        self.boxes = [box_of(element) for element in page.getElementsByTagName("rect")]

    @property
    def words(self):
        """The words of all texts."""
        return [text.words for text in self.texts]

    @property
    def numbers(self):
        """The entries' numbers in a chart, each with the base line of its row."""
        found = [text for text in self.texts if abs(text.right - NUMBERS_END) < 0.1 and text.words.isdecimal()]
        return {int(text.words): text.base for text in found}

    def fault(self):
        """A text that leaves the page, or two that cross; None where there is no such text."""
        texts = sorted(self.texts, key=lambda text: text.base)
        for index, text in enumerate(texts):
            if text.left < 0 or text.right > self.width or text.base > self.height:
                return f"{text.words!r} leaves the page"
            for other in texts[index + 1 :]:
                if other.base > text.base + 20:
                    break
                if text.crosses(other):
                    return f"{text.words!r} crosses {other.words!r}"
        return None


def text_of(element):
    """A text, by its anchor, size and font."""
    words = "".join(node.data for node in element.childNodes)
    size = float(element.getAttribute("font-size"))
    width = len(words) * size * (MONO if "Mono" in element.getAttribute("font-family") else SANS)
    before = {"end": width, "middle": width / 2}.get(element.getAttribute("text-anchor"), 0)
    left = float(element.getAttribute("x")) - before
    return Text(words, left, left + width, float(element.getAttribute("y")), size)


def box_of(element):
    """A box's width, height, colour, x and y; one that fills the page has none of these numbers."""
    width, height, x, y = (element.getAttribute(name).rstrip("%") or "0" for name in ("width", "height", "x", "y"))
    return float(width), float(height), element.getAttribute("fill"), float(x), float(y)
