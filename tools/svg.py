"""Shapes of an SVG page."""

import html

INK, FAINT, LINE = "#1b1f24", "#6e7781", "#c9ced4"
GOOD, BAD, HOST, SENT = "#1a7f4b", "#b3261e", "#6a4c9c", "#b3261e"
FOUND, SESSION = "#1a6b3c", "#7d8fa6"
MONO = "DejaVu Sans Mono, Menlo, Consolas, monospace"
SANS = "DejaVu Sans, Verdana, Helvetica, Arial, sans-serif"
# the width of a character over its size: of each in MONO, and about in SANS
ADVANCE = 0.602
NARROW, WIDE = set(" ,.:;'fijlrt1I"), set("mwABCDEGHMNOQSTUVW")
HATCHED = "url(#hatched)"
BAR = 4  # of a latched SMI


def text(x, y, words, size=11, colour=INK, anchor="start", bold=False, font=MONO):
    """Words from x on, or that end or are centred there."""
    weight = ' font-weight="bold"' if bold else ""
    place = "" if anchor == "start" else f' text-anchor="{anchor}"'
    style = f'font-size="{size}" fill="{colour}"{place}{weight} font-family="{font}"'
    return f'<text x="{x:.1f}" y="{y:.1f}" {style}>{html.escape(words)}</text>'


def width_of(words, size=11):
    """How wide words are in MONO."""
    return len(words) * size * ADVANCE


def sans_width(words, size):
    """How wide words are in SANS, about."""
    return size * sum(0.37 if letter in NARROW else 0.75 if letter in WIDE else 0.61 for letter in words)


def box(x, y, width, height, fill, stroke=None, radius=0):
    """A filled rectangle."""
    line = f' stroke="{stroke}"' if stroke else ""
    corner = f' rx="{radius}"' if radius else ""
    return f'<rect x="{x:.2f}" y="{y:.1f}" width="{width:.2f}" height="{height:.1f}" fill="{fill}"{line}{corner}/>'


def flag(x, y, words, fill, size=10):
    """Words in white on a filled box whose left edge is x; y is the words' base line."""
    width = width_of(words, size) + 10
    return box(x, y - size, width, size + 4, fill, radius=3) + "\n" + text(x + 5, y, words, size, "white", bold=True)


def arrow(x1, y1, x2, y2, head, turn=None):
    """A curve that arrives level; it begins at `turn`, and before that goes straight, from `x1` on.

    `head` is `sent` or `found`, which also says its colour.
    """
    turn = x1 if turn is None else turn
    bend = (turn + x2) / 2
    line = f'stroke="{SENT}"' if head == "sent" else f'stroke="{FOUND}" stroke-dasharray="4 3"'
    path = f"M{x1:.1f},{y1:.1f} H{turn:.1f} C{bend:.1f},{y1:.1f} {bend:.1f},{y2:.1f} {x2:.1f},{y2:.1f}"
    return f'<path d="{path}" fill="none" {line} stroke-width="1.3" marker-end="url(#{head})"/>'


def marker(name, colour):
    """The head of an arrow."""
    return (
        f'<marker id="{name}" markerWidth="8" markerHeight="8" refX="6" refY="3" orient="auto"'
        ' markerUnits="userSpaceOnUse">'
        f'<path d="M0,0 L6,3 L0,6 z" fill="{colour}"/></marker>'
    )


def page(width, height, about, shapes):
    """A whole picture; `about` is its title for who can't see it."""
    hatched = (
        '<pattern id="hatched" width="6" height="6" patternUnits="userSpaceOnUse" patternTransform="rotate(45)">'
        '<rect width="6" height="6" fill="white"/><path d="M0,0 V6" stroke="#dfe2e6" stroke-width="2"/></pattern>'
    )
    size = f'width="{width:.0f}" height="{height:.0f}" viewBox="0 0 {width:.0f} {height:.0f}"'
    return "\n".join(
        [
            f'<svg xmlns="http://www.w3.org/2000/svg" {size}>',
            f"<title>{html.escape(about)}</title>",
            "<defs>" + marker("sent", SENT) + marker("found", FOUND) + hatched + "</defs>",
            '<rect width="100%" height="100%" fill="white"/>',
            *shapes,
            "</svg>",
            "",
        ]
    )
