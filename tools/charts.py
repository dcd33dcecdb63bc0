"""The chart: a lane a processor, a row an entry, arrows between lanes. For runs of some hundred entries."""

from bisect import bisect_left
from collections import Counter

import svg
from legends import arrow_sample, bar_sample, height, legend, modes
from names import is_hole, label_at, reached
from replay import ABSENT, DEFAULT, HALTED, RUNNING, TSEG, WAITING
from rows import crowd_of, rows_of
from words import entry_words, is_done, outcome_words, places_words, platform_words, refuses_boot

FILL = {
    RUNNING: "#ffffff",
    DEFAULT: "#ffdfb8",
    TSEG: "#d3e6fb",
    WAITING: "#eceef0",
    HALTED: "#eceef0",
    ABSENT: svg.HATCHED,
}
SENT = arrow_sample("sent", "interrupt command, or SMI of APM_CNT")
FOUND = arrow_sample("found", "a shared byte's store, and the load that finds it")
LATCHED = bar_sample(svg.BAR, 11, svg.SENT, "latched SMI")

ROW, LEGEND, LEFT, GAP, MARGIN, INSET, LABEL = 16, 60, 58, 46, 16, 8, 36
HEADS = 29  # from the legend to the first row
NARROWEST, LEAST_LANE = 680, 190
MOST_LANES = 6  # of a chart that isn't asked for
MOST_OWN = 4  # lanes over which the processors that only follow share one
CROWD = 2**32  # that lane, behind those of all processors
MOST_WORDS = 3  # of what a crowd does from one row to the next
NEAR = 60  # rows over which a store is still tied to the load that finds it
SMALL = 9


class Chart:
    """Where everything of a chart stands."""

    def __init__(self, shown):
        self.shown, self.platform, self.entries, self.replay = shown, shown.platform, shown.entries, shown.replay
        self.begins = {session.first: session for session in shown.sessions}
        self.disturbs = {entry.number: session for session in shown.sessions for entry in session.disturbing}
        self.crowd = crowd_of(self.platform, self.entries, MOST_OWN)
        self.rows = rows_of(self.platform, self.entries, self.crowd, self.disturbs)
        self.numbers = [row.entry.number for row in self.rows]
        own = {row.entry.processor for row in self.rows} - self.crowd
        self.lanes = [*sorted({0} | own), *([CROWD] if self.crowd else [])]
        self.pending = {place: list(self.bars(place)) for place in self.lanes if place != CROWD}
        self.widths = self.widths_of_lanes()
        self.lefts, right = {}, LEFT - GAP
        for place in self.lanes:
            self.lefts[place] = right + GAP
            right = self.lefts[place] + self.widths[place]
        self.width = right + MARGIN
        self.samples = [*modes(FILL), SENT, FOUND, *([LATCHED] if any(self.pending.values()) else [])]
        self.top = LEGEND + height(16, self.width - 16, self.samples) + HEADS
        self.bottom = self.top + ROW * len(self.rows) + (ROW if self.refused else 0)

    @property
    def refused(self):
        """The boot ended with a refusal."""
        return refuses_boot(self.platform, self.entries)

    def widths_of_lanes(self):
        """How wide each lane is: all that stands in it has room, and no lane or picture is too narrow."""
        least = max(LEAST_LANE, (NARROWEST - LEFT - MARGIN + GAP) / len(self.lanes) - GAP)
        widths = dict.fromkeys(self.lanes, least)
        for row in self.rows:
            place = row.entry.processor
            widths[place] = max(widths[place], self.width_in_lane(row) + 2 * INSET)
            if row.others:
                widths[CROWD] = max(widths[CROWD], svg.width_of(self.others_words(row), SMALL) + 2 * INSET)
        return widths

    def width_in_lane(self, row):
        """How much of its lane a row takes."""
        if row.note:
            return svg.width_of(row.note)
        if row.entry.actor is None:
            return svg.width_of("host removes p000", 10) + 10
        return LABEL + self.width_of_words(row) + self.width_of_mark(row)

    def width_of_words(self, row):
        """How wide a processor's step is."""
        if row.entry.kind == "tell":
            return svg.width_of(outcome_words(row.entry), 10) + 10
        return svg.width_of(self.row_words(row))

    def width_of_mark(self, row):
        """How wide the mark behind a step is, with the gap before it."""
        mark, _ = self.mark(row)
        return svg.width_of(mark, SMALL) + 10 + 2 * INSET if mark else 0

    def row_words(self, row):
        """A step, and how often it was made."""
        words = row.words or entry_words(self.platform, row.entry, self.replay.registers.get(row.entry.number))
        return words + (f"  ×{row.count}" if row.count > 1 else "")

    def mark(self, row):
        """What a step is for a session: it begins it, or disturbs it; and whether that is a disturbed one."""
        session = self.begins.get(row.entry.number)
        if session:
            return f"session {session.number}{', disturbed' if session.is_disturbed else ''}", session.is_disturbed
        session = self.disturbs.get(row.entry.number)
        return (f"disturbs session {session.number}", True) if session else ("", False)

    def others_words(self, row):
        """What the crowd does from this row to the next."""
        common = row.others.most_common(MOST_WORDS)
        more = ", .." if len(row.others) > len(common) else ""
        return ", ".join(f"{word} ×{count}" for word, count in common) + more

    def left(self, processor):
        """The left edge of a lane."""
        return self.lefts[processor]

    def right(self, processor):
        """The right edge of a lane."""
        return self.lefts[processor] + self.widths[processor]

    def y(self, index):
        """The upper edge of a row."""
        return self.top + ROW * index

    def base(self, index):
        """The base line of a row's words."""
        return self.y(index) + 12

    def between(self, source, target):
        """From which edge to which edge an arrow goes, and where the gap before that begins."""
        if target > source:
            return self.right(source), self.left(target) - 1, self.left(target) - GAP
        return self.left(source), self.right(target) + 1, self.right(target) + GAP

    def head(self):
        """Title, platform, legend, and the heads of the lanes."""
        yield svg.text(16, 25, self.shown.title, 16, bold=True, font=svg.SANS)
        yield svg.text(16, 43, platform_words(self.platform), 10.5, svg.FAINT, font=svg.SANS)
        yield from legend(16, LEGEND, self.width - 16, self.samples)
        for place in self.lanes:
            name, about = self.named(place)
            yield svg.text(self.left(place), self.top - 7, name, 12, bold=True, font=svg.SANS)
            yield svg.text(self.right(place), self.top - 7, about, 10, svg.FAINT, "end", font=svg.SANS)

    def named(self, place):
        """The head of a lane, and what stands at its right."""
        if place == CROWD:
            return f"{len(self.crowd)} others", places_words(self.crowd)
        return f"p{place}{', the monarch' if place == 0 else ''}", f"APIC ID {self.platform.apic[place]}"

    def shades(self, processor):
        """What a processor's lane is filled with: one box for each stretch of rows in one mode."""
        changes = iter(self.replay.changes[processor])
        upcoming, mode, begin = next(changes), None, 0
        for index, number in enumerate(self.numbers):
            while upcoming and upcoming[0] <= number:
                if mode not in (None, upcoming[1]) and index > begin:
                    yield self.shade(processor, begin, index, mode)
                    begin = index
                mode, upcoming = upcoming[1], next(changes, None)
        if mode:
            yield self.shade(processor, begin, len(self.rows), mode)

    def shade(self, processor, begin, end, mode):
        """A box over these rows of a lane."""
        x, y, width = self.left(processor), self.y(begin), self.widths[processor]
        return svg.box(x, y, width, ROW * (end - begin), FILL[mode], svg.LINE)

    def crowded(self):
        """The lane of the crowd: how many of it are in which mode, over all stretches of rows in which that stays."""
        changes = sorted((number, place, mode) for place in self.crowd for number, mode in self.replay.changes[place])
        at, mode_of, stretches = 0, {}, []
        for index, number in enumerate(self.numbers):
            while at < len(changes) and changes[at][0] <= number:
                mode_of[changes[at][1]] = changes[at][2]
                at += 1
            counts = Counter(mode_of.values())
            if not stretches or stretches[-1][1] != counts:
                stretches.append((index, counts))
        ends = [begin for begin, _ in stretches[1:]] + [len(self.rows)]
        for (begin, counts), end in zip(stretches, ends, strict=True):
            x = self.left(CROWD)
            for mode in FILL:
                width = self.widths[CROWD] * counts[mode] / len(self.crowd)
                if width:
                    yield svg.box(x, self.y(begin), width, ROW * (end - begin), FILL[mode])
                x += width
        yield svg.box(self.left(CROWD), self.top, self.widths[CROWD], ROW * len(self.rows), "none", svg.LINE)

    def bars(self, processor):
        """Over which rows an SMI is latched that this processor, outside SMM, hasn't taken."""
        for begin, end in self.replay.pending(processor, self.numbers[0], self.numbers[-1]) if self.numbers else ():
            first, past = bisect_left(self.numbers, begin), bisect_left(self.numbers, end)
            if first < past:
                yield first, past

    def latched(self, processor):
        """A bar at the edge of the lane where one is, from the arrow on that latches it."""
        for first, past in self.pending[processor]:
            y = self.y(first) + (ROW / 2 if self.numbers[first] in self.replay.hits else 0)
            yield svg.box(self.left(processor) + 1, y, svg.BAR, self.y(past) - y, svg.SENT)

    def row(self, index, row):
        """The words of a row."""
        entry, y = row.entry, self.base(index)
        x = self.left(entry.processor) + INSET
        if row.others:
            yield svg.text(self.left(CROWD) + INSET, y, self.others_words(row), SMALL)
        if row.note:
            yield svg.text(x, y, row.note, 11, svg.FAINT)
            return
        yield svg.text(LEFT - 10, y, str(entry.number), SMALL, svg.FAINT, "end")
        if entry.actor is None:
            yield svg.flag(x, y, f"host {entry.kind}s p{entry.processor}", svg.HOST)
            return
        if entry.address is not None:
            yield svg.text(x, y, label_at(self.platform, entry.address) or "?", bold=True)
        if entry.kind == "tell":
            yield svg.flag(x + LABEL, y, outcome_words(entry), svg.GOOD if is_done(entry) else svg.BAD)
        else:
            colour = svg.BAD if is_hole(self.platform, entry) else svg.INK
            yield svg.text(x + LABEL, y, self.row_words(row), colour=colour)
        yield from self.marked(row, y)

    def marked(self, row, y):
        """The mark at the right of a row's lane."""
        words, is_bad = self.mark(row)
        right = self.right(row.entry.processor) - INSET
        if is_bad:
            yield svg.flag(right - svg.width_of(words, SMALL) - 10, y, words, svg.BAD, SMALL)
        elif words:
            yield svg.text(right, y, words, SMALL, svg.FAINT, "end")

    def sent(self, index, row):
        """An arrow to each processor that an interrupt command or the SMI command hits, one behind the other."""
        _, hit = self.replay.hits.get(row.entry.number, (None, []))
        actor, y = row.entry.actor, self.base(index) - 4
        places = sorted({CROWD if place in self.crowd else place for place in hit} - {actor})
        hit = [place for place in places if place in self.lanes and not row.note]
        for side in ([place for place in hit if place > actor], [place for place in reversed(hit) if place < actor]):
            begin = None
            for place in side:
                x1, x2, _ = self.between(actor, place)
                yield svg.arrow(x1 if begin is None else begin, y, x2, y, "sent")
                begin = x2

    def found(self):
        """An arrow from each store of a shared byte to the first load by another processor that finds it.

        It passes the lanes between on the store's row, where they have no words.
        """
        stores = {}
        for index, row in enumerate(self.rows):
            entry = row.entry
            place = None if row.note or row.words else shared_place(self.platform, entry)
            if place is None:
                continue
            store = stores.get(place)
            if entry.kind != "store" and store and finds(store[1], entry) and index - store[0] <= NEAR:
                x1, x2, turn = self.between(store[1].actor, entry.actor)
                yield svg.arrow(x1, self.base(store[0]) - 4, x2, self.base(index) - 4, "found", turn)
                stores.pop(place)
            if entry.kind == "store" or entry.kind == "cas" and entry.text["answer"] == entry.text["expected"]:
                stores[place] = index, entry

    def refusal(self):
        """The flag of a refused boot, below its last row."""
        if self.refused:
            yield svg.flag(self.left(0) + INSET + LABEL, self.base(len(self.rows)), "boot refused", svg.BAD)

    def draw(self):
        """The whole picture."""
        shapes = [*self.head()]
        for place in self.lanes:
            shapes += self.crowded() if place == CROWD else [*self.shades(place), *self.latched(place)]
        for index, row in enumerate(self.rows):
            shapes += [*self.row(index, row), *self.sent(index, row)]
        shapes += [*self.found(), *self.refusal()]
        return svg.page(self.width, self.bottom + 16, f"{self.shown.title}. {platform_words(self.platform)}", shapes)


def shared_place(platform, entry):
    """The name of the shared bytes that an entry reaches, None where it reaches none."""
    return None if is_hole(platform, entry) else reached(platform, entry)


def finds(store, entry):
    """The load reads what the store of another processor has left, and that isn't 0 or closed."""
    value = entry.value("answer")
    return store.actor != entry.actor and store.value("value") == value and value not in (0, 2**64 - 1)
