"""The overview: a thin lane a processor, coloured by where it is; time goes to the right. For runs of any length."""

import svg
from legends import bar_sample, height, legend, modes
from names import outcome_of
from replay import ABSENT, DEFAULT, HALTED, RUNNING, TSEG, WAITING
from words import is_done, platform_words

FILL = {
    RUNNING: "#e4f2e4",
    DEFAULT: "#f2a24a",
    TSEG: "#6fa8e8",
    WAITING: "#dfe2e6",
    HALTED: "#dfe2e6",
    ABSENT: svg.HATCHED,
}
SESSION = bar_sample(13, 5, svg.SESSION, "session of the monarch")
DISTURBED = bar_sample(13, 5, svg.BAD, "disturbed session; a tick where it is disturbed")
LATCHED = bar_sample(13, 2, svg.SENT, "latched SMI")
LEGEND, LEFT, WIDTH, FLAG, LEVELS = 62, 56, 900, 14, 6
STRIP = 24  # of the sessions, below the lanes: their bars and numbers
# how high a lane is, by how many there are at most
HEIGHTS = {16: 20, 64: 12, 128: 6, 512: 2}
NAMED_EVERY = 32  # of lanes that are lower than their names
SMALL, NUMBER = 8.5, 7.5
STEP = 0.25  # what is narrower than this, in pixels, isn't drawn


class Overview:
    """Where everything of an overview stands."""

    def __init__(self, shown):
        self.shown, self.platform, self.entries, self.replay = shown, shown.platform, shown.entries, shown.replay
        self.first, self.last = (self.entries[0].number, self.entries[-1].number) if self.entries else (1, 1)
        self.lanes = sorted({0} | {entry.processor for entry in self.entries})
        self.places = {place: at for at, place in enumerate(self.lanes)}
        self.lane = next(high for most, high in HEIGHTS.items() if len(self.lanes) <= most)
        self.scale = WIDTH / max(self.last - self.first + 1, 1)
        self.sessions = [it for it in shown.sessions if it.first <= self.last and (it.last or self.last) >= self.first]
        self.flags, self.levels = self.placed()
        self.samples = [*modes(FILL), *self.used_samples()]
        self.top = LEGEND + height(16, LEFT + WIDTH + 8, self.samples) + 26 + FLAG * self.levels

    def used_samples(self):
        """What else the legend has to say here."""
        if self.sessions:
            yield SESSION
        if any(session.is_disturbed for session in self.sessions):
            yield DISTURBED
        if self.platform.lag:
            yield LATCHED

    def x(self, number):
        """Where an entry stands."""
        return LEFT + (number - self.first) * self.scale

    def y(self, processor):
        """The upper edge of a lane."""
        return self.top + self.places[processor] * self.lane

    @property
    def bottom(self):
        """The lower edge of the last lane."""
        return self.top + self.lane * len(self.lanes)

    @property
    def foot_line(self):
        """The base line of what stands below lanes and sessions."""
        return self.bottom + 15 + (STRIP if self.sessions else 0)

    def placed(self):
        """The told outcomes, each with the lowest level where its words have room, else None; and how many levels."""
        flags, free = [], [0.0] * LEVELS
        for entry in self.entries:
            if entry.kind == "tell":
                outcome, numbers = outcome_of(entry)
                words = f"{outcome} p{numbers['processor']}"
                x = min(self.x(entry.number), LEFT + WIDTH - svg.width_of(words, SMALL) - 10)
                level = next((level for level in range(LEVELS) if free[level] <= x), None)
                flags.append((entry, x, words, level))
                if level is not None:
                    free[level] = x + svg.width_of(words, SMALL) + 13
        return flags, max((level + 1 for _, _, _, level in flags if level is not None), default=0)

    def head(self):
        """Title, platform, legend."""
        yield svg.text(16, 25, self.shown.title, 16, bold=True, font=svg.SANS)
        words = f"{platform_words(self.platform)}, {len(self.entries)} entries"
        yield svg.text(16, 43, words, 10.5, svg.FAINT, font=svg.SANS)
        yield from legend(16, LEGEND, LEFT + WIDTH + 8, self.samples)

    def lane_of(self, processor):
        """A processor's name and its modes."""
        y = self.y(processor)
        size = 10 if self.lane >= 12 else 8
        if self.lane >= 12 or self.places[processor] % NAMED_EVERY == 0:
            yield svg.text(LEFT - 8, y + self.lane / 2 + size * 0.35, f"p{processor}", size, svg.INK, "end")
        gap = 1 if self.lane > 2 else 0
        shown = LEFT
        for _, end, mode in self.replay.spans(processor, self.first, self.last):
            x = round(self.x(end) / STEP) * STEP
            if x > shown:
                yield svg.box(shown, y + gap, x - shown, self.lane - 2 * gap, FILL[mode])
                shown = x
        yield from self.latched(processor)

    def latched(self, processor):
        """With late SMIs, a line under a lane where one is latched."""
        if not self.platform.lag:
            return
        shown, high = LEFT, max(self.lane / 8, 1)
        for begin, end in self.replay.pending(processor, self.first, self.last):
            left, right = max(self.x(begin), shown), round(self.x(end) / STEP) * STEP
            if right > left:
                yield svg.box(left, self.y(processor) + self.lane - high - 1, right - left, high, svg.SENT)
                shown = right

    def all_sessions(self):
        """A bar a session below the lanes, its number where there is room, and a tick for each entry that disturbs it."""
        free, y = 0.0, self.bottom + 5
        if self.sessions:
            yield svg.text(LEFT - 8, y + 6, "sessions", SMALL, svg.FAINT, "end", font=svg.SANS)
        for session in self.sessions:
            colour = svg.BAD if session.is_disturbed else svg.SESSION
            begin = self.x(max(session.first, self.first))
            end = self.x(min(session.last or self.last, self.last) + 1)
            yield svg.box(begin, y, max(end - begin, 2 * STEP), 5, colour)
            if begin >= free:
                yield svg.text(begin, y + 14, str(session.number), NUMBER, colour)
                free = begin + svg.width_of(str(session.number), NUMBER) + 4
            for entry in session.disturbing:
                if self.first <= entry.number <= self.last:
                    yield svg.box(self.x(entry.number), self.y(entry.processor), 1.5, max(self.lane, 6), svg.BAD)

    def hosts(self):
        """A triangle on its lane for each host event."""
        for entry in self.entries:
            if entry.actor is None:
                x, y = self.x(entry.number), self.y(entry.processor) + 1
                yield f'<path d="M{x:.1f},{y + 6:.1f} l-4,-7 h8 z" fill="{svg.HOST}"/>'

    def told(self):
        """A line and a flag for each outcome; where a flag has no room, a short line alone."""
        for entry, x, words, level in self.flags:
            colour = svg.GOOD if is_done(entry) else svg.BAD
            line, end = self.x(entry.number), self.top if level is None else self.bottom
            yield f'<path d="M{line:.1f},{self.top - 4:.1f} V{end:.1f}" stroke="{colour}" stroke-width="0.8"/>'
            if level is not None:
                yield svg.flag(x, self.top - 8 - FLAG * level, words, colour, SMALL)

    def foot(self):
        """The numbers of the entries, and what flags and triangles are."""
        y = self.foot_line
        yield svg.text(LEFT, y, f"entry {self.first}", 9, svg.FAINT)
        yield svg.text(LEFT + WIDTH, y, f"entry {self.last}", 9, svg.FAINT, "end")
        words = "flags: outcomes that the monarch tells; triangles: host events"
        idle = len(self.platform.apic) - len(self.lanes)
        if idle:
            words += f"; {idle} processor{'s' * (idle > 1)} without a step left out"
        yield svg.text(LEFT + WIDTH / 2, y, words, 10, svg.FAINT, "middle", font=svg.SANS)

    def draw(self):
        """The whole picture."""
        shapes = [*self.head()]
        for processor in self.lanes:
            shapes += self.lane_of(processor)
        shapes += [*self.all_sessions(), *self.hosts(), *self.told(), *self.foot()]
        about = f"{self.shown.title}. {platform_words(self.platform)}"
        return svg.page(LEFT + WIDTH + 24, self.foot_line + 11, about, shapes)
