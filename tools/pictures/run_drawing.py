"""Draws a run as lanes, one for each node, time downwards."""
from dataclasses import dataclass, field
from typing import Any, Dict, List, Tuple

from reading.texts import counted

from . import marks, svg
from .marks import MARKS, Mark
from .run_words import end_words, words_of
from .runs import Event, Run, run_of
from .svg import ALARM, FAINT, INK, MARGIN, WIDTH

OUTAGE = "#c8c8c8"
LEAST_WORDS, MOST_LANE, TOP = 222, 84, 118
NUMBER, WORDS, BOWED = 52, 62, 30


@dataclass
class Line:
    """The marks of a row that lie at one height."""
    marks: List[Mark]
    arrow: Tuple[int, ...] = ()
    is_taken: bool = False


@dataclass
class Row:
    """A command's row: its words, and its lines of marks."""
    number: str
    asked: str
    came: str
    is_refused: bool
    lines: List[Line] = field(default_factory=list)

    def height(self) -> int:
        """How much of the picture it takes."""
        return max(44 if self.came else 28, 12 + 28 * len(self.lines))


def marks_of(event: Event) -> List[Mark]:
    """The marks of a put or a get; what a node answered last counts."""
    words: Dict[Tuple[int, int], List[str]] = {}
    for place, word in event.answers:
        words.setdefault(place, []).append(word)
    found = []
    for (holder, home), told in words.items():
        kind = {"down": "down", "noanswer": "no answer"}.get(told[-1], "refused")
        if told[-1] == "stored":
            kind = "stored" if holder == home else "stood in"
            kind = "late" if len(told) > 1 and kind == "stored" else kind
        elif told[-1] == "rows":
            kind = "answered" if holder == home else "answered for"
            kind = "mended" if holder == home and holder in event.mended else kind
        found.append(Mark(holder, kind, home, not found))
    return found


def row_of(event: Event) -> Row:
    """The row of a command."""
    asked, came = words_of(event)
    row = Row(str(event.number), asked, came, bool(event.refusal))
    if event.answers:
        row.lines.append(Line(marks_of(event)))
    for home, count, is_out in event.followed.handed:
        leaves = Mark(event.command.node, "handed" if count and is_out else "kept", home)
        takes = Mark(home, "stored" if count else "down", home)
        row.lines.append(Line([leaves, takes], (event.command.node, home), bool(count)))
    for holder, home in event.followed.stored:
        kind = "stored" if holder == home else "stood in"
        row.lines.append(Line([Mark(holder, kind, home)]))
    if event.command.word == "show":
        row.lines.append(Line([Mark(event.command.node, "shown", event.command.node)]))
    return row


def last_row(run: Run) -> Row:
    """The row of the audit: who holds anything, for itself and for whom else."""
    lanes: Dict[int, List[Mark]] = {}
    for holder, home in sorted({place for place, _ in run.held}):
        kind = "stored" if holder == home else "kept"
        lanes.setdefault(holder, []).append(Mark(holder, kind, home))
    depth = max(map(len, lanes.values()), default=0)
    lines = [Line([held[at] for held in lanes.values() if at < len(held)]) for at in range(depth)]
    return Row("", *end_words(run), False, lines)


class Drawing:
    """A run's picture while it is painted: what is behind first, then marks and words."""

    def __init__(self, script: Dict[str, Any], run: Run) -> None:
        self.run = run
        self.title = f"A run of {counted(run.commands, 'command')} on {counted(run.nodes, 'node')}"
        self.picture = svg.Picture(self.title)
        self.quorum = "n = {n}, r = {r}, w = {w}".format(**script)
        self.rows = [row_of(event) for event in run.events] + [last_row(run)]
        self.pitch = min(MOST_LANE, (WIDTH - 2 * MARGIN - LEAST_WORDS) / run.nodes)
        self.left = WIDTH - MARGIN - self.pitch * run.nodes
        self.size = min(9.0, self.pitch * 0.46)
        self.tops = [TOP]
        for row in self.rows:
            self.tops.append(self.tops[-1] + row.height())

    def x(self, lane: int) -> float:
        """The middle of a lane."""
        return self.left + self.pitch * (lane + 0.5)

    def paint(self) -> str:
        """The whole picture."""
        self.picture.text(MARGIN, 40, self.title, 20, bold=True)
        self.picture.text(MARGIN, 62, f"{self.quorum}; time runs down", fill=FAINT)
        self.heads(TOP - 14)
        self.lanes()
        for row, top in zip(self.rows, self.tops):
            self.row(row, top)
        bottom = self.tops[-1]
        if self.run.commands > 12:
            self.heads(bottom + 18)
            bottom += 24
        bottom = self.notes(bottom)
        return self.picture.written(self.legend(bottom + 16), self.description())

    def heads(self, y: float) -> None:
        """The numbers of the nodes, over or under their lanes."""
        wide = self.pitch >= 56
        if not wide:
            self.picture.text(self.left - 6, y, "node", 12, "end", FAINT)
        for lane in range(self.run.nodes):
            words, size = (f"node {lane}", 13) if wide else (str(lane), 12 if self.pitch > 20 else 11)
            self.picture.text(self.x(lane), y, words, size, "middle", bold=wide)

    def lanes(self) -> None:
        """The lanes, grey while a node is down, and dashed while it is in a mode."""
        middles = [(top + end) / 2 for top, end in zip(self.tops, self.tops[1:])]
        for top in self.tops[1:-1]:
            colour = "#8c8c8c" if top == self.tops[-2] else "#ececec"
            self.picture.line(MARGIN, top, WIDTH - MARGIN, top, colour)
        top, bottom = self.tops[0], self.tops[-1]
        for lane in range(self.run.nodes):
            changes = [(event, y) for event, y in zip(self.run.events, middles)
                       if event.command.node == lane and not event.refusal]
            downs = [(y, event.command.word == "down") for event, y in changes
                     if event.command.word in ("down", "up")]
            for begin, end in spans(downs, bottom):
                width = self.pitch * 0.8
                self.picture.add("rect", x=self.x(lane) - width / 2, y=begin, width=width,
                                 height=end - begin, rx=3, fill=OUTAGE)
            faults = [(y, event.command.mode != "none") for event, y in changes
                      if event.command.word == "fault"]
            solid = top
            for begin, end in spans(faults, bottom):
                self.lane(lane, solid, begin)
                self.lane(lane, begin, end, stroke_dasharray="2 5")
                solid = end
            self.lane(lane, solid, bottom)

    def lane(self, lane: int, top: float, bottom: float, **more: str) -> None:
        """A part of a lane's line."""
        if bottom > top:
            width = 3 if more else 1.5
            self.picture.line(self.x(lane), top, self.x(lane), bottom, "#8c8c8c", width, **more)

    def row(self, row: Row, top: float) -> None:
        """The words and the marks of a row."""
        middle = top + row.height() / 2
        room = self.left - WORDS - 6
        first = middle + 4 if not row.came else middle - 5
        if row.number:
            self.picture.text(NUMBER, first, row.number, 12, "end", FAINT)
        bold = not row.number
        self.picture.text(WORDS, first, svg.shortened(row.asked, room, 13, bold), 13, bold=bold)
        if row.came:
            fill = ALARM if row.is_refused else FAINT
            self.picture.text(WORDS, middle + 13, svg.shortened(row.came, room, 12), 12, fill=fill)
        for at, line in enumerate(row.lines):
            self.line(line, middle + 28 * (at - (len(row.lines) - 1) / 2))

    def line(self, line: Line, y: float) -> None:
        """The marks of a line, over what connects them."""
        if line.arrow:
            begin, end = map(self.x, line.arrow)
            side = self.size if begin < end else -self.size
            marks.arrow(self.picture, (begin + side, y), (end - side, y), line.is_taken)
        elif line.marks and line.marks[0].is_first:
            lanes = [mark.lane for mark in line.marks]
            self.picture.line(self.x(min(lanes)), y, self.x(max(lanes)), y, INK, 1.25)
            self.bows(line.marks, y)
        for mark in line.marks:
            marks.paint(self.picture, mark, self.x(mark.lane), y, self.size)

    def bows(self, found: List[Mark], y: float) -> None:
        """From each home that failed to its stand-in, where lanes are broad enough to follow it."""
        for mark in found:
            if mark.kind in ("stood in", "answered for") and self.pitch >= BOWED:
                start = y - (13 if mark.is_first else 10)
                marks.bow(self.picture, self.x(mark.home), self.x(mark.lane), start, 9)

    def notes(self, y: float) -> float:
        """What is not in the picture, or not sure."""
        told = []
        left = self.run.commands - len(self.run.events)
        if left:
            told.append(f"and {counted(left, 'further command')}, not drawn; the end is that of all")
        if not self.run.is_followed:
            told.append("The audit holds something else than what was followed here, as where steps or"
                        " memory ran out:")
            told.append("what was mended, handed over or kept back may be drawn otherwise than it was.")
        for words in told:
            self.picture.text(MARGIN, y + 18, words, 12, fill=ALARM)
            y += 18
        return y

    def legend(self, y: float) -> float:
        """The marks that the picture has, in words; ends at its height."""
        used = {mark.kind for row in self.rows for line in row.lines for mark in line.marks}
        firsts = any(mark.is_first for row in self.rows for line in row.lines for mark in line.marks)
        told = {words: kind for kind, words in MARKS.items() if kind in used}
        entries = [(kind, words) for words, kind in told.items()]
        entries += [("first", "black ring: the coordinator")] if firsts else []
        is_bowed = self.pitch >= BOWED and used & {"stood in", "answered for"}
        entries += [("bow", "from a home to its stand-in")] if is_bowed else []
        dos = {event.command.word for event in self.run.events}
        entries += [("outage", "grey: the node is down")] if "down" in dos else []
        entries += [("mode", "dashed: the node is in a mode")] if "fault" in dos else []
        if entries:
            self.picture.line(MARGIN, y, WIDTH - MARGIN, y)
        for at, (kind, words) in enumerate(entries):
            x, middle = MARGIN + 12 + 256 * (at % 3), y + 22 + 28 * (at // 3)
            self.sample(kind, x, middle)
            self.picture.text(x + 20, middle + 4, words, 12, fill=FAINT)
        return y + 20 + 28 * -(-len(entries) // 3)

    def sample(self, kind: str, x: float, y: float) -> None:
        """A mark of the legend."""
        if kind == "first":
            self.picture.add("circle", cx=x, cy=y, r=11, fill=svg.WHITE, stroke=INK, stroke_width=1.5)
        elif kind == "outage":
            self.picture.add("rect", x=x - 9, y=y - 10, width=18, height=20, rx=3, fill=OUTAGE)
        elif kind == "bow":
            marks.bow(self.picture, x - 8, x + 8, y + 6, 12)
        elif kind == "mode":
            self.picture.line(x, y - 11, x, y + 11, "#8c8c8c", 3, stroke_dasharray="2 5")
        else:
            marks.paint(self.picture, Mark(0, kind, 0), x, y, 9)

    def description(self) -> str:
        """The picture in words, a sentence for each row."""
        parts = [f"{self.title}, {self.quorum}."]
        for row in self.rows:
            told = [mark.words() for line in row.lines for mark in line.marks]
            head = f"{row.number}: {row.asked}" if row.number else row.asked
            parts.append("; ".join(filter(None, [head, row.came, ", ".join(told)])) + ".")
        return " ".join(parts)


def spans(changes: List[Tuple[float, bool]], bottom: float) -> List[Tuple[float, float]]:
    """From where to where something was so, by the heights at which it came and went."""
    found, begin = [], None
    for y, is_so in changes + [(bottom, False)]:
        if is_so and begin is None:
            begin = y
        elif not is_so and begin is not None:
            found.append((begin, y))
            begin = None
    return found


def drawn_run(script: Dict[str, Any], output: str) -> str:
    """The picture of a script's run, from what it printed."""
    return Drawing(script, run_of(script, output)).paint()
