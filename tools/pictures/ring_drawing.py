"""Draws a ring: the circle, the nodes with their shares, and the keys with their homes."""
import math
from typing import Any, Dict, List, Tuple

from reading.texts import counted

from . import svg
from .rings import SPAN, Key, keys_of, ring_of
from .svg import FAINT, INK, MARGIN, RULE, WIDTH

MIDDLE, RADIUS, BAND = WIDTH / 2, 172, 24
LABELLED_TOKENS, TRACED_KEYS, NAMED_KEYS, MOST_KEYS = 40, 6, 12, 40
TRACK = 14
STRIP, STRIP_END = 170, 690


def percent(share: int) -> str:
    """A share of the ring in percent, with one digit behind the point."""
    tenths = (share * 2000 + SPAN) // (2 * SPAN)
    return "under 0.1 %" if tenths == 0 else f"{tenths // 10}.{tenths % 10} %"


def point(part: float, radius: float, y: float) -> Tuple[float, float]:
    """Where a part of the whole turn lies on a circle, clockwise from its top."""
    angle = 2 * math.pi * part
    return MIDDLE + radius * math.sin(angle), y - radius * math.cos(angle)


def at(letter: str, part: float, radius: float, y: float) -> str:
    """The step of a path to a point of a circle."""
    return letter + " ".join(map(svg.figure, point(part, radius, y)))


def along(begin: float, length: float, radius: float, y: float) -> str:
    """The steps along a circle; two of them, as one of a whole turn would have no direction."""
    turn = f"A{svg.figure(radius)} {svg.figure(radius)} 0 0 {1 if length > 0 else 0} "
    return " ".join(at(turn, begin + length * half, radius, y) for half in (0.5, 1))


def wedge(begin: float, length: float, y: float) -> str:
    """The outline of a part of the ring's band; a short one is straight."""
    inner, outer, end = RADIUS - BAND / 2, RADIUS + BAND / 2, begin + length
    corners = at("M", begin, inner, y), at("L", begin, outer, y), at("L", end, inner, y)
    if length < 1 / 200:
        return " ".join((*corners[:2], at("L", end, outer, y), corners[2], "Z"))
    there, back = along(begin, length, outer, y), along(end, -length, inner, y)
    return " ".join((*corners[:2], there, corners[2], back, "Z"))


def spread(parts: List[float], least: float) -> List[float]:
    """The rising parts of a turn moved as little as keeps them so far from each other."""
    if not parts:
        return []
    count = len(parts)
    gaps = [(parts[(i + 1) % count] - parts[i]) % 1 for i in range(count)]
    gaps[-1] = gaps[-1] or 1 - sum(gaps)
    first = (gaps.index(max(gaps)) + 1) % count
    turned = [parts[(first + i) % count] + (first + i) // count for i in range(count)]
    # Neighbours that are too close become a run, which lies about the middle of its parts.
    runs: List[List[float]] = []
    for part in turned:
        runs.append([part])
        while len(runs) > 1 and begin_of(runs[-2], least) + least * len(runs[-2]) \
                > begin_of(runs[-1], least):
            last = runs.pop()
            runs[-1] += last
    placed = [begin_of(run, least) + least * i for run in runs for i in range(len(run))]
    return [placed[(i - first) % count] for i in range(count)]


def begin_of(run: List[float], least: float) -> float:
    """Where a run begins that lies about the middle of its parts."""
    return sum(run) / len(run) - least * (len(run) - 1) / 2


class Drawing:
    """A ring's picture while it is painted, from the top down."""

    def __init__(self, script: Dict[str, Any]) -> None:
        self.ring = ring_of(script)
        self.keys = keys_of(script, self.ring)
        self.drawn = self.keys[:MOST_KEYS]
        self.n = script["n"]
        tokens, nodes = len(self.ring.tokens), self.ring.nodes
        self.title = f"A ring of {counted(nodes, 'node')} with {counted(tokens, 'token')}"
        self.picture = svg.Picture(self.title)
        self.is_traced = len(self.drawn) <= TRACED_KEYS and tokens <= LABELLED_TOKENS
        self.outer = RADIUS + BAND / 2 + 10 + (TRACK * len(self.drawn) if self.is_traced else 0)
        self.y = 76 + self.outer + (28 if self.drawn else 0)

    def paint(self) -> str:
        """The whole picture."""
        self.picture.text(MARGIN, 40, self.title, 20, bold=True)
        homes = {0: "A key has no home", 1: "A key's home is the first node"}.get(
            self.n, f"A key's homes are the first {self.n} distinct nodes")
        self.picture.text(MARGIN, 62, homes + f" clockwise from its position (n = {self.n})",
                          fill=FAINT)
        self.band()
        self.token_labels()
        self.tracks()
        self.key_labels()
        self.inside()
        below = self.y + self.outer + (44 if self.drawn else 14)
        below = self.node_rows(below)
        if self.keys:
            below = self.key_rows(below + 28)
        below = self.legend(below + 14)
        return self.picture.written(below, self.description())

    def band(self) -> None:
        """The ring itself, each arc in the colour of the node whose token ends it."""
        picture, arcs = self.picture, self.ring.arcs()
        for node in range(self.ring.nodes):
            steps = [wedge(begin / SPAN, length / SPAN, self.y)
                     for owner, begin, length in arcs if owner == node]
            picture.path(steps, "none", 0, svg.colour_of(node))
        if len(arcs) <= 256:
            steps = []
            for position, _ in self.ring.tokens:
                part = position / SPAN
                steps.append(at("M", part, RADIUS - BAND / 2, self.y) + " "
                             + at("L", part, RADIUS + BAND / 2, self.y))
            picture.path(steps, svg.WHITE, 2 if len(arcs) <= 64 else 0.75)

    def token_labels(self) -> None:
        """Each token's node within the ring, where they are few enough."""
        tokens = self.ring.tokens
        if len(tokens) > LABELLED_TOKENS:
            return
        inner = RADIUS - BAND / 2
        parts = [position / SPAN for position, _ in tokens]
        placed = spread(parts, 22 / (2 * math.pi * (inner - 20)))
        for (_, node), part, label in zip(tokens, parts, placed):
            x, y = point(label, inner - 20, self.y)
            self.picture.line(*point(part, inner, self.y), x, y, INK, 1)
            self.picture.badge(x, y, node)

    def inside(self) -> None:
        """How the ring is read, in its middle, and where its quarters begin."""
        inner = RADIUS - BAND / 2
        few = len(self.ring.tokens) <= LABELLED_TOKENS
        for quarter, digits in enumerate(("00", "40", "80", "c0")):
            x, y = point(quarter / 4, inner - (48 if few else 16), self.y)
            self.picture.text(x, y + 4, digits, 12, "middle", FAINT, mono=True)
        lines = ["positions run", "clockwise from 00;", "an arc belongs to", "the token at its end"]
        for row, words in enumerate(lines):
            self.picture.text(MIDDLE, self.y - 20 + 17 * row, words, 12.5, "middle", FAINT)

    def tracks(self) -> None:
        """Each key's way clockwise, from its position to the last of its homes."""
        if not self.is_traced:
            return
        for number, key in enumerate(self.drawn):
            radius = RADIUS + BAND / 2 + 10 + TRACK * number
            left, met = set(key.homes), []
            for position, node in self.ring.walk(key.position):
                if not left:
                    break
                met.append((position, node, node in left))
                left.discard(node)
            begin = key.position / SPAN
            length = ((met[-1][0] - key.position - 1) % SPAN + 1) / SPAN if met else 0.0
            way = at("M", begin, radius, self.y) + " " + along(begin, length, radius, self.y)
            self.picture.path([way], INK, 1.5)
            self.stops(met, radius)

    def stops(self, met: List[Tuple[int, int, bool]], radius: float) -> None:
        """The tokens that a key meets on its way: homes, and nodes that were met before."""
        parts = [position / SPAN for position, _, _ in met]
        placed = spread(parts, 11 / (2 * math.pi * radius))
        for part, (_, node, is_home) in zip(placed, met):
            x, y = point(part, radius, self.y)
            fill = svg.colour_of(node) if is_home else svg.WHITE
            self.picture.add("circle", cx=x, cy=y, r=5 if is_home else 3.5, fill=fill,
                             stroke=INK, stroke_width=1)

    def key_labels(self) -> None:
        """Each key at its position, by its name where keys are few, and else by its number."""
        keys = sorted(enumerate(self.drawn), key=lambda pair: pair[1].position)
        names = [self.label(number) for number, _ in keys]
        widths = [svg.width_of(name, 12, bold=True) + 10 for name in names]
        radius = self.outer + 16
        parts = [key.position / SPAN for _, key in keys]
        placed = spread(parts, max(widths + [22]) / (2 * math.pi * radius))
        for (number, _), name, width, part, label in zip(keys, names, widths, parts, placed):
            track = RADIUS + BAND / 2 + (TRACK * number + 10 if self.is_traced else 6)
            x, y = point(label, radius, self.y)
            x += math.sin(2 * math.pi * label) * max(0, width / 2 - 10)
            way = [at("M", part, RADIUS + BAND / 2, self.y), at("L", part, track, self.y)]
            self.picture.path(way + [f"L{svg.figure(x)} {svg.figure(y)}"], INK, 1)
            self.picture.add("rect", x=x - width / 2, y=y - 9, width=width, height=18, rx=4,
                             fill=svg.WHITE, stroke=INK)
            self.picture.text(x, y + 4.2, name, 12, "middle", bold=True)
            if self.is_traced:
                cx, cy = point(part, track, self.y)
                self.picture.add("circle", cx=cx, cy=cy, r=2.5, fill=INK)

    def label(self, number: int) -> str:
        """What a key is called on the circle."""
        if len(self.drawn) > NAMED_KEYS:
            return str(number + 1)
        return svg.shortened(svg.shown(self.drawn[number].name), 90, 12, bold=True)

    def node_rows(self, y: float) -> float:
        """A row for each node: its tokens, where they lie, and its share; ends at the height."""
        picture, shares = self.picture, self.ring.shares()
        for x, words, anchor in ((MARGIN, "node", "start"), (128, "tokens", "end"),
                                 (WIDTH - MARGIN, "share", "end")):
            picture.text(x, y, words, 12, anchor, FAINT)
        wide = STRIP_END - STRIP
        bottom = y + 8 + 22 * self.ring.nodes
        for quarter, digits in enumerate(("00", "40", "80", "c0")):
            x = STRIP + wide * quarter / 4
            picture.line(x, y + 5, x, bottom, RULE)
            picture.text(x, y, digits, 12, "middle", FAINT, mono=True)
        picture.line(STRIP_END, y + 5, STRIP_END, bottom, RULE)
        arcs = self.ring.arcs()
        for node in range(self.ring.nodes):
            middle = y + 19 + 22 * node
            own = [(begin, length) for owner, begin, length in arcs if owner == node]
            picture.badge(MARGIN + 12, middle, node)
            picture.text(128, middle + 4, str(len(own)), 12.5, "end")
            self.strip(node, own, middle)
            picture.text(WIDTH - MARGIN, middle + 4, percent(shares[node]), 12.5, "end")
        return bottom

    def strip(self, node: int, own: List[Tuple[int, int]], middle: float) -> None:
        """The node's arcs and tokens on the ring that is unrolled."""
        wide, arcs, ticks = STRIP_END - STRIP, [], []
        for begin, length in own:
            end = (begin + length) % SPAN
            pieces = [(begin, begin + length)] if begin + length <= SPAN else [(begin, SPAN), (0, end)]
            for left, right in pieces:
                x, more = svg.figure(STRIP + wide * left / SPAN), wide * (right - left) / SPAN
                arcs.append(f"M{x} {svg.figure(middle)} h{svg.figure(max(more, 0.2))}")
            ticks.append(f"M{svg.figure(STRIP + wide * end / SPAN)} {svg.figure(middle - 8)} v16")
        self.picture.path(arcs, svg.colour_of(node), 9)
        self.picture.path(ticks, INK, 1.5 if len(own) <= 16 else 0.6)

    def key_rows(self, y: float) -> float:
        """A row for each key: its name, its position and its homes; ends at the height."""
        picture = self.picture
        for x, words in ((MARGIN, "key"), (250, "position: its MD5"), (502, "homes, in order")):
            picture.text(x, y, words, 12, fill=FAINT)
        y += 7
        for number, key in enumerate(self.drawn):
            picture.line(MARGIN, y, WIDTH - MARGIN, y)
            y = self.key_row(number, key, y + 14)
        if len(self.keys) > len(self.drawn):
            left = counted(len(self.keys) - len(self.drawn), "further key")
            picture.text(MARGIN, y + 8, f"and {left}, not drawn", fill=FAINT)
            y += 18
        return y

    def key_row(self, number: int, key: Key, middle: float) -> float:
        """The row of one key; its homes stand in lines of twelve."""
        picture, x = self.picture, MARGIN
        if len(self.drawn) > NAMED_KEYS:
            picture.text(x + 22, middle + 4, str(number + 1), 12, "end", bold=True)
            x += 32
        picture.text(x, middle + 4, svg.shortened(svg.shown(key.name), 240 - x, 13), 13)
        digits = f"{key.position:032x}"
        picture.text(250, middle + 4, digits, 12, mono=True)
        for place, node in enumerate(key.homes):
            picture.badge(512 + 23 * (place % 12), middle + 23 * (place // 12), node)
        return middle + 14 + 23 * (max(0, len(key.homes) - 1) // 12)

    def legend(self, y: float) -> float:
        """What the marks of keys mean; ends at the height of the picture."""
        picture = self.picture
        if not self.drawn or not self.is_traced or not self.n:
            return y
        picture.line(MARGIN, y, WIDTH - MARGIN, y)
        y += 20
        picture.path([f"M{MARGIN} {svg.figure(y)} h24"], INK, 1.5)
        picture.add("circle", cx=MARGIN, cy=y, r=2.5, fill=INK)
        picture.text(MARGIN + 32, y + 4, "a key's way clockwise", 12, fill=FAINT)
        picture.add("circle", cx=250, cy=y, r=5, fill=svg.colour_of(0), stroke=INK)
        picture.text(264, y + 4, "a home, in its node's colour", 12, fill=FAINT)
        picture.add("circle", cx=506, cy=y, r=3.5, fill=svg.WHITE, stroke=INK)
        picture.text(520, y + 4, "a node met before: skipped", 12, fill=FAINT)
        return y + 20

    def description(self) -> str:
        """The picture in words."""
        shares = self.ring.shares()
        parts = [self.title + "."]
        for node in range(self.ring.nodes):
            count = sum(owner == node for _, owner in self.ring.tokens)
            parts.append(f"Node {node}: {counted(count, 'token')}, {percent(shares[node])}.")
        for key in self.drawn:
            homes = " ".join(map(str, key.homes)) or "none"
            parts.append(f"Key {svg.shown(key.name)} at {key.position:032x}: homes {homes}.")
        return " ".join(parts)


def drawn_ring(script: Dict[str, Any]) -> str:
    """The picture of the script's ring."""
    return Drawing(script).paint()
