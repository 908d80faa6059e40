"""The marks of a run's lanes: shapes that tell what a node did, each with its words."""
from dataclasses import dataclass
from typing import Tuple

from .svg import FAINT, INK, WHITE, Picture, figure

BLUE, GREEN, AMBER, BROWN = "#0072b2", "#00795a", "#ffd479", "#8a5200"
MARKS = {
    "stored": "home holds it for itself",
    "late": "home holds it, and answered late",
    "stood in": "stand-in holds it for home 0: a hint",
    "kept": "stand-in holds it for home 0: a hint",
    "handed": "hint for home 0, handed over",
    "answered": "home answered the get",
    "answered for": "stand-in answered for home 0",
    "mended": "home answered, and was mended",
    "down": "was asked, and is down",
    "no answer": "was asked, and no answer came",
    "refused": "was asked, and refused",
    "shown": "what it holds is shown",
}
FOR_ANOTHER = ("stood in", "kept", "handed", "answered for")


@dataclass(frozen=True)
class Mark:
    """What a node did in a row, for which home where that is another node."""
    lane: int
    kind: str
    home: int
    is_first: bool = False

    def words(self) -> str:
        """The mark in words, for those who hear the picture."""
        if self.kind in FOR_ANOTHER:
            return f"node {self.lane} {self.kind.replace(' for', '')} for home {self.home}"
        return f"node {self.lane} {self.kind}"


def paint(picture: Picture, mark: Mark, x: float, y: float, size: float) -> None:
    """Paints a mark with its middle at (x, y); its size is half its width."""
    is_square = mark.kind in FOR_ANOTHER
    if mark.is_first:
        wide = size + (3.5 if size > 8 else 2.5)
        picture.add("rect", x=x - wide, y=y - wide, width=2 * wide, height=2 * wide,
                    rx=5 if is_square else wide, fill=WHITE, stroke=INK, stroke_width=1.5)
    if is_square:
        _square(picture, mark, x, y, size)
    elif mark.kind in ("down", "shown"):
        _lines(picture, mark.kind, x, y, size * 0.6)
    elif mark.kind in ("no answer", "refused"):
        picture.add("circle", cx=x, cy=y, r=size, fill=WHITE, stroke=FAINT, stroke_dasharray="3 2")
        picture.text(x, y + 4, "?" if mark.kind == "no answer" else "!", 12, "middle", bold=True)
    else:
        _circle(picture, mark.kind, x, y, size)


def _square(picture: Picture, mark: Mark, x: float, y: float, size: float) -> None:
    is_full = mark.kind in ("stood in", "kept")
    dashes = {"stroke_dasharray": "3 2"} if mark.kind == "handed" else {}
    picture.add("rect", x=x - size, y=y - size, width=2 * size, height=2 * size, rx=2,
                fill=AMBER if is_full else WHITE, stroke=BROWN, stroke_width=1.5, **dashes)
    picture.text(x, y + 4, str(mark.home), 11, "middle")


def _circle(picture: Picture, kind: str, x: float, y: float, size: float) -> None:
    fills = {"answered": WHITE, "mended": GREEN}
    picture.add("circle", cx=x, cy=y, r=size - 0.5, fill=fills.get(kind, BLUE),
                stroke=GREEN if kind == "mended" else BLUE, stroke_width=2.5)
    if kind == "late":
        picture.add("circle", cx=x, cy=y, r=size - 3.5, fill="none", stroke=WHITE, stroke_width=1.5)
    if kind == "mended":
        arm = size * 0.55
        steps = [f"M{figure(x - arm)} {figure(y)} h{figure(2 * arm)}",
                 f"M{figure(x)} {figure(y - arm)} v{figure(2 * arm)}"]
        picture.path(steps, WHITE, 2)


def _lines(picture: Picture, kind: str, x: float, y: float, arm: float) -> None:
    if kind == "shown":
        steps = [f"M{figure(x - arm)} {figure(y)}", f"L{figure(x)} {figure(y - arm)}",
                 f"L{figure(x + arm)} {figure(y)}", f"L{figure(x)} {figure(y + arm)}", "Z"]
        picture.path(steps, FAINT, 1.5, WHITE)
        return
    steps = [f"M{figure(x - arm)} {figure(y - arm)} l{figure(2 * arm)} {figure(2 * arm)}",
             f"M{figure(x - arm)} {figure(y + arm)} l{figure(2 * arm)} {figure(-2 * arm)}"]
    picture.path(steps, INK, 2)


def arrow(picture: Picture, begin: Tuple[float, float], end: Tuple[float, float],
          is_taken: bool) -> None:
    """Paints the way of a hint to its home, level, dashed where the home did not take it."""
    (x1, y), (x2, _) = begin, end
    side = 1 if x2 > x1 else -1
    dashes = {} if is_taken else {"stroke_dasharray": "4 3"}
    picture.line(x1, y, x2 - side * 5, y, BROWN, 2, **dashes)
    steps = [f"M{figure(x2)} {figure(y)}", f"l{figure(-side * 7)} -4", "v8", "Z"]
    picture.path(steps, BROWN, 0, BROWN)


def bow(picture: Picture, x1: float, x2: float, y: float, height: float) -> None:
    """Paints a bow from a home's lane to that of its stand-in, with a head."""
    bend, top = (7 if x2 > x1 else -7), figure(y - height)
    steps = [f"M{figure(x1)} {figure(y)}", f"Q{figure(x1)} {top} {figure(x1 + bend)} {top}",
             f"H{figure(x2 - bend)}", f"Q{figure(x2)} {top} {figure(x2)} {figure(y - 5)}"]
    picture.path(steps, BROWN, 1.25)
    picture.path([f"M{figure(x2)} {figure(y)}", "l-3.5 -6", "h7", "Z"], BROWN, 0, BROWN)
