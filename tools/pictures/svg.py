"""Plain SVG: elements as lines of text, how wide a text is, and the colours."""
import unicodedata
from typing import List, Optional, Tuple, Union
from xml.sax.saxutils import escape, quoteattr

Number = Union[int, float]

WIDTH = 800
MARGIN = 24
INK, FAINT, RULE, WHITE = "#1a1a1a", "#595959", "#dddddd", "#ffffff"
ALARM = "#a3120a"
FAMILY = "Helvetica, Arial, 'Liberation Sans', 'DejaVu Sans', sans-serif"
MONO = "'DejaVu Sans Mono', Menlo, Consolas, monospace"
SMALLEST = 11

# Eight colours that people with any kind of colour vision tell apart, six of them Okabe's and Ito's
# (2008), whose yellow can't be seen on white.
COLOURS = ["#0072b2", "#e69f00", "#009e73", "#cc79a7", "#56b4e9", "#d55e00", "#5b2a86", "#404040"]
# Each further eight nodes have the same ones, mixed with white or black by so much.
SHADES = [(255, 0.0), (255, 0.5), (0, 0.4), (255, 0.75)]

# How wide letters are in the widest of the usual fonts, as parts of the size of the type.
WIDTHS = {
    **dict.fromkeys("ijlI' ,.", 0.32), **dict.fromkeys("!:;|/\\()[]-tfr", 0.42),
    **dict.fromkeys("csz?J*_`\"", 0.56), **dict.fromkeys("AEBKPSVXYZ", 0.7),
    **dict.fromkeys("CDGHNOQRU&", 0.8), **dict.fromkeys("+=<>#^~w", 0.85),
    **dict.fromkeys("mMW%@…", 1.01),
}


def channels(colour: str) -> Tuple[int, int, int]:
    """Red, green and blue of a colour, each 0 to 255."""
    return int(colour[1:3], 16), int(colour[3:5], 16), int(colour[5:7], 16)


def colour_of(node: int) -> str:
    """The colour of a node."""
    to, part = SHADES[node // len(COLOURS) % len(SHADES)]
    mixed = (round(c + (to - c) * part) for c in channels(COLOURS[node % len(COLOURS)]))
    return "#%02x%02x%02x" % tuple(mixed)


def ink_on(colour: str) -> str:
    """Black or white, whichever is read better on this colour."""
    def light(channel: int) -> float:
        part = channel / 255
        return part / 12.92 if part <= 0.04045 else ((part + 0.055) / 1.055) ** 2.4
    red, green, blue = map(light, channels(colour))
    return INK if 0.2126 * red + 0.7152 * green + 0.0722 * blue > 0.2 else WHITE


def width_of(words: str, size: Number, bold: bool = False, mono: bool = False) -> float:
    """How wide a text is at most, in the widest of the usual sans-serif fonts."""
    if mono:
        return 0.61 * size * len(words)

    widths = (WIDTHS.get(letter, 0.64 if letter.isascii() else 1.05) for letter in words)
    return size * (1.12 if bold else 1) * sum(widths)


def shortened(words: str, room: float, size: Number, bold: bool = False) -> str:
    """The text, or as much of its beginning as there is room for, and dots."""
    if width_of(words, size, bold) <= room:
        return words
    while words and width_of(words + "…", size, bold) > room:
        words = words[:-1]
    return words.rstrip() + "…"


def shown(data: bytes) -> str:
    """A key or a value as text where it is one, and else in hexadecimal digits."""
    try:
        words = data.decode("utf-8")
    except UnicodeDecodeError:
        return "0x" + data.hex()
    if not words:
        return '""'
    is_plain = words.isprintable() and not any(unicodedata.combining(c) for c in words)
    return words if is_plain else "0x" + data.hex()


def figure(number: Number) -> str:
    """A coordinate with two digits behind the point at most."""
    words = f"{number:.2f}".rstrip("0").rstrip(".")
    return "0" if words == "-0" else words


class Picture:
    """The elements of a picture, in the order in which they are painted."""

    def __init__(self, title: str) -> None:
        self.title = title
        self.lines: List[str] = []
        self.depth = 1

    def add(self, name: str, words: Optional[str] = None, **attributes: Union[str, Number]) -> None:
        """Adds an element; `stroke_width` is the attribute `stroke-width`."""
        parts = [name]
        for key, value in attributes.items():
            told = value if isinstance(value, str) else figure(value)
            parts.append(f"{key.replace('_', '-')}={quoteattr(told)}")
        end = "/>" if words is None else f">{escape(words)}</{name}>"
        self.lines.append("  " * self.depth + "<" + " ".join(parts) + end)

    def text(self, x: Number, y: Number, words: str, size: Number = 13, anchor: str = "start",
             fill: str = INK, bold: bool = False, mono: bool = False) -> None:
        """Adds a text whose base line begins, has its middle or ends at (x, y)."""
        more = {"font_weight": "bold"} if bold else {}
        if mono:
            more["font_family"] = MONO
        if anchor != "start":
            more["text_anchor"] = anchor
        self.add("text", words, x=x, y=y, font_size=max(size, SMALLEST), fill=fill, **more)

    def line(self, x1: Number, y1: Number, x2: Number, y2: Number, stroke: str = RULE,
             width: Number = 1, **more: Union[str, Number]) -> None:
        """Adds a straight line."""
        self.add("line", x1=x1, y1=y1, x2=x2, y2=y2, stroke=stroke, stroke_width=width, **more)

    def path(self, steps: List[str], stroke: str, width: Number = 1, fill: str = "none",
             **more: Union[str, Number]) -> None:
        """Adds a path of these steps, in lines that a person can read."""
        pad = "\n" + "  " * (self.depth + 1)
        rows, row = [], ""
        for step in steps:
            if row and len(row) + len(step) > 96:
                rows.append(row)
                row = ""
            row += (" " if row else "") + step
        self.add("path", d="@", fill=fill, stroke=stroke, stroke_width=width, **more)
        self.lines[-1] = self.lines[-1].replace('d="@"', f'd="{pad.join(rows + [row])}"')

    def badge(self, x: Number, y: Number, node: int, radius: Number = 10) -> None:
        """Adds a node's number on its colour, with its middle at (x, y)."""
        colour = colour_of(node)
        self.add("circle", cx=x, cy=y, r=radius, fill=colour, stroke=INK, stroke_width=0.75)
        self.text(x, y + 4, str(node), 11, "middle", ink_on(colour))

    def open_group(self, **attributes: Union[str, Number]) -> None:
        """Opens a group, for the elements that follow."""
        self.add("g", "", **attributes)
        self.lines[-1] = self.lines[-1][:-len("</g>")]
        self.depth += 1

    def close_group(self) -> None:
        """Closes the group that was opened last."""
        self.depth -= 1
        self.lines.append("  " * self.depth + "</g>")

    def written(self, height: Number, description: str) -> str:
        """The whole picture as text, on a white ground of this height."""
        size = f'width="{WIDTH}" height="{figure(height)}"'
        ground = f'<rect {size} rx="6" fill="{WHITE}"/>'
        head = [
            f'<svg xmlns="http://www.w3.org/2000/svg" {size}',
            f'    viewBox="0 0 {WIDTH} {figure(height)}" role="img" aria-labelledby="title desc"',
            f'    font-family="{FAMILY}">',
            f'  <title id="title">{escape(self.title)}</title>',
            f'  <desc id="desc">{escape(description)}</desc>',
            f"  {ground}",
        ]
        return "\n".join(head + self.lines + ["</svg>", ""])
