"""The steps of a run, and what a checker says of a line."""
from typing import NamedTuple, Optional, Tuple, Union

from replaying.dots import Dots

# A holder with the home that it holds for.
Place = Tuple[int, int]


class Fault(NamedTuple):
    """The plain name of a rule, and how it is broken."""

    rule: str
    text: str


class Issue(NamedTuple):
    """A node makes a version: its dot, its past, and its value in digits, None for a deletion."""

    number: int
    node: int
    key: bytes
    dot: int
    past: Dots
    value: Optional[str]


class Hold(NamedTuple):
    """Versions come to a place."""

    number: int
    place: Place
    key: bytes
    dots: Dots


class Release(NamedTuple):
    """A dot leaves a place."""

    number: int
    place: Place
    key: bytes
    dot: int


class Fetch(NamedTuple):
    """A place tells what it holds."""

    number: int
    place: Place
    key: bytes


class Ack(NamedTuple):
    """A session is told that a version has its homes."""

    number: int
    key: bytes
    dot: int
    w: int
    session: int


class Told(NamedTuple):
    """A session is told a row: that of the fetches of these numbers."""

    numbers: Tuple[int, ...]
    session: int


Step = Union[Issue, Hold, Release, Fetch, Ack]


def place_text(place: Place) -> str:
    return f"{place[0]}/{place[1]}"
