"""The forms of the lines that `dynamo run` and `dynamo ring` print, by docs/FORMATS.md."""
import re
from typing import Callable, Dict, Iterator, List, Match, NamedTuple, Optional, Tuple, Union

from .rules import COMMANDS, WRITES

COUNT = r"(?:0|[1-9][0-9]{0,38})"
NODE = r"(?:[12]?[0-9]|3[01])"
COUNTER = r"[1-9][0-9]{0,6}"
DOT = f"n{NODE}:{COUNTER}"
RUN = f"{COUNTER}(?:-{COUNTER})?"
RUNS = f"n{NODE}:{RUN}(?:,{RUN})*"
CONTEXT = f"(?:-|{RUNS}(?: {RUNS})*)"
PLACE = f"{NODE}/{NODE}"
ANSWER = f"{PLACE}=(?:stored|rows|down|noanswer|E{COUNT})"
KEY = "(?:[0-9a-f]{2})+"
VALUE = f"{DOT}=(?:[0-9a-f]{{2}})*"
REFUSAL = rf"(E({COUNT}) ([A-Za-z]+)(?: (?!after |answers )([^ ]+))?)"
WROTE, OTHERS = "|".join(WRITES), "|".join(word for word in COMMANDS if word not in WRITES)


class Place(NamedTuple):
    """A holder, and the home that it holds for."""

    holder: int
    home: int


class Answer(NamedTuple):
    """An answer that was read: of whom, for which home, and its word."""

    place: Place
    word: str


class Refusal(NamedTuple):
    """A refusal: its number, its name, and what its text has behind them."""

    number: int
    name: str
    detail: str
    text: str


class Written(NamedTuple):
    """A put or a delete was acknowledged."""

    number: int
    word: str
    dot: str
    answers: Tuple[Answer, ...]


class Got(NamedTuple):
    """A get was answered."""

    number: int
    word: str
    context: str
    places: Tuple[Place, ...]
    values: Tuple[Tuple[str, bytes], ...]


class Done(NamedTuple):
    """A command was done whose line says no more than its counts, as that a node is down or up."""

    number: int
    word: str
    counts: Dict[str, int]


class Delivered(NamedTuple):
    """So many kept messages were stored."""

    number: int
    word: str
    stored: int


class Passed(NamedTuple):
    """A pass over the hints of a node."""

    number: int
    word: str
    offers: int
    stored: int
    released: int


class Shown(NamedTuple):
    """What a node holds of a key, for itself and for other homes."""

    number: int
    word: str
    node: int
    own: str
    hints: Tuple[Tuple[int, str], ...]


class Refused(NamedTuple):
    """A command was refused; a put may have made its version, and may tell its answers."""

    number: int
    word: str
    refusal: Refusal
    dot: Optional[str]
    answers: Tuple[Answer, ...]


class Held(NamedTuple):
    """What a place holds of a key."""

    place: Place
    key: bytes
    dots: str


class Acked(NamedTuple):
    """An acknowledged put, and the places that cover it."""

    key: bytes
    dot: str
    w: Optional[int]
    places: Tuple[Place, ...]


class Settled(NamedTuple):
    """A settled key."""

    key: bytes


class End(NamedTuple):
    """The sums of a run."""

    held: int
    acked: int
    gets: int
    steps: int


class Said(NamedTuple):
    """A line of standard error, and the refusal that it tells."""

    text: str
    refusal: Optional[Refusal]


class Token(NamedTuple):
    """A token of the ring."""

    position: str
    node: int


class Listed(NamedTuple):
    """The preference list of a key."""

    key: bytes
    position: str
    nodes: Tuple[int, ...]


class Cluster(NamedTuple):
    """The first line of an output with steps: the script's numbers."""

    n: int
    r: int
    w: int


class Issue(NamedTuple):
    """A node made a version; its past is a context text, and a deletion has no value."""

    number: int
    node: int
    key: bytes
    dot: str
    past: str
    value: Optional[bytes]


class Hold(NamedTuple):
    """Versions came to a place, and were merged with its row."""

    number: int
    place: Place
    key: bytes
    dots: str


class Release(NamedTuple):
    """A dot left a hint."""

    number: int
    place: Place
    key: bytes
    dot: str


class Fetch(NamedTuple):
    """The row at a place was read."""

    number: int
    place: Place
    key: bytes


class Ack(NamedTuple):
    """A session was told that a put has its homes."""

    number: int
    key: bytes
    dot: str
    w: int
    session: int


class Told(NamedTuple):
    """These fetches, by their numbers, are those that an answered get used."""

    numbers: Tuple[int, ...]
    session: int


StepForm = Union[Issue, Hold, Release, Fetch, Ack]
CommandForm = Union[Written, Got, Done, Delivered, Passed, Shown, Refused]
Form = Union[
    CommandForm, StepForm, Cluster, Told, Held, Acked, Settled, End, Said, Token, Listed,
]
COMMAND_FORMS = (Written, Got, Done, Delivered, Passed, Shown, Refused)
STEP_FORMS = (Issue, Hold, Release, Fetch, Ack)


def places_in(form: Form) -> Iterator[Place]:
    """Returns the places that the line names."""
    yield from (answer.place for answer in getattr(form, "answers", ()))
    yield from getattr(form, "places", ())
    yield from [form.place] if isinstance(form, (Held, Hold, Release, Fetch)) else []


def place_of(text: str) -> Place:
    holder, _, home = text.partition("/")
    return Place(int(holder), int(home))


def places_of(text: str) -> Tuple[Place, ...]:
    return tuple(place_of(place) for place in text.split())


def answers_of(text: Optional[str]) -> Tuple[Answer, ...]:
    pairs = (answer.partition("=") for answer in (text or "").split())
    return tuple(Answer(place_of(place), word) for place, _, word in pairs)


def values_of(text: str) -> Tuple[Tuple[str, bytes], ...]:
    pairs = (value.partition("=") for value in text.split() if value != "none")
    return tuple((dot, bytes.fromhex(digits)) for dot, _, digits in pairs)


def hints_of(text: str) -> Tuple[Tuple[int, str], ...]:
    found = re.findall(f" for ({NODE}) ({CONTEXT})", text)
    return tuple((int(home), dots) for home, dots in found)


def refusal_of(match: Match[str], first: int) -> Refusal:
    text, number, name, detail = match.group(first, first + 1, first + 2, first + 3)
    return Refusal(int(number), name, detail or "", text)


def lacking(number: str, word: str, dot: Optional[str], answers: str) -> Refused:
    """Returns a put, a delete or a get that too few homes answered."""
    refusal = Refusal(15, "NotEnough", "", "E15 NotEnough")
    return Refused(int(number), word, refusal, dot, answers_of(answers))


def counting(word: str) -> str:
    """Returns the form of a line that says no more than what the command counts."""
    counts = "".join(f" {name} ({COUNT})" for name in COMMANDS[word].counts)
    return f"({COUNT}) ({word}) ok{counts}"


def done(match: Match[str]) -> Done:
    counts = map(int, match.groups()[2:])
    return Done(int(match[1]), match[2], dict(zip(COMMANDS[match[2]].counts, counts)))


def held(match: Match[str]) -> Held:
    return Held(place_of(match[1]), bytes.fromhex(match[2]), match[3])


def acked(match: Match[str]) -> Acked:
    w = int(match[3]) if match[3] else None
    return Acked(bytes.fromhex(match[1]), match[2], w, places_of(match[4]))


def listed(match: Match[str]) -> Listed:
    nodes = tuple(int(node) for node in match[3].split())
    return Listed(bytes.fromhex(match[1]), match[2], nodes)


def said(match: Match[str]) -> Said:
    """Returns a line of standard error."""
    told = re.fullmatch(REFUSAL, match[1])
    return Said(match[1], refusal_of(told, 1) if told else None)


def issue(match: Match[str]) -> Issue:
    value = None if match[6] is None else bytes.fromhex(match[6])
    return Issue(int(match[1]), int(match[2]), bytes.fromhex(match[3]), match[4], match[5], value)


def at_of(match: Match[str]) -> Tuple[int, Place, bytes]:
    """Returns a step's number, its place and its key."""
    return int(match[1]), place_of(match[2]), bytes.fromhex(match[3])


STEP, AT = f"step ({COUNT})", f"({PLACE}) ({KEY})"
FORMS: List[Tuple[str, Callable[[Match[str]], Form]]] = [
    (
        f"({COUNT}) ({WROTE}) ok ({DOT}) answers((?: {ANSWER})+)",
        lambda m: Written(int(m[1]), m[2], m[3], answers_of(m[4])),
    ),
    (
        f"({COUNT}) get ok context ({CONTEXT}) from((?: {PLACE})+) values((?: {VALUE})+| none)",
        lambda m: Got(int(m[1]), "get", m[2], places_of(m[3]), values_of(m[4])),
    ),
    *((counting(word), done) for word, rule in COMMANDS.items() if rule.done),
    (f"({COUNT}) deliver ok ({COUNT})", lambda m: Delivered(int(m[1]), "deliver", int(m[2]))),
    (counting("handoff"), lambda m: Passed(int(m[1]), m[2], *map(int, m.groups()[2:]))),
    (
        f"({COUNT}) show ({NODE}) own ({CONTEXT})((?: for {NODE} {CONTEXT})*)",
        lambda m: Shown(int(m[1]), "show", int(m[2]), m[3], hints_of(m[4])),
    ),
    (
        f"({COUNT}) ({WROTE}) E15 NotEnough ({DOT}) answers((?: {ANSWER})+)",
        lambda m: lacking(m[1], m[2], m[3], m[4]),
    ),
    (
        f"({COUNT}) get E15 NotEnough answers((?: {ANSWER})+)",
        lambda m: lacking(m[1], "get", None, m[2]),
    ),
    (
        f"({COUNT}) ({WROTE}) (?!E15 ){REFUSAL}(?: after ({DOT}))?",
        lambda m: Refused(int(m[1]), m[2], refusal_of(m, 3), m[7], ()),
    ),
    (
        f"({COUNT}) ({OTHERS}) (?!E15 ){REFUSAL}",
        lambda m: Refused(int(m[1]), m[2], refusal_of(m, 3), None, ()),
    ),
    (f"held ({PLACE}) ({KEY}) ({RUNS}(?: {RUNS})*)", held),
    (f"acked ({KEY}) ({DOT})(?: w ({COUNT}))? covered((?: {PLACE})+)", acked),
    (f"settled ({KEY})", lambda m: Settled(bytes.fromhex(m[1]))),
    (
        f"end held ({COUNT}) acked ({COUNT}) gets ({COUNT}) steps ({COUNT})",
        lambda m: End(*(int(count) for count in m.groups())),
    ),
    ("dynamo: (.+)", said),
    (f"token ([0-9a-f]{{32}}) ({NODE})", lambda m: Token(m[1], int(m[2]))),
    (f"cluster n ({COUNT}) r ({COUNT}) w ({COUNT})", lambda m: Cluster(*map(int, m.groups()))),
    (
        f"{STEP} issue ({NODE}) ({KEY}) ({DOT}) behind ({CONTEXT}) "
        "(?:deleted|value((?: (?:[0-9a-f]{2})+)?))",
        issue,
    ),
    (f"{STEP} hold {AT} ({CONTEXT})", lambda m: Hold(*at_of(m), m[4])),
    (f"{STEP} release {AT} ({DOT})", lambda m: Release(*at_of(m), m[4])),
    (f"{STEP} fetch {AT}", lambda m: Fetch(*at_of(m))),
    (
        f"{STEP} ack ({KEY}) ({DOT}) w ({COUNT}) session ({NODE})",
        lambda m: Ack(int(m[1]), bytes.fromhex(m[2]), m[3], int(m[4]), int(m[5])),
    ),
    (
        f"told ({COUNT}(?: {COUNT})*) session ({NODE})",
        lambda m: Told(tuple(int(number) for number in m[1].split()), int(m[2])),
    ),
    (f"key ({KEY}) position ([0-9a-f]{{32}}) nodes((?: {NODE})+)", listed),
]
COMPILED = [(re.compile(pattern), make) for pattern, make in FORMS]


def read_line(text: str) -> Optional[Form]:
    """Returns what the line says, or None where it has no known form."""
    for pattern, make in COMPILED:
        match = pattern.fullmatch(text)
        if match:
            return make(match)
    return None
