"""The forms of the lines that `--steps` prints: each line is read into the values that it has.

Each step, each line of fetches told and each line of the audit has a kind of its own. The line of a
command is a `Command`.
"""
import re
from typing import Any, Callable, Dict, List, NamedTuple, Optional, Tuple

from replaying.dots import EMPTY, BadText, Dots, read_context, read_dot
from replaying.steps import Ack, Fetch, Hold, Issue, Place, Release, Told

Words = Dict[str, Optional[str]]
COUNT = "(?:0|[1-9][0-9]{0,9})"
KEY = "(?:[0-9a-f]{2}){1,64}"
BYTES = "(?:[0-9a-f]{2})*"
DOT = "n[0-9]{1,2}:[0-9]{1,7}"
PLACE = "[0-9]{1,2}/[0-9]{1,2}"
PLACES = f"{PLACE}(?: {PLACE})*"
ANSWER = f"{PLACE}=(?:stored|rows|down|noanswer|E{COUNT})"
DOTS = "(?P<dots>-|n[0-9n:, -]+)"
AT = f"(?P<place>{PLACE}) (?P<key>{KEY})"


class Cluster(NamedTuple):
    n: int
    r: int
    w: int


class Token(NamedTuple):
    position: int
    node: int


class Command(NamedTuple):
    """A command's line: its number and word, whether it is ok, and what else it says.

    `dots` is the context of a get or what a node shows of its own, `hints` what it shows for homes.
    The word of a line that a service could not read is `line`.
    """

    number: int
    do: str
    is_ok: bool
    dot: Optional[int]
    answers: List[Tuple[Place, str]]
    dots: Dots
    places: Tuple[Place, ...]
    hints: List[Tuple[int, Dots]]
    said: Words

    def count(self, name: str) -> int:
        return int(self.said[name] or 0)


class Held(NamedTuple):
    place: Place
    key: bytes
    dots: Dots


class Acked(NamedTuple):
    key: bytes
    dot: int
    w: Optional[int]
    places: Tuple[Place, ...]


class Settled(NamedTuple):
    key: bytes


class End(NamedTuple):
    """The last line: of a run held, acked, gets and steps, of a storm acked, gets and refused."""

    counts: Dict[str, int]


def place_of(text: str) -> Place:
    holder, home = text.split("/")
    if str(int(holder)) + str(int(home)) != holder + home:
        raise BadText(f"'{text}' has a zero too many")
    return int(holder), int(home)


def places_of(text: str) -> Tuple[Place, ...]:
    return tuple(map(place_of, text.split(" ")))


def answers_of(text: str) -> List[Tuple[Place, str]]:
    pairs = (answer.split("=") for answer in text.split(" "))
    return [(place_of(place), word) for place, word in pairs]


def hints_of(text: str) -> List[Tuple[int, Dots]]:
    pairs = (hint.split(" ", 1) for hint in text.split(" for ")[1:])
    return [(int(home), read_context(dots)) for home, dots in pairs]


def command_of(it: Words) -> Command:
    """Returns the command of a line."""
    dot, dots = it.get("dot") or it.get("after"), it.get("dots")
    return Command(
        number=int(it["number"]), do=it.get("do") or "line", is_ok=not it.get("refusal"),
        dot=read_dot(dot) if dot else None,
        answers=answers_of(it["answers"]) if it.get("answers") else [],
        dots=read_context(dots) if dots else EMPTY,
        places=places_of(it["places"]) if it.get("places") else (),
        hints=hints_of(it.get("hints") or ""), said=it)


def issue_of(it: Words) -> Issue:
    value = None if it["value"] is None else it["value"].strip()
    key, dot, past = bytes.fromhex(it["key"]), read_dot(it["dot"]), read_context(it["dots"])
    return Issue(int(it["number"]), int(it["node"]), key, dot, past, value)


def end_of(it: Words) -> End:
    return End({name: int(count) for name, count in it.items()})


def at_of(it: Words) -> Tuple[int, Place, bytes]:
    return int(it["number"]), place_of(it["place"]), bytes.fromhex(it["key"])


def ack_of(it: Words) -> Ack:
    key, dot = bytes.fromhex(it["key"]), read_dot(it["dot"])
    return Ack(int(it["number"]), key, dot, int(it["w"]), int(it["session"]))


def acked_of(it: Words) -> Acked:
    w = int(it["w"]) if it["w"] else None
    return Acked(bytes.fromhex(it["key"]), read_dot(it["dot"]), w, places_of(it["places"]))


STEP = f"step (?P<number>{COUNT})"
SESSION = "session (?P<session>[12]?[0-9]|3[01])"
NUMBER = f"(?P<number>{COUNT})"
REFUSAL = "(?P<refusal>E[0-9]+ [A-Za-z]+)"
LIST = f"answers (?P<answers>{ANSWER}(?: {ANSWER})*)"
WROTE = f"{NUMBER} (?P<do>put|delete)"
GOT = f"{NUMBER} (?P<do>get)"
WORD = "put|delete|get|down|up|fault|deliver|handoff|show"

# By the words that tell the form: its pattern, and what makes its value.
FORMS: Dict[str, List[Tuple[str, Callable[[Words], Any]]]] = {
    "step issue": [
        (f"{STEP} issue (?P<node>{COUNT}) (?P<key>{KEY}) (?P<dot>{DOT}) behind {DOTS} "
         f"(?:deleted|value(?P<value>(?: {BYTES[:-1]}+)?))", issue_of)],
    "step hold": [
        (f"{STEP} hold {AT} {DOTS}", lambda it: Hold(*at_of(it), read_context(it["dots"])))],
    "step release": [(f"{STEP} release {AT} (?P<dot>{DOT})", lambda it: Release(
        *at_of(it), read_dot(it["dot"])))],
    "step fetch": [(f"{STEP} fetch {AT}", lambda it: Fetch(*at_of(it)))],
    "step ack": [(f"{STEP} ack (?P<key>{KEY}) (?P<dot>{DOT}) w (?P<w>{COUNT}) {SESSION}", ack_of)],
    "told": [(f"told (?P<numbers>{COUNT}(?: {COUNT})*) {SESSION}", lambda it: Told(
        tuple(map(int, it["numbers"].split(" "))), int(it["session"])))],
    "cluster": [(f"cluster n (?P<n>{COUNT}) r (?P<r>{COUNT}) w (?P<w>{COUNT})", lambda it: Cluster(
        *(int(it[name]) for name in "nrw")))],
    "token": [(f"token (?P<position>[0-9a-f]{{32}}) (?P<node>{COUNT})", lambda it: Token(
        int(it["position"], 16), int(it["node"])))],
    "held": [(f"held {AT} {DOTS}", lambda it: Held(
        place_of(it["place"]), bytes.fromhex(it["key"]), read_context(it["dots"])))],
    "acked": [(f"acked (?P<key>{KEY}) (?P<dot>{DOT})(?: w (?P<w>{COUNT}))? "
               f"covered (?P<places>{PLACES})", acked_of)],
    "settled": [(f"settled (?P<key>{KEY})", lambda it: Settled(bytes.fromhex(it["key"])))],
    "end": [
        (f"end held (?P<held>{COUNT}) acked (?P<acked>{COUNT}) gets (?P<gets>{COUNT}) "
         f"steps (?P<steps>{COUNT})", end_of),
        (f"end acked (?P<acked>{COUNT}) gets (?P<gets>{COUNT}) refused (?P<refused>{COUNT})",
         end_of)],
    "command": [
        (f"{WROTE} ok (?P<dot>{DOT}) {LIST}", command_of),
        (f"{WROTE} (?P<refusal>E15 NotEnough) (?P<dot>{DOT}) {LIST}", command_of),
        (f"{GOT} ok context {DOTS} from (?P<places>{PLACES}) values (?P<values>none|{DOT}={BYTES}"
         f"(?: {DOT}={BYTES})*)", command_of),
        (f"{GOT} (?P<refusal>E15 NotEnough) {LIST}", command_of),
        (f"{NUMBER} (?P<do>down|up|fault) ok", command_of),
        (f"{NUMBER} (?P<do>deliver) ok (?P<stored>{COUNT})", command_of),
        (f"{NUMBER} (?P<do>handoff) ok offers (?P<offers>{COUNT}) stored (?P<stored>{COUNT}) "
         f"released (?P<released>{COUNT})", command_of),
        (f"{NUMBER} (?P<do>show) (?P<node>{COUNT}) own {DOTS}(?P<hints>"
         f"(?: for {COUNT} n[0-9n:, -]+)*)", command_of),
        (f"{NUMBER} (?P<do>put|delete) {REFUSAL} after (?P<after>{DOT})", command_of),
        (f"{NUMBER} (?P<do>{WORD}) {REFUSAL}(?: n[0-9]+:[0-9]+)?", command_of),
        (f"{NUMBER} (?P<do>renew) ok carried (?P<carried>{COUNT})", command_of),
        (f"{NUMBER} (?P<refusal>E17 ScriptSyntax|E18 UnknownCommand) (?P=number)", command_of),
        (f"{NUMBER} (?P<refusal>E0 OutOfMemory)", command_of)],
}
COMPILED = {name: [(re.compile(pattern), make) for pattern, make in forms]
            for name, forms in FORMS.items()}


def read_line(line: str) -> Any:
    """Returns what a line says; raises BadText where it has no form."""
    words = line.split(" ", 3)
    name = f"step {words[2]}" if words[0] == "step" and len(words) == 4 else words[0]
    for pattern, make in COMPILED.get(name, COMPILED["command"]):
        match = pattern.fullmatch(line)
        if match:
            return make(match.groupdict())
    raise BadText(f"'{line}' is no line of --steps")
