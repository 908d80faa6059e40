"""Scripts: strictly, with the refusal of what can't be read, or as far as they can be read."""
import json
from typing import Any, Callable, Dict, List, NamedTuple, Optional

from .texts import Count, shown
from .rules import AT_NODE, COMMANDS, MEMBERS, MODES, NUMBERS, OF_KEY, OF_VALUE, Mode

MAX_RAW = 200


class BadInput(Exception):
    """What was given can't be read; the text says why."""


class Command(NamedTuple):
    """A command of a script."""

    word: str
    key: bytes = b""
    value: Optional[bytes] = None
    context: str = "-"
    session: int = 0
    w: Optional[int] = None
    node: int = 0
    mode: str = ""

    def told(self, text: str, counts: Dict[str, int]) -> str:
        """Returns the text with the command's node, mode and counts; an unknown mode is its name."""
        mode = MODES.get(self.mode) or Mode(self.mode, self.mode, True, False, True, 0)
        numbers = {name: Count(count) for name, count in counts.items()}
        return text.format(node=self.node, mode=mode, **numbers)

    def __str__(self) -> str:
        """Returns the command as the script has it, in words."""
        if self.word == "fault":
            return f"fault {self.mode} at node {self.node}"
        if self.word == "show":
            return f"show {shown(self.key)} at node {self.node}"
        if self.word in AT_NODE:
            return f"{self.word} node {self.node}"
        said = [f"{self.word} {shown(self.key)}" if self.word in OF_KEY else self.word]
        said[0] += "" if self.value is None else f" = {shown(self.value)}"
        said += [] if self.context == "-" else [f"context {self.context}"]
        said += [f"session {self.session}"] if self.session else []
        said += [] if self.w is None else [f"w {self.w}"]
        return ", ".join(said)


class Script(NamedTuple):
    """A script; what can't be read of it is absent."""

    n: Optional[int]
    r: Optional[int]
    w: Optional[int]
    nodes: int
    wants_settled: bool
    keys: List[bytes]
    commands: List[Optional[Command]]
    unread: Dict[int, str]

    def command(self, number: int) -> Optional[Command]:
        """Returns the command of this number, from 1, where the script has it."""
        return self.commands[number - 1] if 1 <= number <= len(self.commands) else None

    def text_of(self, number: int) -> str:
        """Returns what the script has as the command of this number."""
        return str(self.command(number) or self.unread.get(number, ""))


def whole(value: Any, name: str, most: Optional[int] = 255) -> int:
    """Returns a whole number from 0 to the most, or refuses it by its name."""
    is_whole = isinstance(value, int) and not isinstance(value, bool) and value >= 0
    if not is_whole or (most is not None and value > most):
        of = "" if most is None else f" from 0 to {most}"
        raise BadInput(f"E17 ScriptSyntax: {name} is no whole number{of}")
    return value


def text(value: Any, name: str) -> str:
    """Returns a text, or refuses it by its name."""
    if not isinstance(value, str):
        raise BadInput(f"E17 ScriptSyntax: {name} is no text")
    return value


def listed(value: Any, name: str) -> List[Any]:
    """Returns a list, or refuses it by its name."""
    if not isinstance(value, list):
        raise BadInput(f"E17 ScriptSyntax: {name} is no list")
    return value


def member(value: Any, name: str, of: str) -> Any:
    """Returns the member of an object, or refuses the object by its name."""
    if not isinstance(value, dict) or name not in value:
        raise BadInput(f"E17 ScriptSyntax: {of} has no `{name}`")
    return value[name]


def bytes_in(given: str) -> bytes:
    """Returns the bytes of a text; half a surrogate pair, which the program refuses, has three."""
    return given.encode("utf-8", "surrogatepass")


def whole_in(digits: str) -> Any:
    # The reader takes no sign: zero with one is no whole number here either.
    return -0.0 if digits == "-0" else int(digits)


def no_constant(name: str) -> Any:
    raise ValueError(name)


def read_object(data: bytes) -> Dict[str, Any]:
    """Returns the JSON object that the bytes are."""
    try:
        given = data.decode("utf-8")
    except UnicodeDecodeError:
        raise BadInput("it is no UTF-8") from None
    try:
        raw = json.loads(given, parse_int=whole_in, parse_constant=no_constant)
        json.dumps(raw)
    except (ValueError, RecursionError):
        raise BadInput("E17 ScriptSyntax 0: it is no JSON") from None
    if not isinstance(raw, dict):
        raise BadInput("E17 ScriptSyntax 0: it is no object")
    return raw


def value_in(raw: Dict[str, Any], word: str, name: str) -> Optional[bytes]:
    """Returns the value of a put, as a text or in hexadecimal digits; no other command has one."""
    if (word in OF_VALUE) != ("value" in raw or "valuehex" in raw):
        raise BadInput(f"E17 ScriptSyntax: {name} has no `value`, or may have none")
    if "valuehex" not in raw:
        return bytes_in(raw["value"]) if "value" in raw else None
    try:
        return bytes.fromhex(raw["valuehex"])
    except ValueError:
        raise BadInput(f"E17 ScriptSyntax: `valuehex` of {name} is no digits") from None


def read_command(raw: Any, name: str) -> Command:
    """Returns a command of a script; whether its ring has the node is not looked at."""
    word = text(member(raw, "do", name), f"`do` of {name}")
    if word not in COMMANDS:
        raise BadInput(f"E18 UnknownCommand: {name} is none")
    for needed in COMMANDS[word].needs:
        member(raw, needed, name)
    given = {it: rule.kind for it, rule in MEMBERS.items() if it in raw}
    texts = {it: text(raw[it], f"the {it} of {name}") for it in given if given[it] not in NUMBERS}
    numbers = {it: whole(raw[it], f"the {it} of {name}", None)
               for it in given if given[it] in NUMBERS}
    named = {it: texts[it] for it in ("context", "mode") if it in texts}
    key = bytes_in(texts.get("key", ""))
    return Command(word, key, value_in(raw, word, name), **named, **numbers)


def nodes_in(raw: Dict[str, Any]) -> int:
    """Returns how many nodes the script names."""
    if "tokens" in raw:
        return len(listed(raw["tokens"], "`tokens`"))
    derived = member(raw, "derived", "the script")
    return whole(member(derived, "nodes", "`derived`"), "`nodes`", None)


def tried(read: Callable[..., Any], *given: Any) -> Any:
    """Returns what is read, or None where it is refused."""
    try:
        return read(*given)
    except BadInput:
        return None


def read_script(data: bytes) -> Script:
    """Reads what can be read of a script; one that is no JSON object has nothing in it."""
    raw = tried(read_object, data) or {}
    run = tried(listed, raw.get("run"), "`run`") or []
    commands = [tried(read_command, command, "the command") for command in run]
    keys = tried(listed, raw.get("keys"), "`keys`") or []
    return Script(
        *(tried(whole, raw.get(name), name, None) for name in ("n", "r", "w")),
        nodes=tried(nodes_in, raw) or 0,
        wants_settled=raw.get("settled") is True,
        keys=[bytes_in(key) for key in keys if isinstance(key, str)],
        commands=commands,
        unread={at: json.dumps(run[at - 1])[:MAX_RAW]
                for at, command in enumerate(commands, 1) if command is None},
    )
