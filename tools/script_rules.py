"""Says of a script what its schema can't: its ring, its quorum, its limits, its keys and its nodes.

Each of these mistakes makes the program refuse the file; docs/FORMATS.md has the rules.
"""
import re
from typing import Dict, Iterator, List, Optional, Tuple

from json_places import Lines, Number, Value, shown
from reading.rules import AT_NODE, LIMITS, MAX_KEY_BYTES, MAX_NODES, MAX_TOKENS_PER_NODE
from script_schema import DIGITS, Finding, below, number_of

TOKEN = re.compile(r"([0-9a-fA-F]{2}){1,16}")


def member(value: Optional[Value], name: str) -> Optional[Value]:
    """The member of this name, where the value is an object that has it."""
    if value is None or not isinstance(value.data, dict) or name not in value.data:
        return None
    return value.data[name].value


def whole(value: Optional[Value]) -> Optional[int]:
    """The whole number that a value is, where it is one and not beyond all ranges."""
    if value is None or not isinstance(value.data, Number) or not DIGITS.fullmatch(value.data):
        return None
    return int(value.data) if len(value.data) <= 20 else None


def small(value: Optional[Value]) -> Optional[int]:
    """The whole number from 0 to 255 that a value is, where it is one."""
    number = whole(value)
    return number if number is not None and number <= 255 else None


def text(value: Optional[Value]) -> Optional[str]:
    """The text that a value is, where it is one."""
    if value is None or isinstance(value.data, Number) or not isinstance(value.data, str):
        return None
    return value.data


def items(value: Optional[Value]) -> List[Value]:
    """The items of a list, none where the value is no list."""
    return value.data if value is not None and isinstance(value.data, list) else []


def repeated_names(value: Value, lines: Lines, path: str = "") -> Iterator[Finding]:
    """A warning for each member that does not count, since its name comes again."""
    if isinstance(value.data, list):
        for number, item in enumerate(value.data):
            yield from repeated_names(item, lines, below(path, str(number)))
    if isinstance(value.data, dict):
        for name, found in value.data.items():
            inner = below(path, name)
            line, column = lines.place(found.start)
            for start in found.earlier:
                said = f"this does not count: {shown(name)} comes again at {line}:{column}"
                yield Finding(start, inner, said, "", is_warning=True)
            yield from repeated_names(found.value, lines, inner)


class Ring:
    """Looks at a script's tokens, given or derived."""

    def __init__(self, script: Value, lines: Lines):
        self.lines = lines
        self.found: List[Finding] = []
        self.tokens, self.derived = member(script, "tokens"), member(script, "derived")
        self.nodes: Optional[int] = None
        if self.tokens is not None and self.derived is None:
            self.look_at_tokens()
        elif self.derived is not None and self.tokens is None:
            self.look_at_derived()

    def tell(self, value: Value, path: str, said: str, refusal: str) -> None:
        """Keeps a mistake."""
        self.found.append(Finding(value.start, path, said, refusal))

    def look_at_tokens(self) -> None:
        """Judges the given tokens: how many they are, and whether two are one."""
        if not isinstance(self.tokens.data, list):
            return
        self.nodes = len(self.tokens.data)
        if self.nodes == 0:
            said = "the ring has no node; give each node a list of tokens"
            self.tell(self.tokens, "tokens", said, "E5 NodeWithoutToken 0")
        if self.nodes > MAX_NODES:
            said = f"the ring has {self.nodes} nodes; write {MAX_NODES} at most"
            self.tell(self.tokens, "tokens", said, "E6 TooMany")
        seen: Dict[str, Tuple[Value, str]] = {}
        for node, tokens in enumerate(self.tokens.data):
            if isinstance(tokens.data, list):
                self.look_at_node(node, tokens, seen)

    def look_at_node(self, node: int, tokens: Value, seen: Dict[str, Tuple[Value, str]]) -> None:
        """Judges the tokens of a node, beside those that were seen."""
        path = below("tokens", str(node))
        if not tokens.data:
            said = f"node {node} has no token; give it one"
            self.tell(tokens, path, said, f"E5 NodeWithoutToken {node}")
        if len(tokens.data) > MAX_TOKENS_PER_NODE:
            said = f"node {node} has {len(tokens.data)} tokens; write {MAX_TOKENS_PER_NODE} at most"
            self.tell(tokens, path, said, "E6 TooMany")
        for number, token in enumerate(tokens.data):
            digits = text(token)
            if digits is None or not TOKEN.fullmatch(digits):
                continue
            position, inner = digits.lower().ljust(32, "0"), below(path, str(number))
            if position in seen:
                earlier, its_path = seen[position]
                line, column = self.lines.place(earlier.start)
                said = f"this lies where {its_path} does, at {line}:{column}; move one of them"
                self.tell(token, inner, said, f"E4 TokenClash {position}")
            else:
                seen[position] = token, inner

    def look_at_derived(self) -> None:
        """Judges the numbers of derived tokens. No two that these can name are one."""
        nodes, per_node = member(self.derived, "nodes"), member(self.derived, "per_node")
        self.nodes = small(nodes)
        for value, most, path, none in (
            (nodes, MAX_NODES, "derived/nodes", "the ring has no node"),
            (per_node, MAX_TOKENS_PER_NODE, "derived/per_node", "no node has a token"),
        ):
            number = small(value)
            if number == 0:
                self.tell(value, path, f"{none}; write 1 to {most}", "E5 NodeWithoutToken 0")
            # Where there is no node, none has too many tokens.
            elif number is not None and number > most and self.nodes != 0:
                self.tell(value, path, f"{number} is too many; write 1 to {most}", "E6 TooMany")


def limit_mistakes(script: Value) -> Iterator[Finding]:
    """A mistake for each limit that is no whole number of its range."""
    for name, (most, _) in LIMITS.items():
        value = member(member(script, "limits"), name)
        number = whole(value)
        if value is None or (number is not None and 1 <= number <= most):
            continue
        given = shown(value.data) if isinstance(value.data, Number) else "this"
        is_read = number is not None and number < 2**64
        refusal = "E6 TooMany" if is_read else "E17 ScriptSyntax 0"
        said = f"{given} is out of range; write a whole number from 1 to {most}"
        yield Finding(value.start, f"limits/{name}", said, refusal)


def quorum_mistakes(script: Value, nodes: Optional[int]) -> Iterator[Finding]:
    """A mistake for each of n, r and w that does not go with the others, or with the ring."""
    n = small(member(script, "n"))
    for name in ("n", "r", "w"):
        value = member(script, name)
        number = small(value)
        most, of = (nodes, "the ring has {} nodes") if name == "n" else (n, "n is {}")
        if number is None or (number > 0 and (most is None or number <= most)):
            continue
        if number == 0:
            said = f"{name} is 0; write 1 or more"
        elif most == 0:
            continue
        else:
            said = f"{name} is {number} and {of.format(most)}; write 1 to {most}"
        yield Finding(value.start, name, said, "E16 BadQuorum")


def key_mistakes(script: Value) -> Iterator[Finding]:
    """A mistake for each of the script's keys that has no byte or too many."""
    for number, value in enumerate(items(member(script, "keys"))):
        path = below("keys", str(number))
        said = size_slip(text(value), MAX_KEY_BYTES, 1)
        if said:
            yield Finding(value.start, path, said, "E17 ScriptSyntax 0")


def size_slip(given: Optional[str], most: int, least: int) -> str:
    """What to say of a text that has too few or too many bytes, nothing where it has not."""
    size = least if given is None else len(given.encode())
    if least <= size <= most:
        return ""
    return f"this text has {size} bytes; write {least} to {most}"


def node_mistakes(script: Value, nodes: Optional[int]) -> Iterator[Finding]:
    """A mistake for each command that names a node which the ring has not."""
    has = f"the ring has nodes 0 to {nodes - 1}" if nodes else "the ring has no node"
    for number, command in enumerate(items(member(script, "run"))):
        value = member(command, "node")
        node = whole(value)
        word = text(member(command, "do"))
        if nodes is None or node is None or node < nodes or word not in AT_NODE:
            continue
        path = f"run/{number}/node"
        refusal = f"E17 ScriptSyntax {number_of(path)}"
        yield Finding(value.start, path, f"there is no node {node}; {has}", refusal)


def rule_mistakes(script: Value, lines: Lines) -> Tuple[List[Finding], Optional[int]]:
    """Each mistake that the schema can't tell, and how many nodes the ring has, if known."""
    ring = Ring(script, lines)
    found = list(ring.found)
    found += limit_mistakes(script)
    found += quorum_mistakes(script, ring.nodes)
    found += key_mistakes(script)
    found += node_mistakes(script, ring.nodes)
    return found, ring.nodes
