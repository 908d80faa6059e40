"""Says of a script that the program takes which of its commands will be refused when they run.

It plays nothing, and tells what is certain whatever the nodes do: sizes, contexts that are no text
or name what can't have been made before, a put's own w, and commands that find their nodes down.
What is told of a command comes in the order in which the program looks for it.
"""
import re
from typing import Dict, Iterator, Optional, Set

from json_places import Value, shown
from reading.rules import (
    AT_UP, MAX_CONTEXT_DOTS, MAX_COUNTER, MAX_KEY_BYTES, MAX_VALUE_BYTES, OF_SESSION, WRITES,
)
from script_rules import items, member, size_slip, small, text, whole
from script_schema import Finding

OF_NODE = re.compile(r"n(0|[1-9]|[12][0-9]|3[01]):([-,0-9]+)")
RUN = re.compile(r"([1-9][0-9]{0,6})(?:-([1-9][0-9]{0,6}))?")


def last_of_runs(runs: str) -> Optional[int]:
    """The last counter of a node's runs; none where they don't rise, or touch one another."""
    last = -1
    for run in runs.split(","):
        found = RUN.fullmatch(run)
        if not found or int(found[1]) <= last + 1:
            return None
        if found[2] and int(found[2]) <= int(found[1]):
            return None
        last = int(found[2] or found[1])
    return last if last <= MAX_COUNTER else None


def count_of_runs(runs: str) -> int:
    """How many counters the runs of a node have."""
    found = (RUN.fullmatch(run) for run in runs.split(","))
    return sum(int(run[2] or run[1]) - int(run[1]) + 1 for run in found)


def last_counters(context: str) -> Optional[Dict[int, int]]:
    """Each node of a context with its last counter; none where the text is no context text."""
    last: Dict[int, int] = {}
    dots = 0
    for part in context.split(" ") if context != "-" else []:
        found = OF_NODE.fullmatch(part)
        counter = last_of_runs(found[2]) if found else None
        if counter is None or int(found[1]) <= max(last, default=-1):
            return None
        last[int(found[1])] = counter
        dots += count_of_runs(found[2])
    return last if dots <= MAX_CONTEXT_DOTS else None


class Run:
    """Goes through the commands of a script that has no mistake."""

    def __init__(self, script: Value, nodes: int):
        self.commands = items(member(script, "run"))
        self.n, self.nodes = small(member(script, "n")), nodes
        self.down: Set[int] = set()
        self.writes: Dict[str, int] = {}

    def warnings(self) -> Iterator[Finding]:
        """A warning for each reason why a command will be refused."""
        for number, command in enumerate(self.commands):
            word = text(member(command, "do"))
            found = list(self.look_at(command, word, f"run/{number}"))
            yield from found
            key = text(member(command, "key"))
            if word in WRITES and not found:
                self.writes[key] = self.writes.get(key, 0) + 1

    def look_at(self, command: Value, word: str, path: str) -> Iterator[Finding]:
        """What will refuse a command, in the order in which the program looks for it."""
        yield from self.sizes(command, path)
        yield from self.of_write(command, path)
        node = whole(member(command, "node"))
        at = member(command, "do").start
        if word == "down":
            self.down.add(node)
        elif word == "up":
            self.down.discard(node)
        elif word in AT_UP and node in self.down:
            said = f"node {node} is down here; write an up before"
            yield warning(at, f"{path}/do", said, "E13 Down")
        elif word in OF_SESSION and len(self.down) == self.nodes:
            said = "every node is down here; write an up before"
            yield warning(at, f"{path}/do", said, "E14 NoNode")
        yield from self.of_context(command, path)

    def sizes(self, command: Value, path: str) -> Iterator[Finding]:
        """Keys and values that have too few or too many bytes."""
        key, value = member(command, "key"), member(command, "value")
        digits = member(command, "valuehex")
        said = size_slip(text(key), MAX_KEY_BYTES, 1)
        if said:
            yield warning(key.start, f"{path}/key", said, "E2 KeySize")
        said = size_slip(text(value), MAX_VALUE_BYTES, 0)
        if said:
            yield warning(value.start, f"{path}/value", said, "E3 ValueSize")
        if digits is not None and len(digits.data) > 2 * MAX_VALUE_BYTES:
            said = f"these are {len(digits.data) // 2} bytes; write {MAX_VALUE_BYTES} at most"
            yield warning(digits.start, f"{path}/valuehex", said, "E3 ValueSize")

    def of_write(self, command: Value, path: str) -> Iterator[Finding]:
        """A context that is none, and a put's own w that is outside 1 to n."""
        context, w = member(command, "context"), member(command, "w")
        if context is not None and last_counters(context.data) is None:
            what = f"{shown(context.data)} is no context"
            said = f"{what}; write what a get printed, as n0:1-3,5 n3:2"
            yield warning(context.start, f"{path}/context", said, "E1 ContextSyntax")
        if w is not None and not 1 <= small(w) <= self.n:
            said = f"w is {small(w)} and n is {self.n}; write 1 to {self.n}"
            yield warning(w.start, f"{path}/w", said, "E16 BadQuorum")

    def of_context(self, command: Value, path: str) -> Iterator[Finding]:
        """A context that names what can't have been made: each write before makes one version."""
        context = member(command, "context")
        last = last_counters(context.data) if context is not None else None
        if not last:
            return
        before = self.writes.get(text(member(command, "key")), 0)
        if max(last) >= self.nodes:
            said = f"there is no node {max(last)}; write what a get of this key printed"
        elif sum(last.values()) > before:
            named = sum(last.values())
            said = f"its key has {before} versions by then at most, and {named} are named"
        else:
            return
        yield warning(context.start, f"{path}/context", said, "E8 ContextUnknown")


def warning(start: int, path: str, said: str, refusal: str) -> Finding:
    """What will be refused when it runs."""
    return Finding(start, path, said, refusal, is_warning=True)
