"""The one table of what a script may have: its commands, their members, a node's modes, and how
great all may be; and what is said of each.

`tools/schema_test --write` writes docs/script.schema.json from it. Without that word it looks
whether the tools, the client, the pages and the programs have each of its rows and numbers.
"""
from typing import Dict, NamedTuple, Tuple


class CommandRule(NamedTuple):
    """The members that a command needs and may have; how many of 36 commands of a seed it is; what
    it does; and whether its node must be up. Then what its line counts behind ok, in this order, by
    names. Where its line says nothing else: what explain says of it, and what a picture has for the
    command and for these counts. A count is named there with its noun: {stored:message}.
    """

    needs: Tuple[str, ...]
    may: Tuple[str, ...]
    often: int
    does: str
    wants_up: bool = False
    counts: Tuple[str, ...] = ()
    done: str = ""
    drawn: str = ""
    came: str = ""


class Member(NamedTuple):
    """What a member of a command is: `text`, `digits`, `mode`, or a number of NUMBERS. Where it is
    typed into the shell behind a word: that word, what its place is called, and what help says.
    """

    kind: str
    typed: str = ""
    place: str = ""
    help: Tuple[str, ...] = ()


class Mode(NamedTuple):
    """What a node does in it, in a text and in a picture; whether it stores what it is asked to, or
    keeps it for a delivery; whether an answer comes; how many of 8 modes of a seeded script it is.
    """

    does: str
    drawn: str
    stores: bool
    keeps: bool
    answers: bool
    often: int


class Limit(NamedTuple):
    """The greatest number that a script's limit may be, and what it limits."""

    most: int
    does: str


MAX_NODES, MAX_TOKENS_PER_NODE, MAX_COMMANDS = 32, 64, 100_000
MAX_KEY_BYTES, MAX_VALUE_BYTES = 64, 4096
MAX_COUNTER, MAX_CONTEXT_DOTS = 1_000_000, 100_000
MAX_VERSIONS, MAX_STEPS = 100_000, 1_000_000
LIMITS: Dict[str, Limit] = {
    "counter": Limit(MAX_COUNTER, "The greatest counter of a node for a key"),
    "versions": Limit(MAX_VERSIONS, "How many versions are made at most"),
    "steps": Limit(MAX_STEPS, "How many steps are made at most"),
}
# The greatest number of each kind, before the ring and the quorum are known.
NUMBERS = {"small": 255, "session": 31, "node": 254}

# The seeds of tools/scripts name their scripts by the order of these rows, too. This is the SHA-256
# of the scripts of the seeds 1 to 20, as tools/scripts_test has them, one behind the other.
SEEDED_SUM = "334890af0ad42211a474f68d7a971352205f058cb359ba1049988af1b42167e4"
COMMANDS: Dict[str, CommandRule] = {
    "put": CommandRule(("key",), ("value", "valuehex", "context", "session", "w"), 8,
                       "writes a value"),
    "get": CommandRule(("key",), ("session",), 12,
                       "reads the versions of a key, and repairs homes that are stale"),
    "delete": CommandRule(("key",), ("context", "session", "w"), 1, "writes a deletion"),
    "down": CommandRule(("node",), (), 3, "takes a node down; it keeps what it holds",
                        done="Node {node} is down: whoever asks it is told so.",
                        drawn="node {node} goes down"),
    "up": CommandRule(("node",), (), 4, "brings a node up again",
                      done="Node {node} is up, with what it held before.",
                      drawn="node {node} is up"),
    "fault": CommandRule(("node", "mode"), (), 3, "sets the mode of a node",
                         done="From now on node {node} {mode.does}.",
                         drawn="node {node} {mode.drawn}"),
    "deliver": CommandRule(("node",), (), 1,
                           "has a node store the messages that it kept in mode delay", True,
                           came="{stored:kept message} stored"),
    "handoff": CommandRule(("node",), (), 3, "has a node hand over its hints to their homes", True,
                           counts=("offers", "stored", "released")),
    "show": CommandRule(("node", "key"), (), 1,
                        "shows what a node holds of a key; it does so if it is down, too"),
}
MEMBERS: Dict[str, Member] = {
    "key": Member("text"),
    "value": Member("text"),
    "valuehex": Member("digits"),
    "context": Member("text", "behind", "CONTEXT", (
        "behind names the versions that it replaces: a context that a get printed, as n0:1, or",
        "the word it, the context of the last get of that key. Other versions stay beside it.")),
    "w": Member("small", "w", "HOMES", (
        "w is how many homes must have it, in place of the script's number.",)),
    "session": Member("session", "session", "NUMBER", (
        "session is the client that asks, 0 to 31; without it, it is 0.",)),
    "node": Member("node"),
    "mode": Member("mode"),
}
MODES: Dict[str, Mode] = {
    "none": Mode("does what it is asked, and answers", "answers as usual", True, False, True, 4),
    "mute": Mode("does what it is asked, and no answer comes", "is mute", True, False, False, 1),
    "late": Mode("does what it is asked, and its answer follows behind all others",
                 "answers late", True, False, True, 1),
    "repeat": Mode("does three times what it is asked, and its last answer counts",
                   "repeats", True, False, True, 1),
    "delay": Mode("keeps what it is asked to store for a later deliver, and no answer comes",
                  "delays", False, True, False, 1),
}


def having(name: str) -> Tuple[str, ...]:
    """Returns the commands that need or may have this member."""
    return tuple(word for word, rule in COMMANDS.items() if name in rule.needs + rule.may)


AT_NODE, OF_KEY, OF_MODE, OF_SESSION = map(having, ("node", "key", "mode", "session"))
OF_VALUE, WRITES = map(having, ("value", "context"))
AT_UP = tuple(word for word, rule in COMMANDS.items() if rule.wants_up)
