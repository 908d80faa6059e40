"""What help says of each command."""
from typing import Dict, List

from reading.rules import COMMANDS, MEMBERS, MODES

from .words import WORDS, usage_of

# What the words do that are no commands of a script, and what else is said of a word alone.
DO = {
    "renew": "closes the cluster, prints its audit, and opens a new one with the values",
    "audit": "ends the store, and prints who holds what and what was acknowledged",
    "new": "starts another store of the same script, once one has ended",
    "help": "lists the commands, or tells more of one",
    "quit": "leaves without the audit; Ctrl-D leaves with it",
}
MORE: Dict[str, List[str]] = {
    "put": [
        "A key or a value with blanks stands in quotation marks: put \"my key\" 'my value'.",
        "A value behind the word hex is in hexadecimal digits: put a hex 00ff.",
    ],
    "fault": [
        "In each mode, a node that is asked",
        *(f"  {name}: {mode.does}" for name, mode in MODES.items()),
    ],
    "renew": [
        "The new cluster has no history: all nodes are up, sessions begin anew, and contexts of",
        "before mean nothing.",
    ],
}


def does(word: str) -> str:
    """Returns what a word does."""
    return COMMANDS[word].does if word in COMMANDS else DO[word]


def help_of(topic: str) -> List[str]:
    """Returns what help says of a command, or of all where none is named."""
    if topic:
        may = COMMANDS[topic].may if topic in COMMANDS else ()
        more = [line for name, it in MEMBERS.items() if name in may for line in it.help]
        more += MORE.get(topic, [])
        return [usage_of(topic), f"   It {does(topic)}.", *(f"   {line}" for line in more)]
    rows = [(usage_of(word), does(word)) for word in WORDS]
    width = max(len(usage) for usage, _ in rows if len(usage) < 30)
    said = []
    for usage, text in rows:
        said += [f"{usage.ljust(width)}  {text}"] if len(usage) <= width else [
            usage, f"{'':{width}}  {text}"]
    return said

