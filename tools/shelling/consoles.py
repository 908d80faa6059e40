"""Where lines come from: a terminal, with history and completion, or any other input."""
import shlex
import signal
import sys
from typing import Callable, List, Optional

from reading.rules import COMMANDS, MODES

from .words import WORDS, needs_of, options_of

try:
    import readline
except ImportError:
    # There are Pythons without it; then there is no history and no completion.
    readline = None

PROMPT = "dynamo> "


class Interrupted(Exception):
    """The typed line is dropped."""


def candidates(before: List[str], keys: List[str], nodes: int) -> List[str]:
    """Returns the words that may stand behind these."""
    if not before:
        return list(WORDS)
    word, given = before[0], before[1:]
    if word == "help":
        return [] if given else list(WORDS)
    if word not in COMMANDS:
        return []
    needs = needs_of(word)
    if len(given) < len(needs):
        at = {"key": keys, "node": [str(node) for node in range(nodes)], "mode": list(MODES)}
        return at.get(needs[len(given)], [])
    if given[len(needs):] and given[-1] == "behind":
        return ["it"]
    options = options_of(word)
    is_open = given[len(needs):] and given[-1] in options
    return [] if is_open else [it for it in options if it not in given[len(needs):]]


def words_before(text: str) -> List[str]:
    """Returns the words of a line that is not typed to its end."""
    try:
        return shlex.split(text)
    except ValueError:
        return text.split()


class Terminal:
    """A terminal. An interrupt drops a typed line, and is passed over while one is done."""

    def __init__(self, keys: Callable[[], List[str]], nodes: int) -> None:
        self.keys, self.nodes = keys, nodes
        self.found: List[str] = []
        signal.signal(signal.SIGINT, signal.SIG_IGN)
        if readline:
            readline.set_completer(self.complete)
            readline.set_completer_delims(" \t")
            is_libedit = "libedit" in (readline.__doc__ or "")
            readline.parse_and_bind("bind ^I rl_complete" if is_libedit else "tab: complete")

    def complete(self, text: str, state: int) -> Optional[str]:
        """Returns the completion of this number, as readline asks for them."""
        if state == 0:
            before = words_before(readline.get_line_buffer()[:readline.get_begidx()])
            keys = [shlex.quote(key) for key in self.keys()]
            found = candidates(before, keys, self.nodes)
            self.found = [f"{it} " for it in found if it.startswith(text)]
        return self.found[state] if state < len(self.found) else None

    def read(self) -> Optional[str]:
        """Returns the next line, or None at the end of the input."""
        try:
            signal.signal(signal.SIGINT, signal.default_int_handler)
            return input(PROMPT)
        except EOFError:
            print(flush=True)
            return None
        except KeyboardInterrupt:
            print(flush=True)
            raise Interrupted from None
        finally:
            signal.signal(signal.SIGINT, signal.SIG_IGN)


class Lines:
    """Standard input that is no terminal: lines without a prompt."""

    def read(self) -> Optional[str]:
        """Returns the next line, or None at the end of the input."""
        line = sys.stdin.buffer.readline()
        return line.decode("utf-8", "surrogateescape").rstrip("\r\n") if line else None
