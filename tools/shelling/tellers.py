"""What each line of the store means, in the sentences of tools/explain."""
import re
from typing import Any, Dict, List, Optional

from explaining.refusals import Meaning, meaning_of
from explaining.runs import Run
from explaining.words import say, say_refusal
from reading.lines import COUNT, REFUSAL, Got, Held, Refusal
from reading.scripts import BadInput, Command, Script, read_command

RENEWED = re.compile(f"({COUNT}) renew ok carried ({COUNT})")
UNREAD = re.compile(f"({COUNT}) {REFUSAL}")


def command_of(members: Dict[str, Any]) -> Optional[Command]:
    """Returns the command that the members are, or None where it is none of a script."""
    try:
        return read_command(members, "the command")
    except BadInput:
        return None


class Teller:
    """Follows the lines of a store, and keeps the context of the last get of each key."""

    def __init__(self, script: Script, meanings: Dict[str, Meaning]) -> None:
        self.run = Run(script, meanings)
        self.contexts: Dict[bytes, str] = {}
        self.has_told_mended = False

    def ask(self, members: Dict[str, Any]) -> None:
        """Notes what is asked of the store."""
        self.run.ask(command_of(members))

    def tell(self, text: str) -> List[str]:
        """Returns what a line of the store means."""
        renewed, unread = RENEWED.fullmatch(text), UNREAD.fullmatch(text)
        if renewed:
            return self.renew(int(renewed[1]), int(renewed[2]))
        if unread:
            return self.tell_unread(int(unread[1]), unread)
        line = self.run.take(text)
        if line.form is None:
            return [f"This line is not understood: {line.complaint}."]
        if isinstance(line.form, Got):
            self.contexts[line.command.key] = line.form.context
            self.has_told_mended = self.has_told_mended or bool(line.mended)
        return say(line, self.run)

    def tell_unread(self, number: int, match: Any) -> List[str]:
        """Returns what the refusal of a line means that the program took for no command."""
        self.run.belonging.last = number
        text, refused, name, detail = match.group(2, 3, 4, 5)
        refusal = Refusal(int(refused), name, detail or "", text)
        if meaning_of(self.run.meanings, refusal) is None:
            return ["This line is not understood: there is no such refusal."]
        return say_refusal(refusal, self.run)

    def end_audit(self) -> List[str]:
        """Returns what the end of an audit shows of what was told before."""
        if self.has_told_mended and not self.run.holdings.agrees(self.run.forms(Held)):
            return ["The audit does not list what was followed: other homes may have been mended."]
        return []

    def renew(self, number: int, carried: int) -> List[str]:
        """Goes over to a new cluster, and returns what was done. Its contexts are all new."""
        said, old = self.end_audit(), self.run
        self.run = Run(old.script._replace(commands=[None] * number), old.meanings)
        belonging, self.contexts, self.has_told_mended = self.run.belonging, {}, False
        belonging.last, belonging.keys = number, old.belonging.keys
        # How the new cluster took the values is told by no line.
        belonging.is_whole = self.run.holdings.is_sure = carried == 0
        values = "1 value was" if carried == 1 else f"{carried:,} values were"
        return [*said, f"A new cluster has taken over: {values} put into it anew, in session 0.",
                "All its nodes are up, and contexts of before mean nothing in it."]
