"""A run as its lines tell it: each with its command, or with the reason why it does not belong."""
from dataclasses import dataclass
from typing import Dict, List, Optional, Type, TypeVar

from reading.lines import (
    COMMAND_FORMS, STEP_FORMS, Cluster, End, Form, Held, Listed, Refused, Said, Token, Told,
    read_line,
)
from reading.scripts import Command, Script
from reading.texts import named_to

from .belonging import Belonging
from .holdings import Holdings
from .refusals import Meaning, meaning_of, name_of

AnyForm = TypeVar("AnyForm")
NOTHING = "Where the script was refused, 2>&1 brings what standard error says of it."


@dataclass
class Line:
    """A line of the output: its form, its command, and the homes that a get mended, where known.

    A line of a step has the command that it stands below.
    """

    at: int
    text: str
    form: Optional[Form] = None
    command: Optional[Command] = None
    number: int = 0
    mended: Optional[List[int]] = None
    complaint: Optional[str] = None


class Run:
    """The lines of a run, read one after the other."""

    def __init__(self, script: Script, meanings: Dict[str, Meaning], output: str = "") -> None:
        self.script = script
        self.meanings = meanings
        self.belonging = Belonging(script)
        self.holdings = Holdings()
        self.lines: List[Line] = []
        texts = output.split("\n")
        for text in texts[:-1] if texts[-1] == "" else texts:
            self.take(text)
        if not self.forms(End) or not self.holdings.agrees(self.forms(Held)):
            for line in self.lines:
                line.mended = None

    def ask(self, command: Optional[Command]) -> None:
        """Adds a command behind those of the script; None is one that the program can't read."""
        self.script.commands.append(command)
        self.belonging.ask(command)

    def take(self, text: str) -> Line:
        """Reads the next line of the output, and returns it."""
        line = self.read(len(self.lines) + 1, text)
        self.lines.append(line)
        return line

    def forms(self, kind: Type[AnyForm]) -> List[AnyForm]:
        """Returns the lines of this form."""
        return [line.form for line in self.lines if isinstance(line.form, kind)]

    def read(self, at: int, text: str) -> Line:
        """Reads a line; one that does not belong to the script has no form."""
        form = read_line(text)
        fault = "no known form"
        if form is not None and self.is_known(form):
            fault = self.belonging.fault(form)
        if fault:
            self.belonging.skip(form)
            return Line(at, text, complaint=fault)
        line = Line(at, text, form, complaint=self.belonging.gap(form))
        self.belonging.note(form)
        if isinstance(form, (*COMMAND_FORMS, *STEP_FORMS, Told)):
            line.number = self.belonging.last
            line.command = self.script.command(line.number)
        if isinstance(form, COMMAND_FORMS):
            self.holdings.is_sure = self.holdings.is_sure and self.belonging.is_whole
            line.mended = self.holdings.follow(form, line.command)
        return line

    def is_known(self, form: Form) -> bool:
        """Tells whether the refusals that the line tells, if any, are of docs/REFUSALS.md."""
        refusal = form.refusal if isinstance(form, (Refused, Said)) else None
        if refusal and meaning_of(self.meanings, refusal) is None:
            return False
        words = {answer.word for answer in getattr(form, "answers", ())}
        return all(name_of(self.meanings, word) for word in words if word.startswith("E"))

    def rest(self) -> Optional[str]:
        """Returns what the output does not tell, where it ends before the audit does."""
        is_ring = self.forms(Listed) or (self.forms(Token) and not self.forms(Cluster))
        if self.forms(End) or self.forms(Said) or is_ring:
            return None
        last, count = self.belonging.last, len(self.script.commands)
        untold = [named_to("command", last + 1, count)] if last < count else []
        end = "the end of the audit" if self.belonging.is_audit else "the audit"
        said = f"The output ends here, before {' and '.join([*untold, end])}."
        return said if self.lines else f"{said} {NOTHING}"
