"""Whether the lines of an output belong to a script, and follow one another."""
from typing import Dict, Iterable, Optional, Tuple

from reading.lines import (
    COMMAND_FORMS, STEP_FORMS, Acked, Cluster, CommandForm, End, Form, Got, Held, Issue, Listed,
    Refused, Said, Settled, Shown, Token, Told, Written, places_in,
)
from reading.rules import WRITES
from reading.scripts import Command, Script
from reading.texts import count_of, counted, named_to, shown

from .steps import OfStep, Steps


def nodes_in(form: Form) -> Iterable[int]:
    """Returns the nodes that the line names as holders and homes, or on the ring."""
    yield from (node for place in places_in(form) for node in place)
    if isinstance(form, Listed):
        yield from form.nodes
    if isinstance(form, (Token, Issue)):
        yield form.node


class Belonging:
    """What a script and the lines before say of the next line."""

    def __init__(self, script: Script) -> None:
        self.script = script
        self.steps = Steps(script)
        self.last = 0
        self.is_whole = True
        self.is_begun = self.is_audit = self.is_over = False
        self.held = self.acked = self.gets = 0
        self.makers: Dict[Tuple[bytes, str], int] = {}
        writes = (it for it in script.commands if it and it.word in WRITES)
        self.keys = {it.key for it in writes}

    def ask(self, command: Optional[Command]) -> None:
        """Notes a command that came behind those of the script."""
        if command and command.word in WRITES:
            self.keys.add(command.key)
        self.steps.ask(command)

    def fault(self, form: Form) -> Optional[str]:
        """Returns why the line is none of a run of this script, or None where it may be one."""
        if isinstance(form, COMMAND_FORMS):
            command = self.script.command(form.number)
            fault = self.fault_of_number(form, command) or self.fault_of_values(form, command)
        elif isinstance(form, Said):
            fault = self.fault_of_said(form)
        elif isinstance(form, Listed):
            fault = None if form.key in self.script.keys else "the script lists no such key"
        elif self.is_over:
            fault = "it comes behind the end"
        elif isinstance(form, (*STEP_FORMS, Told)):
            fault = self.fault_of_step(form)
        elif isinstance(form, Cluster):
            fault = self.steps.fault_of_cluster(form)
            fault = "it is not the first line" if self.is_begun else fault
        else:
            fault = self.fault_of_audit(form)
        node = max(nodes_in(form), default=0)
        if fault is None and node >= max(self.script.nodes, 1):
            fault = f"there is no node {node}; the script has {counted(self.script.nodes, 'node')}"
        return fault

    def gap(self, form: Form) -> Optional[str]:
        """Returns what is missing before the line, or None where nothing is."""
        if isinstance(form, COMMAND_FORMS):
            return self.missing(form.number - 1)
        if isinstance(form, STEP_FORMS):
            return self.steps.gap(form)
        if isinstance(form, (Held, Acked, Settled, End)) and not self.is_audit:
            missing = self.missing(len(self.script.commands))
            if missing:
                return missing
        if not isinstance(form, End) or not self.is_whole:
            return None
        wrong = [f"{name} {told}, not {count}" for name, told, count in (
            ("held", self.held, form.held),
            ("acked", self.acked, form.acked),
            ("gets", self.gets, form.gets),
            ("steps", self.steps.last or form.steps, form.steps),
        ) if told != count]
        return f"the lines before it have {', '.join(wrong)}" if wrong else None

    def note(self, form: Form) -> None:
        """Notes a line that belongs to the script."""
        self.is_begun = True
        self.is_whole = self.is_whole and self.gap(form) is None
        if isinstance(form, COMMAND_FORMS):
            self.last = form.number
            self.gets += isinstance(form, Got)
        if isinstance(form, (Written, Refused)) and form.dot:
            self.makers[self.script.command(form.number).key, form.dot] = form.number
        if isinstance(form, Held):
            self.held += count_of(form.dots)
        if isinstance(form, (*STEP_FORMS, Told)):
            self.steps.note(form, self.last)
        self.acked += isinstance(form, Acked)
        self.is_audit = self.is_audit or isinstance(form, (Held, Acked, Settled, End))
        self.is_over = self.is_over or isinstance(form, End)

    def skip(self, form: Optional[Form]) -> None:
        """Passes over a line that does not belong; the commands behind its own are awaited next."""
        self.is_begun, self.is_whole = True, False
        if isinstance(form, COMMAND_FORMS):
            command = self.script.command(form.number)
            is_its_own = command is not None and command.word == form.word
            self.last = max(self.last, form.number) if is_its_own else self.last

    def missing(self, before: int) -> Optional[str]:
        """Returns which commands up to this one no line told."""
        if before <= self.last:
            return None
        return f"no line before it tells {named_to('command', self.last + 1, before)}"

    def fault_of_number(self, form: CommandForm, command: Optional[Command]) -> Optional[str]:
        count = counted(len(self.script.commands), "command")
        if command is None:
            return f"there is no command {form.number}; the script has {count}"
        if command.word != form.word:
            return f"command {form.number} of the script is '{command.word}'"
        if form.number <= self.last:
            return f"command {form.number} comes again, or too late"
        return "a command comes behind the audit" if self.is_audit else None

    def fault_of_values(self, form: CommandForm, command: Command) -> Optional[str]:
        if isinstance(form, Shown) and form.node != command.node:
            return f"the script shows node {command.node}"
        for dot, value in form.values if isinstance(form, Got) else ():
            maker = self.script.command(self.makers.get((command.key, dot), 0))
            if maker and maker.value != value:
                return f"the value of {dot} is not that of its put"
        return None

    def fault_of_step(self, form: OfStep) -> Optional[str]:
        if self.is_audit:
            return "a step comes behind the audit"
        made = self.makers.get((getattr(form, "key", b""), getattr(form, "dot", "")))
        return self.steps.fault(form, self.last, made)

    def fault_of_said(self, form: Said) -> Optional[str]:
        if form.refusal is None or form.refusal.number not in (17, 18):
            return None
        detail = form.refusal.detail
        is_there = detail.isdecimal() and int(detail) <= len(self.script.commands)
        return None if is_there else "the script has no such command"

    def fault_of_audit(self, form: Form) -> Optional[str]:
        if isinstance(form, (Held, Acked, Settled)) and form.key not in self.keys:
            return f"the script writes no key {shown(form.key)}"
        if not isinstance(form, Acked) or not self.is_whole or self.gap(form):
            return None
        is_made = (form.key, form.dot) in self.makers
        return None if is_made else f"no line before it made {form.dot} of {shown(form.key)}"
