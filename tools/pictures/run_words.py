"""What the row of a command says beside its lanes."""
from typing import Callable, Dict, Tuple

from reading.lines import Delivered, Done, Got, Passed, Refused, Shown, Written
from reading.rules import AT_NODE, COMMANDS, OF_KEY, WRITES
from reading.scripts import Command
from reading.texts import counted

from .runs import Event, Run
from .svg import shown


def words_of(event: Event) -> Tuple[str, str]:
    """What the command asks, and what came of it."""
    drawn = COMMANDS[event.command.word].drawn
    asked = event.command.told(drawn, {}) if drawn else _asked(event.command)
    return asked, CAME[type(event.form)](event)


def _asked(command: Command) -> str:
    words = command.word
    if command.word in OF_KEY:
        words += f" {shown(command.key)}"
    if command.value is not None:
        words += f" = {shown(command.value)}"
    if command.word in WRITES and command.w is not None:
        words += f", w {command.w}"
    if command.word in AT_NODE:
        words += f", node {command.node}"
    return words + (f", session {command.session}" if command.session else "")


def _written(event: Event) -> str:
    context = event.command.context
    return f"{event.form.dot} acknowledged" + ("" if context == "-" else f", after {context}")


def _got(event: Event) -> str:
    homes = ", ".join(map(str, event.mended))
    values = ", ".join(shown(value) for _, value in event.form.values) or "no value"
    return values + (f"; mended: {homes}" if homes else "")


def _counted(event: Event, counts: Dict[str, int]) -> str:
    return event.command.told(COMMANDS[event.command.word].came, counts)


def _passed(event: Event) -> str:
    form = event.form
    if not form.offers:
        return "no hint"
    out = counted(form.released, "version")
    return f"{counted(form.offers, 'hint')}, {form.stored} stored, {out} out"


def _held(event: Event) -> str:
    own = "nothing" if event.form.own == "-" else event.form.own
    return f"own {own}" + "".join(f"; for home {home} {dots}" for home, dots in event.form.hints)


def _refused(event: Event) -> str:
    return event.refusal + (f", {event.form.dot} stands" if event.form.dot else "")


CAME: Dict[type, Callable[[Event], str]] = {
    Written: _written,
    Got: _got,
    Done: lambda event: _counted(event, event.form.counts),
    Passed: _passed,
    Delivered: lambda event: _counted(event, {"stored": event.form.stored}),
    Shown: _held,
    Refused: _refused,
}


def end_words(run: Run) -> Tuple[str, str]:
    """What the audit's last line says."""
    words = f"{counted(run.end.held, 'version')} held, {run.end.acked:,} acknowledged"
    return "at the end", words + (f", {counted(run.end.gets, 'get')}" if run.end.gets else "")
