"""Runs: what each command did, from the script and the lines that `dynamo run` printed.

The lines tell who stored and who answered. What a get mended and which hints a pass handed over is
followed, and compared with the audit at the end.
"""
from dataclasses import dataclass, field
from typing import Any, Dict, List, Optional, Sequence, Tuple

from reading.lines import (
    COMMAND_FORMS, STEP_FORMS, Answer, Cluster, CommandForm, End, Form, Got, Held, Place, Refused,
    Token, Told, places_in, read_line,
)
from reading.rules import AT_NODE, MAX_CONTEXT_DOTS, MAX_NODES, MODES, NUMBERS, OF_MODE
from reading.scripts import BadInput, Command, listed, nodes_in, read_command, whole
from reading.texts import count_of, dots_of
from reading.worlds import Followed, Row, World

MOST_COMMANDS = 400


@dataclass
class Event:
    """A command with its line, what follows from that, and the answers of a put or a get."""
    number: int
    command: Command
    form: CommandForm
    answers: List[Answer] = field(default_factory=list)
    followed: Followed = Followed()

    @property
    def mended(self) -> List[int]:
        """The homes that hold a get's merged row now."""
        return [home for home, is_done in self.followed.mended if is_done]

    @property
    def refusal(self) -> str:
        """The text of its refusal, empty where it was done."""
        return self.form.refusal.text if isinstance(self.form, Refused) else ""


@dataclass
class Run:
    """The commands of a run that are drawn, and its audit."""
    nodes: int
    events: List[Event]
    commands: int
    held: Dict[Tuple[Place, bytes], Row]
    end: End
    is_followed: bool


def ring_size(script: Dict[str, Any]) -> int:
    """How many nodes the script's ring has."""
    count = nodes_in(script)
    if not 1 <= count <= MAX_NODES:
        raise BadInput(f"E6 TooMany: a ring has 1 to {MAX_NODES} nodes")
    return count


def command_of(raw: Any, number: int, nodes: int) -> Command:
    """A command of the script, with numbers that a run takes."""
    name = f"command {number}"
    command = read_command(raw, name)
    whole(command.session, f"the session of {name}", NUMBERS["session"])
    whole(command.w or 0, f"`w` of {name}", NUMBERS["small"])
    if command.word in AT_NODE:
        whole(command.node, f"the node of {name}", nodes - 1)
    if command.word in OF_MODE and command.mode not in MODES:
        raise BadInput(f"E17 ScriptSyntax: {name} has no mode of a node")
    return command


def dots_in(text: str) -> Row:
    """The dots of a context text, which are not too many to follow."""
    if count_of(text) > MAX_CONTEXT_DOTS:
        raise BadInput("the output has a context of too many versions")
    return frozenset(dots_of(text))


class Reading:
    """The output of a run while it is read beside the script."""

    def __init__(self, script: Dict[str, Any], output: str) -> None:
        self.nodes = ring_size(script)
        self.commands = listed(script.get("run", []), "`run`")
        told = ((line, self.form_of(line)) for line in output.splitlines())
        # An output with the lines of steps is drawn as the same one without them.
        kept = [it for it in told if not isinstance(it[1], (*STEP_FORMS, Cluster, Token, Told))]
        self.lines, self.forms = [line for line, _ in kept], [form for _, form in kept]
        ends = [form for form in self.forms if isinstance(form, End)]
        if len(ends) != 1 or self.forms[-1] is not ends[0]:
            raise BadInput("the output is no whole run: its last line, alone, begins with"
                           " `end held`")
        self.end = ends[0]
        held = [form for form in self.forms if isinstance(form, Held)]
        self.held = {(form.place, form.key): dots_in(form.dots) for form in held}
        self.world = World()

    def form_of(self, line: str) -> Optional[Form]:
        """What a line says, where it has a form; its places are of this ring."""
        form = read_line(line)
        for place in places_in(form) if form else ():
            if max(place) >= self.nodes:
                raise BadInput(f"the output has no answer of this ring: {line[:60]}")
        return form

    def run(self) -> Run:
        """The run, as far as it is drawn."""
        raw = self.commands[:MOST_COMMANDS]
        events = [self.event(at, command_of(it, at, self.nodes)) for at, it in enumerate(raw, 1)]
        is_whole = len(events) == len(self.commands)
        follows = not is_whole or self.world.held() == self.held
        return Run(self.nodes, events, len(self.commands), self.held, self.end, follows)

    def event(self, number: int, command: Command) -> Event:
        """A command with what its line says of it."""
        line, form = next(zip(self.lines[number - 1:], self.forms[number - 1:]), ("", None))
        is_command = isinstance(form, COMMAND_FORMS)
        if not is_command or (form.number, form.word) != (number, command.word):
            raise BadInput(f"line {number} of the output is not that of the script's command"
                           f" {number}: {line[:60]}")
        event = Event(number, command, form, list(self.answers_in(form)))
        event.followed = self.world.follow(form, command)
        if isinstance(form, Refused) and form.dot and not form.answers:
            self.take(event, form.dot)
        return event

    @staticmethod
    def answers_in(form: CommandForm) -> Sequence[Answer]:
        """The answers of a line; those of a get are the places whose rows it used."""
        if isinstance(form, Got):
            return [Answer(place, "rows") for place in form.places]
        return getattr(form, "answers", ())

    def take(self, event: Event, dot: str) -> None:
        """Takes where a version lies from the audit: no step was left, so it still stands there."""
        key = event.command.key
        for (place, of), dots in sorted(self.held.items(), key=lambda held: held[0]):
            if of == key and dot in dots:
                event.answers.append(Answer(place, "stored"))
                self.world.rows[place.holder][place.home, key] = dots
        event.answers.sort(key=lambda answer: f"n{answer.place.holder}" != dot.split(":")[0])


def run_of(script: Dict[str, Any], output: str) -> Run:
    """The run of a script that printed this."""
    return Reading(script, output).run()
