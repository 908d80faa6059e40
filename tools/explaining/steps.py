"""The lines of steps: whether they belong to their command, and what is said of them."""
from typing import Dict, Optional, Union

from reading.lines import (
    STEP_FORMS, Ack, Cluster, Fetch, Hold, Issue, Place, Release, StepForm, Told,
)
from reading.rules import OF_KEY, OF_SESSION, WRITES
from reading.scripts import Command, Script
from reading.texts import counted, named, named_to, shown

OfStep = Union[StepForm, Told]


class Steps:
    """What the script and the lines before say of the next line of a step."""

    def __init__(self, script: Script) -> None:
        self.script = script
        self.last = 0
        self.fetched: Dict[int, int] = {}
        self.keys = {it.key for it in script.commands if it and it.word in OF_KEY}

    def ask(self, command: Optional[Command]) -> None:
        """Notes a command that came behind those of the script."""
        if command and command.word in OF_KEY:
            self.keys.add(command.key)

    def fault_of_cluster(self, form: Cluster) -> Optional[str]:
        wanted = self.script[:3]
        said = "the script has n {}, r {} and w {}".format(*wanted)
        return None if tuple(form) == wanted else said

    def fault(self, form: OfStep, number: int, made: Optional[int]) -> Optional[str]:
        """Returns why the line is none of the command of this number, or None where it may be one.

        `made` is the command that made the version which the line names.
        """
        command = self.script.command(number)
        if command is None:
            return "no command stands before it"
        if isinstance(form, Told):
            return self.fault_of_told(form, number, command)
        if form.number <= self.last:
            return f"step {form.number} comes again, or too late"
        keys = {command.key} if command.word in OF_SESSION else self.keys
        if form.key not in keys:
            return f"command {number} has nothing to do with the key {shown(form.key)}"
        if not isinstance(form, (Issue, Ack)):
            return None
        if command.word not in WRITES or made != number:
            return f"command {number} did not make {form.dot} of {shown(form.key)}"
        if isinstance(form, Ack):
            return self.fault_of_ack(form, number, command)
        return None if form.value == command.value else f"command {number} has another value"

    def fault_of_ack(self, form: Ack, number: int, command: Command) -> Optional[str]:
        wanted = self.script.w if command.w is None else command.w
        if (form.w, form.session) == (wanted, command.session):
            return None
        return f"command {number} wants {wanted}, in session {command.session}"

    def fault_of_told(self, form: Told, number: int, command: Command) -> Optional[str]:
        if (command.word, command.session) != ("get", form.session):
            return f"command {number} is no get of session {form.session}"
        strange = [it for it in form.numbers if self.fetched.get(it) != number]
        return f"step {strange[0]} is no fetch of command {number}" if strange else None

    def gap(self, form: StepForm) -> Optional[str]:
        """Returns which steps are missing before this one."""
        first, last = self.last + 1, form.number - 1
        return None if first > last else f"no line before it tells {named_to('step', first, last)}"

    def note(self, form: OfStep, number: int) -> None:
        """Notes a line that belongs to the command of this number."""
        if isinstance(form, STEP_FORMS):
            self.last = form.number
        if isinstance(form, Fetch):
            self.fetched[form.number] = number


def whose(place: Place) -> str:
    return "itself" if place.holder == place.home else f"home {place.home}"


def say_cluster(form: Cluster) -> str:
    return f"Each key has {counted(form.n, 'home')}; a get wants {form.r}, and a put {form.w}."


def say_issue(form: Issue, word: str) -> str:
    what = ", a deletion," if form.value is None else f" = {shown(form.value)},"
    past = "no other version" if form.past == "-" else form.past
    return f"node {form.node} made {form.dot} of {shown(form.key)}{what} behind {past}"


def say_hold(form: Hold, word: str) -> str:
    what = "no version" if form.dots == "-" else form.dots
    into = f"what it holds for {whose(form.place)}"
    return f"node {form.place.holder} merged {what} of {shown(form.key)} into {into}"


def say_release(form: Release, word: str) -> str:
    hint = f"its hint of {shown(form.key)} for {whose(form.place)}"
    return f"node {form.place.holder} gave up {form.dot} of {hint}"


def say_fetch(form: Fetch, word: str) -> str:
    row = f"what it holds of {shown(form.key)} for {whose(form.place)}"
    return f"node {form.place.holder} answered {row}"


def say_ack(form: Ack, word: str) -> str:
    have = f"{counted(form.w, 'home')} {'has' if form.w == 1 else 'have'}"
    return f"session {form.session} was told that {have} {form.dot}, which the {word} made"


SAID = {Issue: say_issue, Hold: say_hold, Release: say_release, Fetch: say_fetch, Ack: say_ack}


def say_step(form: StepForm, word: str) -> str:
    """Says what a step of a command with this word is."""
    return f"Step {form.number}: {SAID[type(form)](form, word)}."


def say_told(form: Told) -> str:
    fetches = "fetch" if len(form.numbers) == 1 else "fetches"
    return f"The get of session {form.session} used the {fetches} of {named('step', form.numbers)}."
