"""What each line says, in sentences."""
from typing import Callable, Dict, List, Optional, Sequence, Type

from reading.lines import (
    STEP_FORMS, Acked, Answer, Cluster, Delivered, Done, End, Got, Held, Listed, Passed, Refusal,
    Refused, Said, Settled, Shown, Token, Told, Written,
)
from reading.rules import COMMANDS
from reading.texts import counted, listed, named, shown

from .refusals import meaning_of, name_of
from .runs import Line, Run
from .steps import say_cluster, say_step, say_told
from .turnouts import is_own, say_turnout, turnout_at, turnout_of

MAY_HAVE = ", and may have it all the same"


def wanted_by(line: Line, run: Run) -> Optional[int]:
    """Returns how many homes the put, the delete or the get of this line wanted."""
    if line.command.word == "get":
        return run.script.r
    return run.script.w if line.command.w is None else line.command.w


def were_wanted(count: Optional[int]) -> str:
    return f"{count} {'was' if count == 1 else 'were'} wanted"


def have_it(count: int) -> str:
    return f"{counted(count, 'home')} {'has' if count == 1 else 'have'} it"


def say_answers(answers: Sequence[Answer], did: str, aside: str, run: Run) -> List[str]:
    """Says what the answers mean, and what the refusals among them do."""
    turnout = turnout_of(answers)
    said = say_turnout(turnout, did, aside)
    for word in dict.fromkeys(answer.word for answer in turnout.refused):
        name = name_of(run.meanings, word)
        said.append(f"{name} means: {run.meanings[name].cause}.")
    return said


def say_written(form: Written, line: Line, run: Run) -> List[str]:
    maker = form.answers[0].place.holder
    homes = turnout_of(form.answers).homes
    counts = f"{have_it(homes)}, and {were_wanted(wanted_by(line, run))}"
    made = f"Acknowledged: node {maker} made the version {form.dot}; {counts}."
    return [made, *say_answers(form.answers, "stored it", MAY_HAVE, run)]


def say_value(dot: str, value: bytes, line: Line, run: Run) -> str:
    maker = run.belonging.makers.get((line.command.key, dot))
    return f"{shown(value)} ({dot}, put by command {maker})" if maker else f"{shown(value)} ({dot})"


def say_values(form: Got, line: Line, run: Run) -> str:
    """Says what a get found."""
    values = [say_value(dot, value, line, run) for dot, value in form.values]
    if len(values) > 1:
        beside = f"{len(values)} values stand beside each other: {listed(values)}"
        return f"{beside}. A put with the context of this get reconciles them."
    if values:
        return f"The value is {values[0]}."
    if form.context == "-":
        return "There is no value: those who answered hold no version of the key."
    return "There is no value: what stands is a deletion."


def say_mended(mended: Optional[List[int]]) -> str:
    """Says which homes a get mended."""
    if mended is None:
        return "The output does not say which homes had another row, and were mended."
    if not mended:
        return "No home had to be mended."
    was = "was" if len(mended) == 1 else "were"
    asked = f"which had another row and {was} asked to hold the merged one"
    return f"Mended: {named('home', mended)}, {asked}."


def say_got(form: Got, line: Line, run: Run) -> List[str]:
    found = [say_values(form, line, run), *say_turnout(turnout_at(form.places), "answered", "")]
    context = f"The context for a put that follows is {form.context}."
    return [*found, say_mended(line.mended), context]


def say_done(form: Done, line: Line, run: Run) -> List[str]:
    return [line.command.told(COMMANDS[form.word].done, form.counts)]


def say_delivered(form: Delivered, line: Line, run: Run) -> List[str]:
    if form.stored == 0:
        return [f"Node {line.command.node} had kept no message."]
    return [f"Node {line.command.node} stored {counted(form.stored, 'message')} that it had kept."]


def say_passed(form: Passed, line: Line, run: Run) -> List[str]:
    """Says what a pass brought."""
    node = line.command.node
    if form.offers == 0:
        return [f"Node {node} had no hint to hand over."]
    whose = "its home" if form.offers == 1 else "their homes"
    offered = f"Node {node} offered {counted(form.offers, 'hint')} to {whose}"
    left = f"{counted(form.released, 'version')} left its hints"
    said = [f"{offered}: receipts came for {form.stored}, and {left}."]
    if form.stored < form.offers:
        said.append("Hints without a receipt stay until a later pass.")
    elif form.released < form.offers:
        said.append("Hints that it could not release stay until a later pass.")
    return said


def say_shown(form: Shown, line: Line, run: Run) -> List[str]:
    own = "nothing" if form.own == "-" else form.own
    hints = [f"{dots} for home {home}" for home, dots in form.hints]
    holds = listed([f"{own} for itself", *hints])
    return [f"Node {form.node} holds of {shown(line.command.key)}: {holds}."]


def say_refusal(refusal: Refusal, run: Run, told: Sequence[str] = ()) -> List[str]:
    """Says what a refusal means, what it leaves, and what to do, by docs/REFUSALS.md."""
    meaning = meaning_of(run.meanings, refusal)
    said = [f"Refused with {refusal.text}: {meaning.cause}.", *told]
    return [*said, f"What stands after: {meaning.stands}.", f"What to do: {meaning.to_do}."]


def say_refused(form: Refused, line: Line, run: Run) -> List[str]:
    told = []
    if form.answers:
        homes = turnout_of(form.answers).homes
        wanted = were_wanted(wanted_by(line, run))
        if form.dot:
            maker = form.answers[0].place.holder
            made = f"Node {maker} made the version {form.dot}, which is not acknowledged"
            told = [f"{made}: {have_it(homes)}, and {wanted}."]
        else:
            told = [f"{counted(homes, 'home')} answered, and {wanted}."]
        did, aside = ("stored it", MAY_HAVE) if form.dot else ("answered", "")
        told += say_answers(form.answers, did, aside, run)
    elif form.dot:
        told = [f"The version {form.dot} was made, and is not acknowledged."]
    return say_refusal(form.refusal, run, told)


def say_held(form: Held, line: Line, run: Run) -> List[str]:
    place = form.place
    whom = "itself" if is_own(place) else f"home {place.home}, as a hint"
    return [f"Node {place.holder} holds {form.dots} of {shown(form.key)} for {whom}."]


def covered_homes(form: Acked) -> str:
    """Returns the homes that cover an acknowledged put, with who covers it for them."""
    said = []
    for home in dict.fromkeys(place.home for place in form.places):
        holders = [it.holder for it in form.places if it.home == home]
        others = [holder for holder in holders if holder != home]
        also = "also at" if home in holders else "at"
        said.append(f"{home} ({also} {named('node', others)})" if others else str(home))
    return listed(said)


def say_acked(form: Acked, line: Line, run: Run) -> List[str]:
    w = run.script.w if form.w is None else form.w
    homes = len({place.home for place in form.places})
    covered = f"{counted(homes, 'home')} cover{'s' if homes == 1 else ''} it: {covered_homes(form)}"
    return [f"{form.dot} of {shown(form.key)} is acknowledged; {were_wanted(w)}, and {covered}."]


def say_settled(form: Settled, line: Line, run: Run) -> List[str]:
    return [f"{shown(form.key)} is settled: no hint of it stands."]


def say_end(form: End, line: Line, run: Run) -> List[str]:
    acked, gets = counted(form.acked, "put"), counted(form.gets, "get")
    held, steps = counted(form.held, "version"), counted(form.steps, "step")
    return [f"Sums: {held} held, {acked} acknowledged, {gets} answered, {steps} made."]


def say_said(form: Said, line: Line, run: Run) -> List[str]:
    """Says what a line of standard error means."""
    if form.refusal is None:
        return [f"The program says: {form.text}."]
    told = []
    if form.refusal.number in (17, 18):
        number = int(form.refusal.detail)
        command = f"Command {number} of the script is {run.script.text_of(number)}."
        told = [command if number else "The fault is in its own members, or it is no JSON."]
    return ["The run ended here.", *say_refusal(form.refusal, run, told)]


def say_token(form: Token, line: Line, run: Run) -> List[str]:
    return [f"Node {form.node} has a token at {form.position}."]


def say_listed(form: Listed, line: Line, run: Run) -> List[str]:
    n = run.script.n or 0
    homes, others = form.nodes[:n], form.nodes[n:]
    stand_in = f"; {named('node', others)} may stand in, in this order" if others else ""
    return [f"The key {shown(form.key)} has the {named('home', homes)}{stand_in}."]


TELLERS: Dict[Type, Callable[..., List[str]]] = {
    Written: say_written,
    Got: say_got,
    Done: say_done,
    Delivered: say_delivered,
    Passed: say_passed,
    Shown: say_shown,
    Refused: say_refused,
    Held: say_held,
    Acked: say_acked,
    Settled: say_settled,
    End: say_end,
    Said: say_said,
    Token: say_token,
    Listed: say_listed,
    Cluster: lambda form, line, run: [say_cluster(form)],
    **dict.fromkeys(STEP_FORMS, lambda form, line, run: [say_step(form, line.command.word)]),
    Told: lambda form, line, run: [say_told(form)],
}


def say(line: Line, run: Run) -> List[str]:
    """Returns the sentences of a line that belongs to the script."""
    return TELLERS[type(line.form)](line.form, line, run)
