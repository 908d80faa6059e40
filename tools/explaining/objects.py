"""Each line as a JSON object, by docs/FORMATS.md."""
from typing import Any, Dict, Iterable, List, Optional, Sequence

from reading.lines import (
    COMMAND_FORMS, STEP_FORMS, Ack, Acked, Answer, Done, Form, Got, Held, Issue, Listed, Place,
    Refusal, Refused, Said, Shown, StepForm, Told, Written,
)
from reading.rules import AT_NODE, OF_KEY, OF_MODE, OF_SESSION, WRITES
from reading.scripts import Command
from reading.texts import count_of, text_of

from .refusals import meaning_of
from .runs import Line, Run
from .turnouts import turnout_of
from .words import say, wanted_by

Object = Dict[str, Any]


def bytes_in(name: str, data: Optional[bytes]) -> Object:
    """Returns the bytes as a text, null where they are none, and in hexadecimal."""
    return {} if data is None else {name: text_of(data), f"{name}hex": data.hex()}


def places_in(places: Iterable[Place]) -> List[Object]:
    return [{"holder": place.holder, "home": place.home} for place in places]


def worded(answers: Sequence[Answer]) -> List[Object]:
    places = places_in(answer.place for answer in answers)
    return [{**place, "word": answer.word} for place, answer in zip(places, answers)]


def answers_in(answers: Sequence[Answer]) -> Object:
    """Returns the answers, and who stood in, was late, did not answer, was down or refused."""
    turnout = turnout_of(answers)
    return {
        "answers": worded(answers),
        "homes": turnout.homes,
        "stood_in": places_in(turnout.stood_in),
        "late": places_in(turnout.late),
        "silent": places_in(turnout.silent),
        "down": places_in(turnout.down),
        "refused": worded(turnout.refused),
    }


def refusal_in(refusal: Optional[Refusal], run: Run) -> Object:
    if refusal is None:
        return {"refusal": None}
    meaning = meaning_of(run.meanings, refusal)
    said = {"cause": meaning.cause, "stands": meaning.stands, "to_do": meaning.to_do}
    numbered = {"number": refusal.number, "name": refusal.name, "text": refusal.text}
    return {"refusal": {**numbered, **said}}


def values_in(form: Form) -> Object:
    """Returns what a line says behind its number and its word, by the names of its form."""
    found: Object = {}
    for name, value in form._asdict().items():
        if name not in ("number", "word"):
            found.update(bytes_in(name, value) if isinstance(value, bytes) else {name: value})
    return found


def command_in(command: Command) -> Object:
    """Returns what the script has of the command."""
    found: Object = {"do": command.word}
    if command.word in OF_KEY:
        found.update(bytes_in("key", command.key))
    if command.word in OF_SESSION:
        found["session"] = command.session
    if command.word in AT_NODE:
        found["node"] = command.node
    if command.word in WRITES:
        found.update({**bytes_in("value", command.value), "follows": command.context})
    if command.word in OF_MODE:
        found["mode"] = command.mode
    return found


def outcome_in(line: Line, run: Run) -> Object:
    """Returns what came of the command."""
    form = line.form
    if isinstance(form, Written):
        return {"dot": form.dot, "wanted": wanted_by(line, run), **answers_in(form.answers)}
    if isinstance(form, Got):
        return got_in(form, line, run)
    if isinstance(form, Shown):
        hints = [{"home": home, "dots": dots} for home, dots in form.hints]
        return {"own": form.own, "hints": hints}
    if isinstance(form, Done):
        return dict(form.counts)
    if isinstance(form, Refused):
        answers = answers_in(form.answers) if form.answers else {}
        wanted = {"wanted": wanted_by(line, run)} if form.answers else {}
        return {**refusal_in(form.refusal, run), "dot": form.dot, **wanted, **answers}
    return values_in(form)


def got_in(form: Got, line: Line, run: Run) -> Object:
    """Returns what a get was answered."""
    makers = run.belonging.makers
    values = [
        {"dot": dot, **bytes_in("value", value), "command": makers.get((line.command.key, dot))}
        for dot, value in form.values
    ]
    places = {"from": places_in(form.places), "wanted": run.script.r}
    return {"context": form.context, **places, "values": values, "mended": line.mended}


def audit_in(line: Line, run: Run) -> Object:
    """Returns a line that is of no command and no step."""
    form = line.form
    if isinstance(form, Held):
        held = {**bytes_in("key", form.key), "dots": form.dots, "count": count_of(form.dots)}
        return {"kind": "held", "holder": form.place.holder, "home": form.place.home, **held}
    if isinstance(form, Acked):
        maker = run.belonging.makers.get((form.key, form.dot))
        acked = {**bytes_in("key", form.key), "dot": form.dot, "command": maker}
        w = run.script.w if form.w is None else form.w
        return {"kind": "acked", **acked, "wanted": w, "places": places_in(form.places)}
    if isinstance(form, Said):
        return {"kind": "said", "text": form.text, **refusal_in(form.refusal, run)}
    if isinstance(form, Listed):
        n = run.script.n or 0
        nodes = {"homes": form.nodes[:n], "stand_ins": form.nodes[n:]}
        return {"kind": "key", **bytes_in("key", form.key), "position": form.position, **nodes}
    return {"kind": type(form).__name__.lower(), **values_in(form)}


def step_in(form: StepForm, number: int) -> Object:
    """Returns a step, of the command of this number."""
    word = type(form).__name__.lower()
    told = {"kind": "step", "number": form.number, "command": number, "step": word}
    if isinstance(form, Issue):
        made = {"dot": form.dot, "follows": form.past, **bytes_in("value", form.value)}
        return {**told, "node": form.node, **bytes_in("key", form.key), **made}
    if isinstance(form, Ack):
        acked = {"dot": form.dot, "wanted": form.w, "session": form.session}
        return {**told, **bytes_in("key", form.key), **acked}
    place = {"holder": form.place.holder, "home": form.place.home}
    dots = {name: getattr(form, name) for name in ("dots", "dot") if hasattr(form, name)}
    return {**told, **place, **bytes_in("key", form.key), **dots}


def below_in(form: Form, number: int) -> Optional[Object]:
    """Returns a step, or the fetches that a session is told of, or None where it is another."""
    if isinstance(form, STEP_FORMS):
        return step_in(form, number)
    if isinstance(form, Told):
        numbers = {"numbers": form.numbers, "session": form.session}
        return {"kind": "told", "command": number, **numbers}
    return None


def object_of(line: Line, run: Run) -> Object:
    """Returns a line as a JSON object."""
    if line.form is None:
        return {"line": line.at, "kind": "stranger", "text": line.text, "words": line.complaint}
    if isinstance(line.form, COMMAND_FORMS):
        numbered = {"kind": "command", "number": line.form.number, **command_in(line.command)}
        is_ok = not isinstance(line.form, Refused)
        told = {**numbered, "ok": is_ok, **outcome_in(line, run)}
    else:
        told = below_in(line.form, line.number) or audit_in(line, run)
    return {"line": line.at, **told, "words": " ".join(say(line, run))}


def objects_of(run: Run) -> List[Object]:
    """Returns the objects of all lines, and one more where the output ends early."""
    rest = run.rest()
    last = [{"line": None, "kind": "rest", "words": rest}] if rest else []
    return [*(object_of(line, run) for line in run.lines), *last]
