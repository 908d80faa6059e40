"""What is told of a script and of what was printed of it."""
import json
from dataclasses import dataclass
from typing import Dict, List

from reading.lines import COMMAND_FORMS, STEP_FORMS, Acked, Cluster, Held, Settled, Token, Told
from reading.scripts import read_script

from .objects import objects_of
from .refusals import Meaning
from .runs import Run
from .tables import audit_of
from .words import say

MAX_SHOWN = 300
IN_TABLES = (Held, Acked, Settled)


@dataclass(frozen=True)
class Telling:
    """The lines that tell an output, and what does not belong to the script."""

    lines: List[str]
    complaints: List[str]


def text_of(run: Run) -> List[str]:
    """Returns the lines of the text that tells the run."""
    said, after = [], []
    has_steps = bool(run.forms(Cluster))
    for line in run.lines:
        if isinstance(line.form, COMMAND_FORMS):
            said.append(f"{line.form.number}  {line.command}")
            said += [f"   {sentence}" for sentence in say(line, run)]
        elif isinstance(line.form, (*STEP_FORMS, Told)):
            said += [f"   {sentence}" for sentence in say(line, run)]
        elif isinstance(line.form, Cluster) or (has_steps and isinstance(line.form, Token)):
            said += say(line, run)
        elif line.form is not None and not isinstance(line.form, IN_TABLES):
            after += say(line, run)
    rest = run.rest()
    after += [rest] if rest else []
    said += audit_of(run)
    return [*said, *([""] if said and after else []), *after]


def tell(script: bytes, output: str, meanings: Dict[str, Meaning], is_json: bool) -> Telling:
    """Tells an output of a script, as a text or as JSON objects."""
    run = Run(read_script(script), meanings, output)
    lines = [json.dumps(it) for it in objects_of(run)] if is_json else text_of(run)
    strange = (line for line in run.lines if line.complaint)
    texts = [f"line {it.at}: {it.complaint}: {it.text[:MAX_SHOWN]}" for it in strange]
    return Telling(lines, texts)
