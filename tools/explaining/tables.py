"""The audit of a run as tables: what is held, by key and node, and the acknowledged puts."""
from collections import defaultdict
from typing import Dict, List, Sequence, Tuple

from reading.lines import Acked, End, Held, Settled
from reading.texts import listed, shown

from .runs import Run
from .words import covered_homes


def aligned(rows: Sequence[Sequence[str]]) -> List[str]:
    """Returns the rows with their columns below one another."""
    widths = [max(len(row[at]) for row in rows) for at in range(len(rows[0]))]
    padded = ("  ".join(cell.ljust(width) for cell, width in zip(row, widths)) for row in rows)
    return [row.rstrip() for row in padded]


def held_table(held: Sequence[Held]) -> List[str]:
    """Returns the table of what is held: a row for each key, a column for each node."""
    cells: Dict[Tuple[bytes, int], List[str]] = defaultdict(list)
    for form in held:
        place = form.place
        hint = "" if place.holder == place.home else f" for {place.home}"
        cells[form.key, place.holder].append(form.dots + hint)
    nodes = sorted({form.place.holder for form in held})
    rows = [["key", *(f"node {node}" for node in nodes)]]
    for key in sorted({form.key for form in held}):
        rows.append([shown(key), *("; ".join(cells[key, node]) for node in nodes)])
    return aligned(rows)


def acked_table(acked: Sequence[Acked], run: Run) -> List[str]:
    """Returns the table of acknowledged puts, with the homes that cover them."""
    rows = [["key", "version", "command", "wanted", "covered for homes"]]
    for form in acked:
        maker = run.belonging.makers.get((form.key, form.dot), "")
        w = run.script.w if form.w is None else form.w
        rows.append([shown(form.key), form.dot, str(maker), str(w), covered_homes(form)])
    return aligned(rows)


def audit_of(run: Run) -> List[str]:
    """Returns the audit as lines of text."""
    said = []
    held, acked, settled = run.forms(Held), run.forms(Acked), run.forms(Settled)
    if held:
        said += ["", "Held, where 'for 1' is a hint for home 1:", *held_table(held)]
    if acked:
        said += ["", "Acknowledged puts and deletes:", *acked_table(acked, run)]
    if settled:
        keys = listed(shown(form.key) for form in settled)
        said += ["", f"Settled, since no hint of them stands: {keys}"]
    elif run.script.wants_settled and run.forms(End):
        said += ["", "No key is settled."]
    return said
