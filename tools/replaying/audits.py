"""The audit of a run, held against the last world, and the counts of the last line.

- held lines, acked lines, settled lines: they are those of the last world, in their order.
- counts: the last line counts what stands above it.
"""
from typing import Dict, Iterator, List, Tuple

from replaying import dots as sets
from replaying.dots import context_text, dot_text
from replaying.steps import Fault, place_text
from replaying.worlds import World, most_homes

Lines = List[Tuple[int, str]]


def held_lines(world: World) -> List[str]:
    """Returns a line for each place that holds something, by holder, home and key."""
    found = [(place, key, row.dots) for key, state in world.keys.items()
             for place, row in state.rows.items()]
    return [f"held {place_text(place)} {key.hex()} {context_text(dots)}"
            for place, key, dots in sorted(found)]


def acked_lines(world: World) -> List[str]:
    """Returns a line for each acknowledged put, by key and dot, with all places that cover it."""
    lines = []
    for key, state in sorted(world.keys.items()):
        for dot, w in sorted((dot, w) for w, acked in state.acked.items() for dot in acked):
            named = f" w {w}" if w != world.setting.w else ""
            places = " ".join(map(place_text, state.covering(dot)))
            lines.append(f"acked {key.hex()} {dot_text(dot)}{named} covered {places}")
    return lines


def settled_lines(world: World) -> List[str]:
    """Returns a line for each key of which a version was made and which homes alone hold."""
    return [f"settled {key.hex()}" for key, state in sorted(world.keys.items())
            if state.versions and all(holder == home for holder, home in state.rows)]


def compare(rule: str, told: Lines, wanted: List[str], at: int) -> Iterator[Tuple[int, Fault]]:
    """Says which lines are not in the last world, and which of its lines are not told."""
    texts = [text for _, text in told]
    if texts == wanted:
        return
    known, seen = set(wanted), set(texts)
    for line, text in told:
        if text not in known:
            yield line, Fault(rule, "the last world has no such line")
    for text in wanted:
        if text not in seen:
            yield at, Fault(rule, f"'{text}' is missing")
    if seen == known:
        yield at, Fault(rule, "they stand in another order, or more than once")


def uncovered(world: World) -> Iterator[Fault]:
    """Counts the cover of each acknowledged put anew."""
    for key, state in world.keys.items():
        for w, acked in state.acked.items():
            for dot in acked:
                if most_homes(tuple(state.covering(dot))) < w:
                    yield Fault("kept cover", f"{dot_text(dot)} of key {key.hex()} ends without it")


def check_audit(world: World, told: Dict[str, Lines], at: int) -> Iterator[Tuple[int, Fault]]:
    """Holds the lines of the audit against the last world."""
    yield from compare("held lines", told["held"], held_lines(world), at)
    yield from compare("acked lines", told["acked"], acked_lines(world), at)
    if told["settled"]:
        yield from compare("settled lines", told["settled"], settled_lines(world), at)


def counts_of(world: World, steps: int, acks: int, gets: int, is_storm: bool) -> Dict[str, int]:
    """Returns what the last line should count, but for what was refused."""
    if is_storm:
        return {"acked": acks, "gets": gets}
    states = world.keys.values()
    held = sum(sets.count(row.dots) for state in states for row in state.rows.values())
    acked = sum(len(dots) for state in states for dots in state.acked.values())
    return {"held": held, "acked": acked, "gets": gets, "steps": steps}
