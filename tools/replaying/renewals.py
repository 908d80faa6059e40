"""What is carried over from a cluster that was closed into the next one of a service.

- carried values: below a renewal stands a put of each value that was present at the end of the
  cluster before, by key and then by dot. Each has an empty context, and is acknowledged to session
  0 with the cluster's w.
"""
from typing import Iterator, List, Optional, Tuple

from replaying import dots as sets
from replaying.commands import STEPS, Found, Group, merge
from replaying.dots import context_text, dot_text
from replaying.steps import Ack, Fault, Hold, Issue, Step
from replaying.worlds import World

CARRIED = "carried values"
Put = List[Tuple[int, Step]]


def present(world: World) -> List[Tuple[bytes, str]]:
    """Returns each key and value that the merge of all rows of the key has, by key and by dot."""
    found = []
    for key, state in sorted(world.keys.items()):
        for dot in sets.each(merge(list(state.rows.values())).dots):
            value = state.versions[dot].value
            if value is not None:
                found.append((key, value))
    return found


def check_renewal(group: Group, world: World, before: Optional[World]) -> Iterator[Found]:
    """Holds a renewal against the puts below it, and these against the world before it."""
    values = present(before) if before else []
    count, puts = group.command.count("carried"), puts_of(group)
    if count != len(values):
        yield Found(group.at, Fault(CARRIED, f"{len(values)} values were present"))
    if count != len(puts):
        yield Found(group.at, Fault(STEPS, f"{len(puts)} puts stand below it"))
    for put, (key, value) in zip(puts, values):
        yield from carried(put, key, value, world)
    first = next((at for at, (_, it) in enumerate(group.steps) if isinstance(it, Issue)), None)
    for at, _ in group.steps[:first]:
        yield Found(at, Fault(STEPS, "it is none of a put that carries a value over"))


def puts_of(group: Group) -> List[Put]:
    """Returns the steps of a renewal, from each issue to the next one."""
    puts: List[Put] = []
    for at, step in group.steps:
        if isinstance(step, Issue):
            puts.append([])
        if puts:
            puts[-1].append((at, step))
    return puts


def carried(put: Put, key: bytes, value: str, world: World) -> Iterator[Found]:
    """Holds the steps of a put against the value that it carries over."""
    at, issue = put[0]
    if (issue.key, issue.value) != (key, value):
        yield Found(at, Fault(CARRIED, f"the next value is of key {key.hex()}, value {value}"))
        return
    if issue.past:
        yield Found(at, Fault(CARRIED, f"its context is {context_text(issue.past)}, and not empty"))
    begin = put[1][1] if len(put) > 1 else None
    if not isinstance(begin, Hold) or begin.place[0] != issue.node:
        yield Found(at, Fault(STEPS, "behind it is no hold of the new version where it was made"))
    for number, (here, step) in enumerate(put[1:], 2):
        is_hold = isinstance(step, Hold) and step.key == key and sets.has(step.dots, issue.dot)
        if not is_hold and not (isinstance(step, Ack) and number == len(put)):
            yield Found(here, Fault(STEPS, f"it is none of a put of {dot_text(issue.dot)}"))
    here, ack = put[-1]
    if not isinstance(ack, Ack) or ack[1:] != (key, issue.dot, world.setting.w, 0):
        yield Found(here, Fault(CARRIED, "its last step is no ack of it to session 0"))
