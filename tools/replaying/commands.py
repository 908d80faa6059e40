"""A command's line in a run, held against the steps right below it.

- steps of a command: they are such as its line says, and no others.
- answers of a command: who is said to have stored it, or to have told its row, did so.
- row of a get: the context and the values printed are the merge of the rows of the fetches told.
"""
from typing import Dict, Iterator, List, NamedTuple, Set, Tuple, Union

from replaying import dots as sets
from replaying.dots import context_text, dot_text, node_of
from replaying.forms import Command
from replaying.steps import Ack, Fault, Fetch, Hold, Issue, Place, Release, Step, Told, place_text
from replaying.worlds import NOTHING, Row, World, most_homes

STEPS, ANSWERS, ROW = "steps of a command", "answers of a command", "row of a get"


class Group:
    """A command's line with what stands right below it, each with its line number."""

    def __init__(self, at: int, command: Command) -> None:
        self.at, self.command = at, command
        self.steps: List[Tuple[int, Step]] = []
        self.told: List[Tuple[int, Told]] = []


class Found(NamedTuple):
    """A fault and its line."""

    at: int
    fault: Fault


# A fault without a line stands at the command's.
Finding = Union[Found, Fault]


def check(group: Group, world: World) -> Iterator[Found]:
    """Says what of a command's line and its steps does not fit."""
    command = group.command
    checks = {"put": written, "delete": written, "get": got, "deliver": delivered,
              "handoff": handed_over, "show": shown}
    for at, _ in group.told if command.do != "get" or not command.is_ok else group.told[1:]:
        yield Found(at, Fault(STEPS, f"a {command.do} that is told no row has a line of it"))
    for found in checks.get(command.do, without_steps)(group, world):
        yield found if isinstance(found, Found) else Found(group.at, found)


def without_steps(group: Group, _: World) -> Iterator[Finding]:
    for at, _ in group.steps:
        yield Found(at, Fault(STEPS, f"command {group.command.number} makes no step"))


def written(group: Group, world: World) -> Iterator[Finding]:
    """Holds a put or a delete against its steps: the two of its begin, then holds, then the ack."""
    command, steps = group.command, group.steps
    if command.dot is None:
        yield from without_steps(group, world)
        return
    issue, begin = (steps[i][1] if i < len(steps) else None for i in (0, 1))
    is_issue = isinstance(issue, Issue) and issue.dot == command.dot
    if not is_issue or (issue.value is None) != (command.do == "delete"):
        yield Fault(STEPS, f"its first step is no {command.do}'s issue of {dot_text(command.dot)}")
        return
    is_begin = isinstance(begin, Hold) and begin.place[0] == node_of(command.dot)
    if not is_begin or (begin.key, begin.dots) != (issue.key, sets.one(issue.dot)):
        yield Fault(STEPS, "its second step is no hold of the new version where it was made")
        return
    yield from later_steps(group, issue)
    if command.answers:
        yield from places_of_answers(command, world, issue.key)
        yield from stored_answers(group, begin.place, world.setting.n)


def later_steps(group: Group, issue: Issue) -> Iterator[Finding]:
    """Looks at the steps of a put behind its begin."""
    acks = 0
    for at, step in group.steps[2:]:
        is_hold = isinstance(step, Hold) and sets.has(step.dots, issue.dot)
        is_ack = isinstance(step, Ack) and step.dot == issue.dot
        if not (is_hold or is_ack) or acks or step.key != issue.key:
            yield Found(at, Fault(STEPS, f"it is none of a put of {dot_text(issue.dot)}"))
        acks += isinstance(step, Ack)
    if acks != group.command.is_ok:
        told = "lacks its ack" if group.command.is_ok else "is refused and has an ack"
        yield Fault(STEPS, f"the put of {dot_text(issue.dot)} {told}")


def places_of_answers(command: Command, world: World, key: bytes) -> Iterator[Fault]:
    """Looks whether each answer is of a node that may hold for its home."""
    for place, _ in command.answers:
        fault = world.misplaced(world.key(key), place)
        if fault:
            yield Fault(ANSWERS, f"{place_text(place)}: {fault.text}")


def stored_answers(group: Group, begin: Place, n: int) -> Iterator[Finding]:
    """Holds the answers of a put against its holds."""
    answers = group.command.answers
    holds = {step.place for _, step in group.steps if isinstance(step, Hold)}
    if answers[0] != (begin, "stored"):
        yield Fault(ANSWERS, f"the first is not {place_text(begin)}=stored, of where it was made")
    for place, word in answers:
        if word == "rows" or (word == "stored" and place not in holds):
            yield Fault(ANSWERS, f"{place_text(place)}={word}, and no hold is there")
        if word == "down" and place in holds:
            yield Fault(ANSWERS, f"{place_text(place)}=down, and a hold is there")
    for place in sorted(holds - {place for place, _ in answers}):
        yield Fault(ANSWERS, f"{place_text(place)} has a hold and no answer")
    stored = tuple(sorted(place for place, word in answers if word == "stored"))
    if not group.command.is_ok and most_homes(stored) == n:
        yield Fault(ANSWERS, f"all {n} homes have it, and that is enough")
    for at, step in group.steps:
        if isinstance(step, Ack) and most_homes(stored) < step.w:
            yield Found(at, Fault(ANSWERS, f"w is {step.w}, and fewer homes are said to have it"))


def merge(rows: List[Row]) -> Row:
    """Returns the versions of these rows whose dot is in the past of none of them."""
    dots = pasts = sets.EMPTY
    for row in rows:
        dots, pasts = sets.union(dots, row.dots), sets.union(pasts, row.pasts)
    return Row(sets.minus(dots, pasts), pasts, sets.union(dots, pasts))


def got(group: Group, world: World) -> Iterator[Finding]:
    """Holds a get against its fetches, and where it is ok against the holds that mend homes."""
    command = group.command
    fetches = {step.number: step for _, step in group.steps if isinstance(step, Fetch)}
    for at, step in group.steps:
        if not isinstance(step, (Fetch, Hold)) or (isinstance(step, Hold) and not command.is_ok):
            yield Found(at, Fault(STEPS, "a get makes no such step"))
    keys = {step.key for _, step in group.steps}
    if len(keys) > 1:
        yield Fault(STEPS, "the steps of the get are of more than one key")
        return
    for at, step in group.steps:
        if isinstance(step, Fetch) and world.misplaced(world.key(step.key), step.place):
            yield Found(at, Fault(STEPS, f"nothing may be held at {place_text(step.place)}"))
    if not command.is_ok:
        yield from (fault for key in keys for fault in places_of_answers(command, world, key))
        yield from row_answers(command, {step.place for step in fetches.values()}, world.setting.r)
    elif not group.told:
        yield Fault(STEPS, "the get is answered, and no line names its fetches")
    elif not set(group.told[0][1].numbers) <= set(fetches):
        yield Found(group.told[0][0], Fault("told fetches", "they are not the fetches of this get"))
    else:
        yield from answered(group, world, fetches)


def row_answers(command: Command, places: Set[Place], r: int) -> Iterator[Fault]:
    """Holds the answers of a refused get against its fetches."""
    for place, word in command.answers:
        if word == "stored" or (word == "rows" and place not in places):
            yield Fault(ANSWERS, f"{place_text(place)}={word}, and no fetch is there")
        if word == "down" and place in places:
            yield Fault(ANSWERS, f"{place_text(place)}=down, and a fetch is there")
    named = {place for place, _ in command.answers}
    for place in sorted(places - named if named else []):
        yield Fault(ANSWERS, f"{place_text(place)} has a fetch and no answer")
    if len({place[1] for place, word in command.answers if word == "rows"}) >= r:
        yield Fault(ANSWERS, f"{r} homes told their rows, and that is enough")


def answered(group: Group, world: World, fetches: Dict[int, Fetch]) -> Iterator[Finding]:
    """Holds the row of a get against the rows of the fetches that were told."""
    command, numbers = group.command, group.told[0][1].numbers
    row = merge([world.fetches[number][1] for number in numbers])
    places = sorted(fetches[number].place for number in numbers)
    if sorted(command.places) != places:
        told = " ".join(map(place_text, places))
        yield Fault(ROW, f"it is from other places than the fetches told, {told}")
    if command.dots != row.reach:
        yield Fault(ROW, f"the context should be {context_text(row.reach)}")
    versions = world.key(fetches[numbers[0]].key).versions
    live = ((it, versions[it].value) for it in sets.each(row.dots))
    values = " ".join(f"{dot_text(it)}={value}" for it, value in live if value is not None)
    if command.said["values"] != (values or "none"):
        yield Fault(ROW, f"the values should be {values or 'none'}")
    stale = {step.place for number, step in fetches.items()
             if world.fetches[number][1].dots != row.dots}
    for at, step in group.steps:
        if isinstance(step, Hold):
            is_mended = step.place[0] == step.place[1] and step.place in stale
            if not is_mended or step.dots != row.dots:
                yield Found(at, Fault(STEPS, "it brings a stale home no row of the get"))


def delivered(group: Group, _: World) -> Iterator[Finding]:
    """Holds a delivery against its holds: one for each message stored, all by one node."""
    holds = [step for _, step in group.steps if isinstance(step, Hold)]
    if len(holds) < len(group.steps) or len({step.place[0] for step in holds}) > 1:
        yield Fault(STEPS, "a delivery makes holds of one node alone")
    if group.command.is_ok and group.command.count("stored") != len(holds):
        yield Fault("counts", f"{len(holds)} holds stand below it")


def handed_over(group: Group, world: World) -> Iterator[Finding]:
    """Holds a handoff against its steps: holds at homes, and releases of what came to them."""
    if not group.command.is_ok:
        yield from without_steps(group, world)
        return
    came, left, dots = set(), set(), sets.EMPTY
    stored = {}
    for at, step in group.steps:
        if isinstance(step, Hold) and step.place[0] == step.place[1]:
            came.add((step.place[1], step.key))
            dots = stored.get((step.place[1], step.key), sets.EMPTY)
            stored[step.place[1], step.key] = sets.union(dots, step.dots)
        elif not isinstance(step, Release):
            yield Found(at, Fault(STEPS, "a handoff makes holds at homes and releases alone"))
        else:
            left.add((step.place[1], step.key))
            if not sets.has(stored.get((step.place[1], step.key), sets.EMPTY), step.dot):
                yield Found(at, Fault(STEPS, "it is released before this handoff brought it home"))
    releases = [step for _, step in group.steps if isinstance(step, Release)]
    if len({step.place[0] for step in releases}) > 1:
        yield Fault(STEPS, "a handoff releases hints of one node alone")
    counts = [group.command.count(name) for name in ("offers", "stored", "released")]
    if counts[2] != len(releases):
        yield Fault("counts", f"{len(releases)} releases stand below it")
    if not len(left) <= counts[1] <= counts[0] or len(came) > counts[0]:
        yield Fault("counts", f"{len(came)} hints came home below it, and {len(left)} left")


def shown(group: Group, world: World) -> Iterator[Finding]:
    """Looks for a key of which the node holds just what is shown; no key stands there."""
    yield from without_steps(group, world)
    if not group.command.is_ok:
        return
    node, hints = group.command.count("node"), group.command.hints
    homes = [home for home, _ in hints]
    if node >= world.nodes or node in homes or homes != sorted(set(homes)):
        yield Fault("row shown", "its places are not those of a node, by home")
    wanted = {(node, home): dots for home, dots in [(node, group.command.dots), *hints] if dots}
    for state in world.keys.values() if wanted else []:
        if all(state.rows.get(place, NOTHING).dots == dots for place, dots in wanted.items()):
            if sum(place[0] == node for place in state.rows) == len(wanted):
                return
    if wanted:
        yield Fault("row shown", f"node {node} holds that of no key")
