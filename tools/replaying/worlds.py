"""The world of a run: which versions were made, who holds them for whom, and what was acknowledged.

It is played from the step lines alone. These are its rules:

- next counter: a version's dot is its node with the node's next counter of the key.
- closed past: each dot in a version's past is of a version made before, whose past lies in it too.
- place: a home of the key holds for itself; any other node may hold for any of the homes.
- made versions: a hold, a release and an ack name dots of versions that were made.
- release of a hint: what is released is held there, by a stand-in.
- home first: a dot is released where its home itself has it, or a version that follows it.
- cover: an ack of w, from 1 to n, needs w homes, each with a holder of its own, that have the dot
  or a version that follows it.
- kept cover: after each step each acknowledged version still has that.

After a hold a place holds those of the old and the new versions whose dot is in the past of none of
them. Pasts are closed, so three sets tell a row: the dots of its versions, all dots in their pasts,
and both together, its reach. For the same reason a hold takes no dot out of a reach. Only a release
can take a cover away, so covers are looked at after releases, and all of them again at the end.
"""
from bisect import bisect_left, insort
from functools import lru_cache
from typing import Dict, Iterator, List, NamedTuple, Optional, Set, Tuple

from replaying import dots as sets
from replaying.dots import Dots, context_text, dot_text
from replaying.rings import Setting
from replaying.steps import Ack, Fault, Fetch, Hold, Issue, Place, Release, Step, place_text


class Version(NamedTuple):
    """The number of the step that made it, its past, and its value, None for a deletion."""

    number: int
    past: Dots
    value: Optional[str]


class Row(NamedTuple):
    """The dots of the versions held, all dots of their pasts, and both together."""

    dots: Dots
    pasts: Dots
    reach: Dots


NOTHING = Row(sets.EMPTY, sets.EMPTY, sets.EMPTY)


@lru_cache(maxsize=1 << 16)
def most_homes(places: Tuple[Place, ...]) -> int:
    """Returns how many of the homes can have each a holder of its own, by these places."""
    by_home: Dict[int, List[int]] = {}
    for holder, home in places:
        by_home.setdefault(home, []).append(holder)
    chosen: Dict[int, int] = {}

    def finds(home: int, tried: Set[int]) -> bool:
        for holder in by_home[home]:
            if holder not in tried:
                tried.add(holder)
                if holder not in chosen or finds(chosen[holder], tried):
                    chosen[holder] = home
                    return True
        return False

    return sum(finds(home, set()) for home in by_home)


class KeyState:
    """All that a world knows of one key."""

    def __init__(self, homes: List[int]) -> None:
        self.homes = frozenset(homes)
        self.last: Dict[int, int] = {}
        self.versions: Dict[int, Version] = {}
        self.rows: Dict[Place, Row] = {}
        self.acked: Dict[int, List[int]] = {}
        self.closed: Set[Dots] = {sets.EMPTY}

    def row(self, place: Place) -> Row:
        return self.rows.get(place, NOTHING)

    def unmade(self, dots: Dots) -> Optional[int]:
        """Returns a dot of the set of which no version was made."""
        return next((it for it in sets.ends(dots) if it not in self.versions), None)

    def why_open(self, past: Dots) -> Optional[str]:
        """Says what the past lacks; what was found closed is kept.

        No other version of it follows the one that was made last. So the history of that one is
        taken away, then the history of the last one of what is left, and so on.
        """
        left = past if past not in self.closed else sets.EMPTY
        while left:
            unmade = self.unmade(left)
            if unmade is not None:
                return f"it has {dot_text(unmade)}, of which no version was made"
            last = max(sets.ends(left), key=lambda it: self.versions[it].number)
            lacks = sets.minus(self.versions[last].past, past)
            if lacks:
                return f"it has {dot_text(last)} and lacks {context_text(lacks)} before it"
            left = sets.minus(left, sets.union(self.versions[last].past, sets.one(last)))
        self.closed.add(past)
        return None

    def pasts_of(self, dots: Dots) -> Dots:
        """Returns the dots in the pasts of these versions."""
        pasts = sets.EMPTY
        for past in {self.versions[it].past for it in sets.each(dots)}:
            pasts = sets.union(pasts, past)
        return pasts

    def covering(self, dot: int) -> List[Place]:
        """Returns the places that have the dot or a version that follows it, by home and holder."""
        found = (place for place, row in self.rows.items() if sets.has(row.reach, dot))
        return sorted(found, key=lambda it: (it[1], it[0]))

    def uncovered(self, dots: Dots) -> Iterator[Tuple[int, int]]:
        """Gives of these dots the acknowledged ones that lack their cover, with their w."""
        parts: List[Tuple[Tuple[Place, ...], Dots]] = [((), dots)]
        for place, row in sorted(self.rows.items()):
            split = [((*places, place), sets.both(part, row.reach)) for places, part in parts]
            split += [(places, sets.minus(part, row.reach)) for places, part in parts]
            parts = [it for it in split if it[1]]
        for places, part in parts:
            homes = most_homes(places)
            for w, acked in self.acked.items():
                if homes < w:
                    yield from ((it, w) for it in among(acked, part))


def among(numbers: List[int], dots: Dots) -> Iterator[int]:
    """Gives those of the rising numbers that are in the set."""
    for first, end in zip(dots[::2], dots[1::2]):
        yield from numbers[bisect_left(numbers, first) : bisect_left(numbers, end)]


class World:
    """The world, changed by each step."""

    def __init__(self, setting: Setting) -> None:
        self.setting = setting
        self.nodes = setting.nodes()
        self.keys: Dict[bytes, KeyState] = {}
        self.fetches: Dict[int, Tuple[Fetch, Row]] = {}
        self.acks = 0

    def key(self, key: bytes) -> KeyState:
        state = self.keys.get(key)
        if state is None:
            state = self.keys[key] = KeyState(self.setting.homes(key))
        return state

    def play(self, step: Step) -> Iterator[Fault]:
        """Makes a step where it is allowed, and says where it is not; a fetch always is."""
        state = self.key(step.key)
        if isinstance(step, Issue):
            return self.issue(state, step)
        if isinstance(step, Hold):
            return self.hold(state, step)
        if isinstance(step, Release):
            return self.release(state, step)
        if isinstance(step, Ack):
            return self.ack(state, step)
        self.fetches[step.number] = (step, state.row(step.place))
        return iter([])

    def misplaced(self, state: KeyState, place: Place) -> Optional[Fault]:
        """Says why the holder may not hold for the home, where it may not."""
        holder, home = place
        if home not in state.homes:
            return Fault("place", f"{home} is no home of the key")
        if holder != home and (holder in state.homes or holder >= self.nodes):
            return Fault("place", f"{holder} may not hold for {home}")
        return None

    def issue(self, state: KeyState, step: Issue) -> Iterator[Fault]:
        node, counter = sets.node_of(step.dot), sets.counter_of(step.dot)
        wanted = state.last.get(step.node, 0) + 1
        if node != step.node or node >= self.nodes or counter != wanted:
            named = f"{dot_text(sets.dot(step.node, wanted))}, and not {dot_text(step.dot)}"
            yield Fault("next counter", f"the next dot of node {step.node} is {named}")
            return
        why = state.why_open(step.past)
        if why:
            yield Fault("closed past", f"the past is {context_text(step.past)}: {why}")
            return
        state.last[node] = counter
        state.versions[step.dot] = Version(step.number, step.past, step.value)

    def hold(self, state: KeyState, step: Hold) -> Iterator[Fault]:
        misplaced, unmade = self.misplaced(state, step.place), state.unmade(step.dots)
        if misplaced:
            yield misplaced
        if unmade is not None:
            yield Fault("made versions", f"no version {dot_text(unmade)} was made")
        if misplaced or unmade is not None:
            return
        row = state.row(step.place)
        new = sets.minus(step.dots, row.reach)
        if new:
            pasts = sets.union(row.pasts, state.pasts_of(new))
            dots = sets.minus(sets.union(row.dots, new), pasts)
            state.rows[step.place] = Row(dots, pasts, sets.union(dots, pasts))

    def release(self, state: KeyState, step: Release) -> Iterator[Fault]:
        (holder, home), name = step.place, dot_text(step.dot)
        row = state.row(step.place)
        if holder == home or not sets.has(row.dots, step.dot):
            yield Fault("release of a hint", f"{name} is no hint at {place_text(step.place)}")
            return
        if not sets.has(state.row((home, home)).reach, step.dot):
            yield Fault("home first", f"home {home} has neither {name} nor what follows it")
        dots, pasts = sets.minus(row.dots, sets.one(step.dot)), row.pasts
        if state.versions[step.dot].past:
            pasts = state.pasts_of(dots)
        state.rows[step.place] = Row(dots, pasts, sets.union(dots, pasts))
        if not dots:
            del state.rows[step.place]
        lost = sets.minus(row.reach, sets.union(dots, pasts))
        for dot, w in state.uncovered(lost):
            said = f"{dot_text(dot)} of key {step.key.hex()} was acknowledged with w {w}"
            yield Fault("kept cover", f"{said}, and has no longer so many homes")

    def ack(self, state: KeyState, step: Ack) -> Iterator[Fault]:
        name, places = dot_text(step.dot), state.covering(step.dot)
        if step.dot not in state.versions:
            yield Fault("made versions", f"no version {name} was made")
        elif not 1 <= step.w <= self.setting.n:
            yield Fault("cover", f"w is {step.w}, and must be 1 to {self.setting.n}")
        elif most_homes(tuple(places)) < step.w:
            told = " ".join(map(place_text, places)) or "no place"
            yield Fault("cover", f"{name} is covered by {told}, and w is {step.w}")
        else:
            self.acks += 1
            acked = state.acked.setdefault(step.w, [])
            if not list(among(acked, sets.one(step.dot))):
                insort(acked, step.dot)
