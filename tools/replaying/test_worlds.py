"""The rules of a world once more, word for word on plain sets and without any index.

It is slow, so the test plays short random runs on it, and holds `World` against it after each step.
"""
import itertools
import random
from typing import Dict, FrozenSet, Iterator, List, Set, Tuple

from replaying import dots as sets
from replaying.rings import Setting
from replaying.steps import Ack, Hold, Issue, Place, Release, Step
from replaying.worlds import World

KEYS = [b"a", b"abc"]
POSITIONS = (0x20, 0x60, 0xA0, 0xD0, 0xF0)
TOKENS = tuple((position << 120, node) for node, position in enumerate(POSITIONS))


class Plain:
    """What was made, what is held, and what was acknowledged."""

    def __init__(self, setting: Setting) -> None:
        self.setting = setting
        self.pasts: Dict[Tuple[bytes, int], FrozenSet[int]] = {}
        self.held: Set[Tuple[Place, bytes, int]] = set()
        self.acked: Set[Tuple[bytes, int, int]] = set()

    def history(self, key: bytes, dot: int) -> Set[int]:
        return self.pasts[key, dot] | {dot}

    def at(self, place: Place, key: bytes) -> Set[int]:
        return {dot for where, of, dot in self.held if (where, of) == (place, key)}

    def covers(self, place: Place, key: bytes, dot: int) -> bool:
        return any(dot in self.history(key, it) for it in self.at(place, key))

    def has_cover(self, key: bytes, dot: int, w: int) -> bool:
        places = {place for place, of, _ in self.held if of == key}
        covering = [place for place in places if self.covers(place, key, dot)]
        return any(len({holder for holder, _ in it}) == len({home for _, home in it}) == w
                   for it in itertools.combinations(covering, w))

    def is_good(self) -> bool:
        return all(self.has_cover(*it) for it in self.acked)

    def may_hold(self, place: Place, key: bytes) -> bool:
        (holder, home), homes = place, self.setting.homes(key)
        return home in homes and (holder == home or holder not in homes) and holder < 5

    def is_allowed(self, step: Step) -> bool:
        key = step.key
        if isinstance(step, Issue):
            made = [sets.counter_of(dot) for of, dot in self.pasts
                    if of == key and sets.node_of(dot) == step.node]
            past = set(sets.each(step.past))
            is_closed = all(self.pasts.get((key, dot), {0}) <= past for dot in past)
            is_next = step.dot == sets.dot(step.node, max(made, default=0) + 1)
            return is_next and is_closed and step.dot not in past
        if isinstance(step, Hold):
            are_made = all((key, dot) in self.pasts for dot in sets.each(step.dots))
            return are_made and self.may_hold(step.place, key)
        if isinstance(step, Release):
            home = step.place[1]
            is_hint = step.place[0] != home and step.dot in self.at(step.place, key)
            return is_hint and self.covers((home, home), key, step.dot)
        if isinstance(step, Ack):
            return 1 <= step.w <= self.setting.n and self.has_cover(key, step.dot, step.w)
        return True

    def make(self, step: Step) -> None:
        key = step.key
        if isinstance(step, Issue):
            self.pasts[key, step.dot] = frozenset(sets.each(step.past))
        elif isinstance(step, Hold):
            old = self.at(step.place, key)
            both = old | set(sets.each(step.dots))
            kept = {dot for dot in both if not any(dot in self.pasts[key, it] for it in both)}
            self.held -= {(step.place, key, dot) for dot in old}
            self.held |= {(step.place, key, dot) for dot in kept}
        elif isinstance(step, Release):
            self.held.discard((step.place, key, step.dot))
        elif isinstance(step, Ack):
            self.acked.add((key, step.dot, step.w))


class Draws:
    """Draws steps, most of them allowed."""

    def __init__(self, seed: int, plain: Plain) -> None:
        self.number, self.plain = random.Random(seed).randrange, plain

    def one_of(self, items: List[int]) -> int:
        return items[self.number(len(items))] if items else sets.dot(0, 1)

    def some(self, dots: List[int]) -> sets.Dots:
        out = sets.EMPTY
        for dot in dots if self.number(3) else []:
            out = sets.union(out, sets.one(dot)) if self.number(2) else out
        return out

    def place(self, key: bytes) -> Place:
        order = self.plain.setting.preference(key)
        home = order[self.number(self.plain.setting.n)]
        spare = order[self.plain.setting.n :]
        return (spare[self.number(len(spare))] if spare and self.number(2) else home), home

    def issue(self, at: int, key: bytes, made: List[int]) -> Issue:
        past, node = self.some(made), self.number(5)
        if self.number(20):
            for dot in sets.each(past):
                past = sets.union(past, of_plain(self.plain.history(key, dot)))
        counter = 1 + sum(sets.node_of(dot) == node for dot in made) + (self.number(30) == 0)
        return Issue(at, node, key, sets.dot(node, counter), past, "")

    def step(self, at: int) -> Step:
        """Returns the next step; one that is not allowed comes seldom."""
        key, kind, is_odd = KEYS[self.number(2)], self.number(9), self.number(40) == 0
        made = [dot for of, dot in self.plain.pasts if of == key]
        if kind < 2 or not made:
            return self.issue(at, key, made)
        if kind < 4:
            w = 1 + self.number(2)
            covered = [dot for dot in made if is_odd or self.plain.has_cover(key, dot, w)]
            if covered:
                return Ack(at, key, self.one_of(covered), w, 0)
        if kind < 7:
            hints = [it for it in sorted(self.plain.held) if self.may_go(it) or is_odd]
            if hints:
                return Release(at, *hints[self.number(len(hints))])
        return Hold(at, self.place(key), key, self.some(made))

    def may_go(self, it: Tuple[Place, bytes, int]) -> bool:
        (holder, home), key, dot = it
        return holder != home and self.plain.covers((home, home), key, dot)


def of_plain(dots: Set[int]) -> sets.Dots:
    out = sets.EMPTY
    for dot in dots:
        out = sets.union(out, sets.one(dot))
    return out


def compare(seed: int, steps: int) -> Iterator[Tuple[str, str]]:
    """Plays a random run to its first step that is not allowed.

    Gives the rules of that step, and says where the two worlds differ.
    """
    setting = Setting(1 + seed % 3, 1, 1, TOKENS)
    plain, world = Plain(setting), World(setting)
    draws = Draws(seed, plain)
    for at in range(1, steps + 1):
        step = draws.step(at)
        is_allowed = plain.is_allowed(step)
        rules = [fault.rule for fault in world.play(step)]
        yield from (("rule", rule) for rule in rules)
        if is_allowed == bool(rules):
            yield "differs", f"seed {seed}: {step}: {rules}"
        if not is_allowed:
            if "home first" in rules:
                plain.make(step)
                if plain.is_good() == ("kept cover" in rules):
                    yield "differs", f"seed {seed}: {step}: {rules} where good is {plain.is_good()}"
            return
        plain.make(step)
        if not plain.is_good():
            yield "differs", f"seed {seed}: an acknowledged put is not covered after {step}"
        held = {(place, key, dot) for key, state in world.keys.items()
                for place, row in state.rows.items() for dot in sets.each(row.dots)}
        if held != plain.held:
            yield "differs", f"seed {seed}: what is held differs after {step}"
