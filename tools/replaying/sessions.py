"""What each session was told, in its order: its acks, and the fetches of its gets.

- told fetches: a get has r fetches of one key, for r homes, each at a node that may hold for it.
- since: each of them is later than all that its session was told before.

In a run and in a service the lines have that order. In a storm the told lines come after all steps,
session by session. But a session's ack is later than all that the session was told before. So no
ack of the session lies between the fetches of one get, and each get's fetches are later than those
of its earlier gets.
"""
from bisect import bisect_left
from typing import Dict, Iterator, List

from replaying.steps import Ack, Fault, Told, place_text
from replaying.worlds import World


class Sessions:
    """All sessions, by their numbers."""

    def __init__(self, world: World, is_storm: bool) -> None:
        self.world, self.is_storm = world, is_storm
        self.acks: Dict[int, List[int]] = {}
        self.fetches: Dict[int, int] = {}
        self.last = 0

    def ack(self, ack: Ack) -> None:
        self.acks.setdefault(ack.session, []).append(ack.number)

    def told(self, told: Told) -> Iterator[Fault]:
        """Says what is wrong with the fetches of a get, and takes them as told."""
        if self.is_storm and told.session < self.last:
            yield Fault("order of lines", f"session {told.session} comes after {self.last}")
        self.last = told.session
        yield from self.wrong_fetches(told)
        acks, before = self.acks.get(told.session, []), self.fetches.get(told.session, 0)
        if not self.is_storm:
            before = max([before, *acks[-1:]])
        least, greatest = min(told.numbers), max(told.numbers)
        if least <= before:
            yield Fault("since", f"step {least} is not later than {before}, which was told before")
        between = bisect_left(acks, greatest) - bisect_left(acks, least)
        if between:
            yield Fault("since", f"an ack of the session lies between steps {least} and {greatest}")
        self.fetches[told.session] = max(before, greatest)

    def wrong_fetches(self, told: Told) -> Iterator[Fault]:
        found = [self.world.fetches.get(number) for number in told.numbers]
        if None in found:
            missing = [number for number, it in zip(told.numbers, found) if it is None]
            yield Fault("told fetches", f"step {missing[0]} is no fetch")
            return
        steps = [step for step, _ in found]
        homes, r = {step.place[1] for step in steps}, self.world.setting.r
        if len(steps) != r or len(homes) != r:
            places = " ".join(place_text(step.place) for step in steps)
            yield Fault("told fetches", f"{places} are not of {r} homes, each once")
        if len({step.key for step in steps}) > 1:
            yield Fault("told fetches", "they are of more than one key")
        for step in steps:
            fault = self.world.misplaced(self.world.key(step.key), step.place)
            if fault:
                yield Fault("told fetches", f"step {step.number}: {fault.text}")
