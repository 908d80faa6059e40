"""Which homes a get mended, where the lines of the run tell enough to know it.

A get's line does not say which homes it found with another row, so the run is followed. Where a
line does not say enough, as a put that was refused behind its begin, or the histories grow too long
to follow, `is_sure` turns false; and what was followed is only believed where the audit of the run
says the same.
"""
from typing import Iterable, List, Optional, Tuple

from reading.lines import CommandForm, Delivered, Got, Held, Passed, Place, Refused, Written
from reading.scripts import Command
from reading.texts import count_of, dots_of
from reading.worlds import World

MAX_EFFORT = 1_000_000


class Holdings:
    """What the nodes hold, as far as the lines tell."""

    def __init__(self) -> None:
        self.is_sure = True
        self.world = World()

    def follow(self, form: CommandForm, command: Command) -> Optional[List[int]]:
        """Follows a line; of a get it returns the homes that were mended, where that is known."""
        self.is_sure = self.is_sure and self.world.effort <= MAX_EFFORT
        self.is_sure = self.is_sure and self.says_enough(form, command)
        if not self.is_sure:
            return None
        return [home for home, _ in self.world.follow(form, command).mended]

    def says_enough(self, form: CommandForm, command: Command) -> bool:
        """Tells whether the line says enough to be followed."""
        if isinstance(form, Delivered):
            return form.stored == len(self.world.kept[command.node])
        if isinstance(form, Passed):
            told = form.offers, form.stored, form.released
            return self.world.whole_pass(command.node) == told
        if isinstance(form, Got):
            return not self.may_hide_answers(form.places)
        if not isinstance(form, (Written, Refused)):
            return True
        if form.dot is None:
            # A delivery stores what it can, and does not tell how much.
            return form.word != "deliver" or form.refusal.name == "Down"
        return bool(form.answers) and self.is_known(command)

    def is_known(self, command: Command) -> bool:
        """Tells whether the versions that a put's context names were followed, and are not many."""
        if self.world.effort + count_of(command.context) > MAX_EFFORT:
            return False
        return all((command.key, dot) in self.world.pasts for dot in dots_of(command.context))

    def may_hide_answers(self, places: Tuple[Place, ...]) -> bool:
        """Tells whether a late answer may have been read that the line does not name."""
        is_late = len(places) > 1 and self.world.modes.get(places[-1].holder) == "late"
        return is_late and any(place.holder != place.home for place in places)

    def agrees(self, audit: Iterable[Held]) -> bool:
        """Tells whether the audit lists what was followed, and nothing else."""
        held = list(audit)
        if not self.is_sure or sum(count_of(it.dots) for it in held) > MAX_EFFORT:
            return False
        return {(it.place, it.key): frozenset(dots_of(it.dots)) for it in held} == self.world.held()
