"""Who did what was asked, who stood in for whom, and who did not answer, or answered late."""
from dataclasses import dataclass, field
from typing import List, Sequence

from reading.lines import Answer, Place
from reading.texts import named


@dataclass
class Turnout:
    """The answers to a put or a get, by what they say."""

    own: List[int] = field(default_factory=list)
    stood_in: List[Place] = field(default_factory=list)
    late: List[Place] = field(default_factory=list)
    silent: List[Place] = field(default_factory=list)
    down: List[Place] = field(default_factory=list)
    refused: List[Answer] = field(default_factory=list)

    @property
    def homes(self) -> int:
        """How many homes were served, by themselves or by a node that stood in."""
        return len({*self.own, *(place.home for place in self.stood_in)})


def is_own(place: Place) -> bool:
    """Tells whether the holder is the home itself."""
    return place.holder == place.home


def served(place: Place, turnout: Turnout) -> None:
    if is_own(place):
        turnout.own.append(place.holder)
    else:
        turnout.stood_in.append(place)


def turnout_of(answers: Sequence[Answer]) -> Turnout:
    """Sorts the answers; a node that answers after all was late, and not silent."""
    turnout = Turnout()
    for answer in answers:
        place = answer.place
        if place in turnout.silent:
            turnout.silent.remove(place)
            turnout.late.append(place)
        if answer.word == "noanswer":
            turnout.silent.append(place)
        elif answer.word == "down":
            turnout.down.append(place)
        elif answer.word.startswith("E"):
            turnout.refused.append(answer)
        else:
            served(place, turnout)
    return turnout


def turnout_at(places: Sequence[Place]) -> Turnout:
    """Returns the turnout in which all of these places served."""
    turnout = Turnout()
    for place in places:
        served(place, turnout)
    return turnout


def who(place: Place) -> str:
    """Returns the home, or the node that was asked in its place."""
    if is_own(place):
        return f"Home {place.home}"
    return f"Node {place.holder}, asked in place of home {place.home},"


def say_turnout(turnout: Turnout, did: str, aside: str) -> List[str]:
    """Says who did it, who stood in for whom, and who did not; the aside is of the silent ones."""
    own = sorted(turnout.own)
    said = [f"{named('Home', own)} {did}."] if own else []
    said += [f"Node {it.holder} stood in for home {it.home}." for it in turnout.stood_in]
    said += [f"{who(it)} answered late." for it in turnout.late]
    said += [f"{who(it)} did not answer{aside}." for it in turnout.silent]
    said += [f"{who(it)} was down." for it in turnout.down]
    return said + [f"{who(it.place)} refused with {it.word}." for it in turnout.refused]
