"""What each place holds while a run goes on: rows of versions, and how they merge.

The lines of a run do not tell which homes a get found with another row, how far a pass came, or
where a delivery stored. That follows from what each place holds, so it is followed line by line:
who stored which versions, who did so without an answer, what passes and deliveries moved.
"""
from collections import defaultdict
from typing import Dict, FrozenSet, List, NamedTuple, Sequence, Set, Tuple

from .lines import Answer, CommandForm, Delivered, Done, Got, Passed, Place, Refused, Written
from .rules import MODES, Mode
from .scripts import Command
from .texts import count_of, dots_of

Row = FrozenSet[str]
EMPTY: Row = frozenset()


class Followed(NamedTuple):
    """What a line does not tell: the homes that a get asked to hold the merged row, and whether
    they do; where a delivery stored; and of a pass each home that was offered hints, how many it
    took, and whether all of them left.
    """

    mended: Sequence[Tuple[int, bool]] = ()
    stored: Sequence[Place] = ()
    handed: Sequence[Tuple[int, int, bool]] = ()


class World:
    """The rows by holder, home and key, the versions' pasts, and the nodes' modes and messages.

    `effort` grows with the versions and pasts that were looked at.
    """

    def __init__(self) -> None:
        self.down: Set[int] = set()
        self.modes: Dict[int, str] = {}
        self.kept: Dict[int, List[Tuple[int, bytes, Row]]] = defaultdict(list)
        self.rows: Dict[int, Dict[Tuple[int, bytes], Row]] = defaultdict(dict)
        self.pasts: Dict[Tuple[bytes, str], Row] = {}
        self.effort = 0

    def held(self) -> Dict[Tuple[Place, bytes], Row]:
        """Returns what the places hold that hold something."""
        return {(Place(holder, home), key): row for holder, its in self.rows.items()
                for (home, key), row in its.items() if row}

    def follow(self, form: CommandForm, command: Command) -> Followed:
        """Follows the line of a command."""
        if isinstance(form, Done):
            self.set_node(command)
        elif isinstance(form, (Written, Refused)) and form.dot:
            self.begin(command.key, form.dot, command.context)
            self.put(command.key, form.dot, form.answers)
        elif isinstance(form, Delivered):
            return Followed(stored=self.deliver(command.node, form.stored))
        elif isinstance(form, Passed):
            return Followed(handed=self.hand_over(command.node, form.stored, form.released))
        elif isinstance(form, Got):
            return Followed(mended=self.mend(command.key, form.places))
        return Followed()

    def set_node(self, command: Command) -> None:
        if command.word == "fault":
            self.modes[command.node] = command.mode
        elif command.word == "up":
            self.down.discard(command.node)
        elif command.word == "down":
            self.down.add(command.node)

    def mode(self, node: int) -> Mode:
        return MODES.get(self.modes.get(node, "none"), MODES["none"])

    def row(self, place: Place, key: bytes) -> Row:
        return self.rows[place.holder].get((place.home, key), EMPTY)

    def merged(self, key: bytes, *rows: Row) -> Row:
        """Returns the versions of these rows that none of the others follows."""
        versions = EMPTY.union(*rows)
        pasts = [self.pasts.get((key, dot), EMPTY) for dot in versions]
        self.effort += len(versions) + sum(len(past) for past in pasts)
        return versions.difference(*pasts)

    def hold(self, place: Place, key: bytes, row: Row) -> None:
        """Merges a row into what a place holds."""
        self.rows[place.holder][place.home, key] = self.merged(key, self.row(place, key), row)

    def ask(self, place: Place, key: bytes, row: Row) -> bool:
        """Asks a place to hold a row, and tells whether it does now."""
        if place.holder in self.down:
            return False
        mode = self.mode(place.holder)
        if mode.stores:
            self.hold(place, key, row)
        if mode.keeps:
            self.kept[place.holder].append((place.home, key, row))
        return mode.stores

    def begin(self, key: bytes, dot: str, context: str) -> None:
        """Makes the version: its past is the histories of the versions that the context names."""
        named = dots_of(context)
        past = EMPTY.union(named, *(self.pasts.get((key, other), EMPTY) for other in named))
        self.pasts[key, dot] = past
        self.effort += count_of(context) + len(past)

    def put(self, key: bytes, dot: str, answers: Sequence[Answer]) -> None:
        """Follows the answers to a put, whose first is of the node that made the version."""
        row, has_steps = EMPTY, True
        for at, (place, word) in enumerate(answers):
            # Where a node found no step left, those that were asked after it found none either.
            has_steps = has_steps and word != "E12"
            if at == 0:
                self.hold(place, key, frozenset([dot]))
                row = self.row(place, key)
            elif word == "stored":
                self.hold(place, key, row)
            elif word == "noanswer" and has_steps and not self.mode(place.holder).answers:
                self.ask(place, key, row)

    def mend(self, key: bytes, places: Sequence[Place]) -> List[Tuple[int, bool]]:
        """Asks the homes that answered a get with another row to hold the merged one."""
        rows = {place: self.row(place, key) for place in places}
        merged = self.merged(key, *rows.values())
        stale = [place for place, row in rows.items()
                 if place.holder == place.home and row != merged]
        return [(place.home, self.ask(place, key, merged)) for place in stale]

    def deliver(self, node: int, count: int) -> List[Place]:
        """Stores the oldest messages that a node kept, and returns where they went."""
        done, self.kept[node] = self.kept[node][:count], self.kept[node][count:]
        for home, key, row in done:
            self.hold(Place(node, home), key, row)
        return list(dict.fromkeys(Place(node, home) for home, _, _ in done))

    def hints(self, node: int) -> List[Tuple[int, bytes]]:
        """Returns the homes and keys of the hints of a node, in the order of a pass."""
        return sorted(at for at, row in self.rows[node].items() if at[0] != node and row)

    def is_told(self, home: int) -> bool:
        """Tells whether a pass gets receipts of the home."""
        return home not in self.down and self.mode(home).answers

    def whole_pass(self, node: int) -> Tuple[int, int, int]:
        """Returns the offers, receipts and releases of a pass that nothing stops."""
        hints = self.hints(node)
        taken = [len(self.rows[node][at]) for at in hints if self.is_told(at[0])]
        return len(hints), len(taken), sum(taken)

    def hand_over(self, node: int, stored: int, released: int) -> List[Tuple[int, int, bool]]:
        """Makes a pass. The homes take hints in order, those that answer late behind the others."""
        hints = self.hints(node)
        homes = {home: [0, 0, True] for home, _ in hints}
        for home, key in sorted(hints, key=lambda hint: self.modes.get(hint[0]) == "late"):
            row, tally, is_told = self.rows[node][home, key], homes[home], self.is_told(home)
            if is_told and stored == 0:
                tally[2] = False
                continue
            self.ask(Place(home, home), key, row)
            stored, tally[0] = stored - is_told, tally[0] + is_told
            if is_told and len(row) <= released:
                released -= len(row)
                del self.rows[node][home, key]
            else:
                tally[2] = False
        return [(home, tally[0], bool(tally[2])) for home, tally in homes.items()]
