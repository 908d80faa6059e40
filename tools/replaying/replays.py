"""Plays the lines of an output, one after the other, and finds which rules they break."""
from typing import Any, Dict, Iterator, List, Optional, Tuple

from replaying.audits import Lines, check_audit, counts_of, uncovered
from replaying.commands import Group, check
from replaying.dots import BadText
from replaying.forms import Acked, Cluster, Command, End, Held, Settled, Token, read_line
from replaying.renewals import check_renewal
from replaying.rings import Setting
from replaying.sessions import Sessions
from replaying.steps import Ack, Fault, Fetch, Hold, Issue, Release, Told
from replaying.worlds import World

# In what order the kinds of lines come. In a storm told lines stand below all steps, and else among
# them.
ORDER = {Cluster: 0, Token: 1, Command: 2, Issue: 2, Hold: 2, Release: 2, Fetch: 2, Ack: 2, Told: 2,
         Held: 3, Acked: 4, Settled: 5, End: 6}
AUDIT = {Held: "held", Acked: "acked", Settled: "settled"}
ORDER_RULE, NUMBERS = "order of lines", "numbers in order"


def lines_of(text: str) -> List[str]:
    """Returns the lines of an output; a last one without its line feed counts."""
    lines = text.split("\n")
    return lines if lines[-1] else lines[:-1]


class Replay:
    """An output as it is played: its world, its sessions, and what was found."""

    def __init__(self, lines: List[str]) -> None:
        self.lines = lines
        # A storm is told by its end, wherever that stands.
        self.is_storm = any(line.startswith("end acked ") for line in lines[-50:])
        self.found: List[Tuple[int, Fault]] = []
        self.steps = self.acks = self.gets = self.commands = 0
        self.at = self.order = 0
        self.cluster: Optional[Cluster] = None
        self.tokens: List[Tuple[int, int]] = []
        self.audit: Dict[str, Lines] = {name: [] for name in AUDIT.values()}
        self.group: Optional[Group] = None
        self.world: Optional[World] = None
        self.sessions: Optional[Sessions] = None
        # The last world of the cluster before this one, in a service that renewed it.
        self.before: Optional[World] = None
        # The sums of the clusters that were closed before.
        self.sums = [0, 0, 0]

    def complain(self, rule: str, text: str) -> None:
        self.found.append((self.at, Fault(rule, text)))

    def play(self) -> None:
        """Plays all lines."""
        last: Any = None
        for self.at, line in enumerate(self.lines, 1):
            try:
                last = read_line(line)
            except BadText as error:
                self.complain("form of a line", str(error))
                continue
            self.put_in_order(last)
            self.play_line(last, line)
        if not isinstance(last, End):
            self.complain(ORDER_RULE, "the last line is no end")
        self.found.sort(key=lambda it: it[0])

    def put_in_order(self, it: Any) -> None:
        """Says where a line comes too late, or more than once."""
        order = ORDER[type(it)]
        is_after_told = self.is_storm and self.gets and order == 2 and not isinstance(it, Told)
        if self.is_renewal(it):
            self.order = order if self.order == ORDER[End] else ORDER[End]
            is_after_told = False
        is_twice = order == self.order and isinstance(it, (Cluster, End)) and self.at > 1
        if order < self.order or is_after_told or is_twice or (self.at == 1 and order):
            self.complain(ORDER_RULE, f"a line '{self.lines[self.at - 1][:40]}' has no place here")
        self.order = max(order, self.order)

    def is_renewal(self, it: Any) -> bool:
        return not self.is_storm and isinstance(it, Command) and it.do == "renew"

    def renew(self) -> None:
        """Begins the next cluster of a service, behind the audit of the one before."""
        self.sums = [sum(it) for it in zip(self.sums, (self.steps, self.acks, self.gets))]
        self.steps = self.acks = self.gets = 0
        self.audit = {name: [] for name in AUDIT.values()}
        self.before, self.world = self.world, World(self.world.setting)
        self.sessions = Sessions(self.world, self.is_storm)

    def begin(self) -> None:
        """Makes the world, of the lines at the head."""
        cluster = self.cluster or Cluster(0, 0, 0)
        setting = Setting(*cluster, tuple(self.tokens))
        for fault in setting.faults():
            self.complain("setting", fault)
        self.world = World(setting)
        self.sessions = Sessions(self.world, self.is_storm)

    def play_line(self, it: Any, line: str) -> None:
        if isinstance(it, Cluster):
            self.cluster = it
        elif isinstance(it, Token):
            self.tokens.append(it)
        else:
            if self.world is None:
                self.begin()
            if isinstance(it, (Command, Held, Acked, Settled, End)):
                self.end_group()
            if self.is_renewal(it):
                self.renew()
            if isinstance(it, Command):
                self.begin_group(it)
            elif isinstance(it, End):
                self.end(it)
            elif type(it) in AUDIT:
                self.audit[AUDIT[type(it)]].append((self.at, line))
            else:
                self.play_step(it)

    def begin_group(self, command: Command) -> None:
        self.commands += 1
        if self.is_storm:
            self.complain(ORDER_RULE, "a storm tells no commands")
        if command.number != self.commands:
            self.complain(NUMBERS, f"this is command {self.commands}")
            self.commands = command.number
        self.group = Group(self.at, command)

    def end_group(self) -> None:
        """Holds the command against its steps, once all of them are played."""
        if self.group and self.group.command.do == "renew":
            self.found += check_renewal(self.group, self.world, self.before)
        elif self.group:
            self.found += check(self.group, self.world)
        self.group = None

    def play_step(self, it: Any) -> None:
        """Plays a step, or what a session is told."""
        if self.group:
            kept = self.group.told if isinstance(it, Told) else self.group.steps
            kept.append((self.at, it))
        elif not self.is_storm:
            self.complain(ORDER_RULE, "it stands below no command")
        self.found += [(self.at, fault) for fault in self.faults_of(it)]

    def faults_of(self, it: Any) -> Iterator[Fault]:
        if isinstance(it, Told):
            self.gets += 1
            yield from self.sessions.told(it)
            return
        self.steps += 1
        if it.number != self.steps:
            yield Fault(NUMBERS, f"this is step {self.steps}")
            self.steps = it.number
        if isinstance(it, Ack):
            self.acks += 1
            self.sessions.ack(it)
        yield from self.world.play(it)

    def end(self, end: End) -> None:
        """Holds the audit and the last line against the last world."""
        for fault in uncovered(self.world):
            self.complain(*fault)
        if not self.is_storm:
            self.found += check_audit(self.world, self.audit, self.at)
        wanted = counts_of(self.world, self.steps, self.acks, self.gets, self.is_storm)
        for name, count in wanted.items():
            if end.counts.get(name) != count:
                self.complain("counts", f"{name} should be {count}, and is {end.counts.get(name)}")

    def report(self) -> List[str]:
        """Returns a line for each rule that was broken where, and a last line of sums."""
        lines = [f"line {at}: {fault.rule}: {fault.text}" for at, fault in self.found]
        count = len(self.found)
        told = f"{count} {'violation' if count == 1 else 'violations'}" if count else "all checked"
        steps, acks, gets = map(sum, zip(self.sums, (self.steps, self.acks, self.gets)))
        sums = f"{steps} steps, {acks} acked, {gets} gets"
        return [*lines, f"replay: {sums}: {told}"]
