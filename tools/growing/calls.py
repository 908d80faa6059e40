"""Refuses each growth of each call in turn, by the table growth_cases.py."""
import re

from growing.judging import Judge, Wrong
from growing.leavings import Leavings
from growing.runs import NO_MEMORY, Output
from growth_cases import CALLS, RING, SCENES

# What reads a script, and what runs it.
READING, RUNNING = re.compile("dy_script::"), re.compile("dy_(?!script|lines|cli)")


def same_until(one, other):
    """How far two lists are the same."""
    pairs = enumerate(zip(one, other))
    return next((at for at, (a, b) in pairs if a != b), min(len(one), len(other)))


class Trial:
    """A scene, whose growths are refused in turn."""

    def __init__(self, player, name, scene):
        self.player, self.name, self.scene = player, name, scene
        self.ring = scene.ring or RING
        self.judge = Judge(player, scene, self.ring)
        self.stacks = player.trace(self.ring, self.judge.script())
        self.verdicts = {}
        self.mine, self.skipped = self.growths_of_command()
        self.leavings = Leavings(self.judge)
        self.alone = self.leavings.script(scene.tried)
        self.skipped_alone = self.run_of(player.trace(self.ring, self.alone))[1]

    def run_of(self, stacks):
        """The allocations behind the reading of the script, and how many come before them."""
        def lies(at, form):
            return any(form.match(self.player.frames.name_at(place)) for place in stacks[at])
        read = max((at for at in range(len(stacks)) if lies(at, READING)), default=-1)
        first = next(at for at in range(read + 1, len(stacks)) if lies(at, RUNNING))
        return stacks[first:], first

    def growths_of_command(self):
        """The numbers of the growths of the command, and how many come before the run: a run
        without the command, and one that ends with it, grow alike until they close."""
        whole, skipped = self.run_of(self.stacks)
        before = self.player.trace(self.ring, self.scene.before)
        until = self.player.trace(self.ring, [*self.scene.before, self.scene.tried])
        first, last = (same_until(whole, self.run_of(it)[0]) for it in (before, until))
        return range(skipped + first + 1, skipped + last + 1), skipped

    def within(self, place, numbers):
        """Which of these growths lie in the function of this name, but not in another."""
        place, _, other = place.partition(" but not ")
        lies = [(it, self.names_of(it)) for it in numbers]
        return [it for it, names in lies if place in names and other not in names]

    def names_of(self, number):
        """The functions that an allocation lies in."""
        names = self.player.frames.name_at
        return {names(call).partition("::<")[0] for call in self.stacks[number - 1]}

    def growths(self, place, words):
        """The growths of the function: in the command, or where no command reaches it, in the
        whole run; those of the command where no function is named."""
        if not words:
            return self.within(place, range(1, len(self.stacks) + 1)) if place else []
        if self.scene.tried["do"] not in words:
            return []
        return self.within(place, self.mine) if place else list(self.mine)

    def verdict(self, number):
        """What came of the run with the growth of this number refused."""
        if number not in self.verdicts:
            ran = self.player.play(self.ring, self.judge.script(), REFUSED=str(number))
            is_mine = number in self.mine
            self.verdicts[number] = self.came(ran, number) if is_mine else self.ended(ran, number)
        return self.verdicts[number]

    def came(self, ran, number):
        """What came of the command, and of the same one behind it; and then what it left, in a
        script in which no other follows."""
        came = self.judge.judge(ran)
        again = str(number - self.skipped + self.skipped_alone)
        fault = self.leavings.fault(self.player.play(self.ring, self.alone, REFUSED=again), came)
        if fault:
            raise Wrong(f"{came!r} came, and {fault}")
        return came

    def ended(self, ran, number):
        """The cluster could not be opened, or not be closed: nothing but commands is told."""
        if ran.returncode != 1 or ran.stderr != NO_MEMORY:
            raise Wrong(f"it ended with {ran.returncode} and {ran.stderr!r}")
        out = Output(ran.stdout)
        lines = [] if number < self.mine.start else self.judge.twice.lines
        if out.lines != lines or out.audit:
            raise Wrong(f"it printed {ran.stdout!r}")
        return "ended"


def refuse_call(call, trials):
    """Refuses each growth of the call in each scene. Returns what is said of it, and whether all
    came as it may."""
    for place in (call.place, *call.within, ""):
        found = [(trial, it) for trial in trials for it in trial.growths(place, call.words)]
        if found:
            break
    else:
        return "FAILED: no scene reaches a growth of it", False
    comes, bad = {}, []
    for trial, number in found:
        try:
            came = trial.verdict(number)
        except Wrong as wrong:
            bad.append(f"in {trial.name!r} with allocation {number} refused {wrong}")
            continue
        comes[came] = comes.get(came, 0) + 1
        if place == call.place and came not in call.comes:
            bad.append(f"in {trial.name!r} with allocation {number} refused there came {came!r}")
    scenes = {trial.name for trial, _ in found}
    said = f"{len(found)} growths in {len(scenes)} scenes, each refused in turn"
    if place != call.place:
        said += f" (all of {place or 'its commands'}, which it is a part of in this program)"
    counts = ", ".join(f"{count} {came}" for came, count in sorted(comes.items()))
    if bad:
        return f"FAILED: {len(bad)} of {said}: the first {bad[0]}", False
    return f"{said}: {counts}", True


def calls(player):
    """Yields each call with what is said of it, and whether it is well."""
    trials = [Trial(player, name, scene) for name, scene in SCENES.items()]
    said = f"{player.traced} runs traced, and the calls of each allocation followed to the first"
    lost = f"FAILED: of {player.lost} allocations the calls can't be followed to the first"
    yield "call stacks", lost if player.lost else said, not player.lost
    for name, call in CALLS.items():
        yield (name, *refuse_call(call, trials))
