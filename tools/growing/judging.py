"""Says what came of a command one of whose growths was refused, and whether that may come.

It compares the run with runs where nothing is refused: of the same script without the command, with
it, and with the node down that answered E0. Behind the command the same one comes again, so that
what the refused one left is seen by what that one does.
"""
import re

from growing.runs import Output, with_end

REFUSED = "E0 OutOfMemory"
PASS = re.compile(r"handoff ok offers (\d+) stored (\d+) released (\d+)")


class Wrong(Exception):
    """What came that may not come."""


class Judge:
    """What may come of the command of a scene."""

    def __init__(self, player, scene, ring):
        self.player, self.scene, self.ring = player, scene, ring
        self.place, self.word = len(scene.before), scene.tried["do"]
        self.once, self.twice = self.output(scene.tried), self.output(scene.tried, scene.tried)
        self.step_count = self.twice.steps - self.once.steps
        self.up, self.modes = self.nodes()
        self.turns = {}

    def output(self, *tried):
        """What the script prints where nothing is refused, with these commands in its middle."""
        return self.player.output(self.ring, [*self.scene.before, *tried, *self.scene.behind])

    def script(self):
        """The script with its command, and the same one again."""
        scene = self.scene
        return [*scene.before, scene.tried, scene.tried, *scene.behind]

    def judge(self, ran):
        """Returns what came of a run with a growth of the command refused, by its word in
        growth_cases.py."""
        if ran.returncode or ran.stderr:
            raise Wrong(f"it ended with {ran.returncode} and {ran.stderr!r}")
        out = Output(ran.stdout)
        if len(out.lines) != len(self.twice.lines) or not out.audit:
            raise Wrong(f"it printed {ran.stdout!r}")
        if out.lines[:self.place] != self.twice.lines[:self.place]:
            raise Wrong("a command before it tells something else")
        line = out.lines[self.place]
        if line == f"{self.word} {REFUSED}":
            return self.told(out)
        if line.startswith(f"{self.word} {REFUSED} after "):
            return self.after(out, line)
        if line == self.twice.lines[self.place] and self.is_well(out):
            return "well"
        if self.word == "handoff":
            return self.fewer(out, line)
        for node in self.up:
            if self.is_turned(out, line, node):
                return "answer"
        raise Wrong(f"it tells {line!r}, and then {out.behind(self.place + 1)}")

    def hold(self, is_so, what, out):
        """Refuses a run of which something is not so."""
        if not is_so:
            raise Wrong(f"{what}: {out.behind(self.place)} of {out.steps} steps, where it is "
                        f"{self.once.behind(self.place)} of {self.once.steps} without it")

    def told(self, out):
        """It told E0: all is as it was without it, but for the steps of a get's fetches."""
        more = out.steps - self.once.steps
        most = self.step_count if self.word == "get" else 0
        self.hold(0 <= more <= most, "steps were made", out)
        lines, audit = out.behind(self.place + 1)
        if self.word == "deliver" and lines[0] != self.once.lines[self.place]:
            counts = [re.fullmatch(r"deliver ok (\d+)", it) for it in
                      (lines[0], self.once.lines[self.place])]
            is_less = all(counts) and int(counts[0][1]) < int(counts[1][1])
            self.hold(is_less, "the delivery that follows is another", out)
            rest = self.once.behind(self.place + 1)
            self.hold((lines[1:], audit) == rest, "what follows is another", out)
            return "some"
        self.hold((lines, audit) == self.once.behind(self.place), "what follows is another", out)
        return "told"

    def after(self, out, line):
        """It told E0 and the dot of its version, which stands as if it were acknowledged."""
        dot = line.rpartition(" ")[2]
        self.hold(f" ok {dot} " in self.twice.lines[self.place], "its dot is another", out)
        lines, audit = self.twice.behind(self.place + 1)
        key = self.scene.tried["key"].encode().hex()
        rest = [it for it in audit if not it.startswith(f"acked {key} {dot} ")]
        self.hold(out.behind(self.place + 1) == (lines, with_end(rest, -1)),
                  "what follows is another", out)
        self.hold(out.steps == self.twice.steps - 1, "the steps are others", out)
        return "after"

    def is_well(self, out):
        """Whether all behind it is as ever, and as many steps were made."""
        rest = self.twice.behind(self.place + 1)
        return out.behind(self.place + 1) == rest and out.steps == self.twice.steps

    def fewer(self, out, line):
        """The pass told fewer, and the one that follows hands over the rest: a home that had its
        row and whose hint was not given up is asked again, which is a step for each."""
        passes = [PASS.fullmatch(it) for it in
                  (line, out.lines[self.place + 1], self.once.lines[self.place])]
        self.hold(all(passes), "a pass tells something else", out)
        first, again, whole = (tuple(map(int, it.groups())) for it in passes)
        self.hold(first[0] == whole[0] and again[0] == again[1] and 0 < again[0] <= first[0]
                  and first[2] + again[2] == whole[2] and first[1] + again[1] >= whole[1],
                  "the two passes hand over something else", out)
        self.hold(out.behind(self.place + 2) == self.once.behind(self.place + 1),
                  "what follows is another", out)
        more = first[1] + again[1] - whole[1]
        self.hold(out.steps == self.once.steps + more, "the steps are others", out)
        return "fewer"

    def nodes(self):
        """The nodes that are up when the command comes, and the modes that were set."""
        down, modes = set(), {}
        for command in self.scene.before:
            if command["do"] == "down":
                down.add(command["node"])
            elif command["do"] == "up":
                down.discard(command["node"])
            elif command["do"] == "fault":
                modes[command["node"]] = command["mode"]
        return [it for it in range(len(self.ring["tokens"])) if it not in down], modes

    def is_turned(self, out, line, node):
        """Whether all is as if the node had been down for the command, but that it answered E0, or
        that no answer came of it."""
        if node not in self.turns:
            down, up = {"do": "down", "node": node}, {"do": "up", "node": node}
            self.turns[node] = self.output(down, self.scene.tried, up, self.scene.tried)
        turn, word = self.turns[node], "noanswer" if self.modes.get(node) == "mute" else "E0"
        wanted = re.sub(rf"\b({node}/\d+)=down\b", rf"\1={word}", turn.lines[self.place + 1])
        rest = turn.behind(self.place + 3)
        return line == wanted and out.behind(self.place + 1) == rest and out.steps == turn.steps
