"""Says whether what a refused command left is what was there before, or what it does.

Right behind the command each node shows what it keeps of each key. That, and what the audit lists,
is compared with runs where nothing is refused: of the script without the command, with it, and with
the node down that answered E0. What the nodes keep and what the audit says that they hold agree.
"""
import re

from growing.runs import Output, with_end

SHOWN = re.compile(r"show (\d+) own (-|n.*?)((?: for \d+ n.*?)*)$")
HINT = re.compile(r" for (\d+) (n.*?)(?= for |$)")
HELD = re.compile(r"held (\d+)/(\d+) (\w+) (.*)$")


class Leavings:
    """What a scene's command may leave."""

    def __init__(self, judge):
        self.judge, scene = judge, judge.scene
        self.keys = sorted({it["key"] for it in (*scene.before, scene.tried) if "key" in it})
        nodes = range(len(judge.ring["tokens"]))
        self.shows = [{"do": "show", "node": it, "key": key} for key in self.keys for it in nodes]
        self.without, self.whole = self.output(), self.output(scene.tried)

    def script(self, *tried):
        """The script with these commands and the shows in the place of all that is behind."""
        return [*self.judge.scene.before, *tried, *self.shows]

    def output(self, *tried):
        return self.judge.player.output(self.judge.ring, self.script(*tried))

    def fault(self, ran, came):
        """Returns what is wrong with what a run left of whose command this came, or None."""
        if ran.returncode or ran.stderr:
            return f"it ended with {ran.returncode} and {ran.stderr!r}"
        out, place = Output(ran.stdout), self.judge.place
        if len(out.lines) != len(self.whole.lines) or not out.audit:
            return f"it printed {ran.stdout!r}"
        if not self.agree(out):
            return f"what is shown is not what is held: {out.behind(place)}"
        left = out.behind(place + 1)
        if came == "told":
            is_so = left == self.without.behind(place)
        elif came == "after":
            lines, audit = self.whole.behind(place + 1)
            dot = out.lines[place].rpartition(" ")[2]
            acked = f"acked {self.judge.scene.tried['key'].encode().hex()} {dot} "
            rest = [it for it in audit if not it.startswith(acked)]
            is_so = left == (lines, with_end(rest, -1))
        elif came == "answer":
            is_so = left in [self.turned(node) for node in self.judge.up]
        else:
            is_so = self.is_between(out, came)
        return None if is_so else f"it leaves {out.behind(place)}"

    def turned(self, node):
        """What is left where the node is down for the command."""
        down, up = {"do": "down", "node": node}, {"do": "up", "node": node}
        return self.output(down, self.judge.scene.tried, up).behind(self.judge.place + 3)

    def is_between(self, out, came):
        """Whether each row is as it was before or as the command makes it; a delivery that stores
        some of its messages leaves a row in between, at its node."""
        place, node = self.judge.place, self.judge.scene.tried.get("node")
        rows = zip(out.lines[place + 1:], self.without.lines[place:], self.whole.lines[place + 1:])
        is_own = re.compile(rf"show {node} ").match if came == "some" else lambda line: None
        if not all(line in (before, after) or is_own(line) for line, before, after in rows):
            return False
        acks = [[it.partition(" covered ")[0] for it in audit if it.startswith("acked ")]
                for audit in (out.audit, self.whole.audit)]
        ends = [it.audit[-1].partition(" acked ")[2] for it in (out, self.whole)]
        return acks[0] == acks[1] and ends[0] == ends[1]

    def agree(self, out):
        """Whether the nodes keep the rows that the audit says they hold, of these keys."""
        shown = {}
        shows = out.lines[len(out.lines) - len(self.shows):]
        for command, line in zip(self.shows, shows):
            found = SHOWN.fullmatch(line)
            if not found or int(found[1]) != command["node"]:
                return False
            key, holder = command["key"].encode().hex(), found[1]
            shown[holder, holder, key] = found[2]
            shown.update({(holder, home, key): text for home, text in HINT.findall(found[3])})
        held = [HELD.fullmatch(it) for it in out.audit if it.startswith("held ")]
        kept = {place: text for place, text in shown.items() if text != "-"}
        return all(held) and kept == {it.groups()[:3]: it[4] for it in held}
