"""What is told of nodes that are down, whichever growth is refused."""
import re

from growing.runs import NO_MEMORY, Output
from growth_cases import DOWNS, RING


def refuse_at_down(player, down):
    """Returns what is said of the scene, and whether its line was told with each growth refused."""
    ring = down.ring or RING
    count = len(player.trace(ring, down.run))
    told = {}
    for number in range(count + 1):
        ran = player.play(ring, down.run, REFUSED=str(number))
        lines = Output(ran.stdout).lines
        if ran.returncode == 1 and ran.stderr == NO_MEMORY and len(lines) != len(down.run):
            continue
        line = lines[down.number - 1]
        if not re.fullmatch(down.line, line):
            return f"FAILED with allocation {number} of {count} refused: it tells {line!r}", False
        told[line] = told.get(line, 0) + 1
    lines = next(iter(told)) if len(told) == 1 else f"{len(told)} lines, each of which may come"
    return f"{count} allocations, each refused in turn: {lines}", True


def downs(player):
    """Yields each scene of a node that is down, in the same way."""
    for name, down in DOWNS.items():
        yield (name, *refuse_at_down(player, down))
