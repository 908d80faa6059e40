"""A service of a few lines with each of its allocations refused in turn.

It must end with 0 and all its lines, or with 1 and the line of want of memory. Each line is
answered in its order. What is acknowledged stands in the audit of its cluster, covered by as many
homes and nodes as its put named. A renewal carries over what is there, so gets behind it show it.
With the steps all is checked by the rules of tools/replay, too.
"""
import json
import re

from growing.runs import NO_MEMORY, run
from replaying.replays import Replay, lines_of

# Each key's homes are nodes 0, 1 and 2, and node 0 makes its versions. Node 1 is down for the put
# of z, of which node 3 keeps a hint.
SCRIPT = """
{"n":3,"r":2,"w":2,"tokens":[["20"],["60"],["a0"],["d0"],["f0"]],"run":[
{"do":"put","key":"a","value":"x"}]}
"""
LINES = """{"do":"put","key":"k3","value":"y","session":1}
{"do":"get","key":"a"}
{"do":"down","node":1}
{"do":"put","key":"a","value":"z","context":"n0:1"}
{"do":"up","node":1}
{"do":"get","kye":"a"}

{"do":"show","node":3,"key":"a"}
{"do":"handoff","node":3}
{"do":"delete","key":"k3","context":"n0:1","session":1}
{"do":"get","key":"k3"}
{"do":"renew"}
{"do":"get","key":"a","session":2}
{"do":"get","key":"k3"}
{"do":"put","key":"a","value":"w"}
{"do":"renew"}
{"do":"get","key":"a"}"""
# How many bytes of the input come, or of the output are taken, until an error: its number, and what
# is said of it.
HEARD = (0, 1, 60, 200, 400, len(LINES))
STREAMS = [*(("LISTENED", count, 5, "Input/output error") for count in HEARD),
           *(("WRITABLE", count, 28, "No space left on device") for count in (0, 1, 60, 600, 1000))]
END = re.compile(r"end held \d+ acked (\d+) gets (\d+) steps \d+")
WROTE = re.compile(r"(\d+) (put|delete) ok (\S+) ")
# Gets of the key a behind the renewals, and of each the values that it may have: those that were
# acknowledged, and the number of the put that each comes from.
X, Z, W = (1, "78"), (5, "7a"), (15, "77")
GETS = {13: [[X, Z]], 17: [[X, Z], [W]]}


def commands():
    """The commands of the script and the lines, each at its number less one."""
    lines = [line for line in LINES.split("\n") if line]
    return [*json.loads(SCRIPT)["run"], *map(json.loads, lines)]


def clusters(lines):
    """The lines of each cluster, to its end."""
    found = [[]]
    for line in lines:
        found[-1].append(line)
        if END.fullmatch(line):
            found.append([])
    return found[:-1], found[-1]


def is_closed_well(lines, is_covered, asked):
    """Whether all that a cluster acknowledged and answered stands in its audit."""
    carried = re.match(r"\d+ renew ok carried (\d+)$", lines[0])
    wrote = [it for it in map(WROTE.match, lines) if it]
    told = {(asked[int(it[1]) - 1]["key"].encode().hex(), it[3]) for it in wrote}
    acks = [it.split(" ") for it in lines if it.startswith("acked ")]
    count = len(wrote) + (int(carried[1]) if carried else 0)
    gets = sum(bool(re.match(r"\d+ get ok ", it)) for it in lines)
    sums = END.fullmatch(lines[-1])
    return (len(acks) == count == int(sums[1]) and gets == int(sums[2])
            and told <= {(it[1], it[2]) for it in acks}
            and all(is_covered(" ".join(it), 2) for it in acks))


def has_values(lines):
    """Whether each get of the key a behind a renewal has what was acknowledged, or follows it."""
    said = {int(it.split(" ")[0]): it for it in lines if it[:1].isdigit()}
    for number, keys in GETS.items():
        if not re.match(r"\d+ get ok ", said[number]):
            continue
        values = [it.split("=")[1] for it in said[number].split(" values ")[1].split(" ")
                  if "=" in it]
        for puts in keys:
            acked = [at for at, (put, _) in enumerate(puts) if " put ok " in said[put]]
            if acked and not any(value in values for _, value in puts[acked[-1]:]):
                return False
    return True


def is_right(ran, is_covered):
    """Tells whether the service ended well."""
    lines, asked = lines_of(ran.stdout), commands()
    closed, rest = clusters(lines)
    numbers = [int(it.split(" ")[0]) for it in lines if it[:1].isdigit()]
    if numbers != list(range(1, len(numbers) + 1)):
        return False
    if not all(is_closed_well(it, is_covered, asked) for it in closed):
        return False
    if ran.returncode == 1:
        return ran.stderr == NO_MEMORY
    is_whole = len(numbers) == len(asked) and closed and not rest
    return ran.returncode == 0 and not ran.stderr and is_whole and has_values(lines)


def is_replayed(ran):
    """Tells whether the service ended well, and its steps keep each rule."""
    if ran.returncode == 1:
        return ran.stderr == NO_MEMORY
    replay = Replay(lines_of(ran.stdout))
    replay.play()
    return ran.returncode == 0 and not replay.found


def answers_to(text, whole):
    """How the whole output begins, to the answer to the last line that has come."""
    count = len(json.loads(SCRIPT)["run"]) + sum(bool(it) for it in text.split("\n")[:-1])
    lines = whole.splitlines(keepends=True)
    last = max(at for at, it in enumerate(lines)
               if it[:1].isdigit() and int(it.split(" ")[0]) <= count)
    return "".join(lines[:last + 1])


def streams(program, library, path):
    """Yields the service whose input or output fails, in the same way."""
    words = [program, "serve", path]
    whole = run(words, library, LINES).stdout
    for stream, count, error, text in STREAMS:
        ran = run(words, library, LINES, ERROR=str(error), **{stream: str(count)})
        said = f"dynamo: {text} (os error {error})\n"
        written = whole[:count] if stream == "WRITABLE" else answers_to(LINES[:count], whole)
        is_well = (ran.returncode, ran.stdout, ran.stderr) == (1, written, said)
        name = f"serve: {stream} {count}, then error {error}"
        yield name, "ends well" if is_well else f"FAILED: {ran}", is_well


def services(program, library, folder, count_of, is_covered):
    """Yields the service without its steps and with them, with what is said of it, and whether it
    is well."""
    path = f"{folder}/service.json"
    with open(path, "w", encoding="utf-8") as it:
        it.write(SCRIPT)
    yield from streams(program, library, path)
    for words, is_well in (("serve", lambda ran: is_right(ran, is_covered)),
                           ("serve --steps", is_replayed)):
        asked = [program, *words.split(), path]
        count = count_of(asked, library, folder, LINES)
        if not count or not is_well(run(asked, library, LINES)):
            yield words, "FAILED: the service itself does not end well", False
            continue
        tried = range(1, count + 1)
        bad = [it for it in tried if not is_well(run(asked, library, LINES, REFUSED=str(it)))]
        said = f"FAILED with allocation {bad[0]} of {count} refused, of {len(bad)}" if bad else ""
        yield words, said or f"{count} allocations, each refused in turn", not bad
