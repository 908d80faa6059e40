"""The same commands as lines of `serve` and as the script of a `run`: the same lines, and steps."""
import json
import re
from concurrent.futures import ThreadPoolExecutor
from typing import Any, Dict, Iterator, List, Tuple

from serving.checks import SCRIPT, TOP, Run, Test, line_of
from testing import runs, scenes, seeded

SCRIPTS = TOP / "examples/scripts"
SEEDS = 10
ADDED = re.compile("(cluster|token|step|told) ")
RENEW = {"do": "renew"}
Script = Dict[str, Any]


def scripts() -> Iterator[Tuple[str, Script]]:
    """Each scene that runs to its end, and the seeded scripts."""
    for scene in runs():
        yield scene.name, json.loads(scene.script.read_text(encoding="utf-8"))
    for seed in range(1, SEEDS + 1):
        yield f"seed {seed}", json.loads(seeded(seed))


def served(test: Test, name: str, script: Script, first: int, *flags: str) -> Run:
    """What is printed where only so many commands stand in the script, and the others are lines."""
    commands = script.get("run", [])
    file = test.file({**script, "run": commands[:first]}, f"{name}-{first}{''.join(flags)}.json")
    lines = b"".join(line_of(command) + b"\n" for command in commands[first:])
    return test.run(["serve", *flags, file], lines)


def cut(output: bytes) -> Tuple[List[str], List[str]]:
    """The lines that --steps adds, and the others."""
    lines = output.decode("utf-8").splitlines()
    return [it for it in lines if ADDED.match(it)], [it for it in lines if not ADDED.match(it)]


def compare(test: Test, name: str, script: Script) -> None:
    """Compares the ways in which a script can be done."""
    file = test.file(script, f"{name}.json")
    whole = test.run(["run", file])
    test.same(f"{name}: the status and the error of a run", (whole.status, whole.err), (0, b""))
    scene = SCRIPTS / f"{name}.json.stdout"
    if scene.exists():
        test.same(f"{name}: the scene", whole.out, scene.read_bytes())
    count = len(script.get("run", []))
    for first in sorted({0, 1, count // 2, count}):
        test.same(f"{name}: served behind {first}", served(test, name, script, first), whole)
    compare_steps(test, name, script, whole)


def compare_steps(test: Test, name: str, script: Script, whole: Run) -> None:
    """With --steps: the lines of a run, to the byte, and without the steps those of a run without."""
    run = test.run(["run", "--steps", test.file(script, f"{name}.json")])
    for first in sorted({0, len(script.get("run", [])) // 2}):
        done = served(test, name, script, first, "--steps")
        test.same(f"{name}: served with steps behind {first}", done, run)
    added, others = cut(run.out)
    test.same(f"{name}: all but the steps", others, whole.out.decode("utf-8").splitlines())
    steps = sum(1 for it in added if it.startswith("step "))
    test.same(f"{name}: how many they are", str(steps), others[-1].rpartition(" ")[2])


def test_scripts(test: Test) -> None:
    cases = list(scripts())
    test.look("there are scenes and seeds", len(cases) > SEEDS + 20, len(cases))
    with ThreadPoolExecutor(max_workers=2) as pool:
        for _ in pool.map(lambda case: compare(test, *case), cases):
            pass


def test_refused_scripts(test: Test) -> None:
    """A script that `run` refuses is refused by `serve`, and no line is read."""
    for scene in scenes():
        if (scene.word, scene.status) == ("run", 2):
            done = test.run(["serve", str(scene.script)], line_of(RENEW))
            test.same(f"{scene.name}: served", done, Run(2, b"", f"{scene.error}\n".encode()))
    put = {"do": "put", "key": "a", "value": "x"}
    for commands, number in (([RENEW], 1), ([put, RENEW], 2)):
        file = test.file({**SCRIPT, "run": commands})
        wanted = Run(2, b"", f"dynamo: E18 UnknownCommand {number}\n".encode())
        for command in ("run", "serve", "ring"):
            test.same(f"{command} with a renewal", test.run([command, file]), wanted)


def test_steps_of_renewals(test: Test) -> None:
    """The steps of each command and renewal stand below its line, and the ring once, before all."""
    put, get = {"do": "put", "key": "a", "value": "x"}, {"do": "get", "key": "a"}
    data = b"\n".join(line_of(it) for it in (put, get, RENEW, get, get, RENEW))
    lines = test.serve(data, SCRIPT, "--steps").out.decode("utf-8").splitlines()
    words = [re.sub(r"^\d+ ", "", line).split(" ")[0] for line in lines]
    put_steps, got = ["step"] * 5, ["get", *["step"] * 3, "told"]
    audit = ["held", "held", "held", "acked", "end"]
    first = ["put", *put_steps, *got, *audit, "renew"]
    second = [*put_steps, *got, *got, *audit, "renew"]
    third = [*put_steps, *audit]
    test.same("the steps of renewals", words,
              ["cluster", *["token"] * 5, *first, *second, *third])
    sums = [line for line in lines if line.startswith("end ")]
    counts = [int(line.split(" ")[-1]) for line in sums]
    test.same("the steps that their ends count", counts, [8, 11, 5])


PARTS = [test_scripts, test_refused_scripts, test_steps_of_renewals]
