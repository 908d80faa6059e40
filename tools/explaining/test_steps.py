"""Checks of what tools/explain says of outputs with the lines of steps.

What is said stands here by hand. The outputs of whole scenes are those of tools/replaying, by hand
too: each of their lines can be written again from its JSON object.
"""
import json
from pathlib import Path
from typing import Any, Dict, Iterator, List, Tuple

from replaying.test_rows import SCENES

from .refusals import read_meanings
from .tellings import Telling, tell
from .test_rows import HEAD, at, put

SCRIPTS = Path(__file__).resolve().parents[2] / "examples/scripts"
MEANINGS = read_meanings()
Object = Dict[str, Any]
Check = Tuple[str, object, object]

DELETE = {"do": "delete", "key": "a", "context": "n0:1", "session": 2, "w": 1}
SCRIPT = {**HEAD, "run": [
    at("down", 1), put("x"), DELETE, at("up", 1), at("handoff", 3),
    {"do": "get", "key": "a", "session": 2},
]}
OUTPUT = """\
cluster n 3 r 2 w 2
token 20000000000000000000000000000000 0
token 60000000000000000000000000000000 1
token a0000000000000000000000000000000 2
token d0000000000000000000000000000000 3
token f0000000000000000000000000000000 4
1 down ok
2 put ok n0:1 answers 0/0=stored 1/1=down 2/2=stored 3/1=stored
step 1 issue 0 61 n0:1 behind - value 78
step 2 hold 0/0 61 n0:1
step 3 hold 2/2 61 n0:1
step 4 hold 3/1 61 n0:1
step 5 ack 61 n0:1 w 2 session 0
3 delete ok n0:2 answers 0/0=stored 1/1=down 2/2=stored 3/1=stored
step 6 issue 0 61 n0:2 behind n0:1 deleted
step 7 hold 0/0 61 n0:2
step 8 hold 2/2 61 n0:2
step 9 hold 3/1 61 n0:2
step 10 ack 61 n0:2 w 1 session 2
4 up ok
5 handoff ok offers 1 stored 1 released 1
step 11 hold 1/1 61 n0:2
step 12 release 3/1 61 n0:2
6 get ok context n0:1-2 from 0/0 1/1 values none
step 13 fetch 0/0 61
step 14 fetch 1/1 61
step 15 fetch 2/2 61
told 13 14 session 2
held 0/0 61 n0:2
held 1/1 61 n0:2
held 2/2 61 n0:2
acked 61 n0:1 covered 0/0 1/1 2/2
acked 61 n0:2 w 1 covered 0/0 1/1 2/2
end held 3 acked 2 gets 1 steps 15
"""
TEXT = """\
Each key has 3 homes; a get wants 2, and a put 2.
Node 0 has a token at 20000000000000000000000000000000.
Node 1 has a token at 60000000000000000000000000000000.
Node 2 has a token at a0000000000000000000000000000000.
Node 3 has a token at d0000000000000000000000000000000.
Node 4 has a token at f0000000000000000000000000000000.
1  down node 1
   Node 1 is down: whoever asks it is told so.
2  put "a" = "x"
   Acknowledged: node 0 made the version n0:1; 3 homes have it, and 2 were wanted.
   Homes 0 and 2 stored it.
   Node 3 stood in for home 1.
   Home 1 was down.
   Step 1: node 0 made n0:1 of "a" = "x", behind no other version.
   Step 2: node 0 merged n0:1 of "a" into what it holds for itself.
   Step 3: node 2 merged n0:1 of "a" into what it holds for itself.
   Step 4: node 3 merged n0:1 of "a" into what it holds for home 1.
   Step 5: session 0 was told that 2 homes have n0:1, which the put made.
3  delete "a", context n0:1, session 2, w 1
   Acknowledged: node 0 made the version n0:2; 3 homes have it, and 1 was wanted.
   Homes 0 and 2 stored it.
   Node 3 stood in for home 1.
   Home 1 was down.
   Step 6: node 0 made n0:2 of "a", a deletion, behind n0:1.
   Step 7: node 0 merged n0:2 of "a" into what it holds for itself.
   Step 8: node 2 merged n0:2 of "a" into what it holds for itself.
   Step 9: node 3 merged n0:2 of "a" into what it holds for home 1.
   Step 10: session 2 was told that 1 home has n0:2, which the delete made.
4  up node 1
   Node 1 is up, with what it held before.
5  handoff node 3
   Node 3 offered 1 hint to its home: receipts came for 1, and 1 version left its hints.
   Step 11: node 1 merged n0:2 of "a" into what it holds for itself.
   Step 12: node 3 gave up n0:2 of its hint of "a" for home 1.
6  get "a", session 2
   There is no value: what stands is a deletion.
   Homes 0 and 1 answered.
   No home had to be mended.
   The context for a put that follows is n0:1-2.
   Step 13: node 0 answered what it holds of "a" for itself.
   Step 14: node 1 answered what it holds of "a" for itself.
   Step 15: node 2 answered what it holds of "a" for itself.
   The get of session 2 used the fetches of steps 13 and 14.

Held, where 'for 1' is a hint for home 1:
key  node 0  node 1  node 2
"a"  n0:2    n0:2    n0:2

Acknowledged puts and deletes:
key  version  command  wanted  covered for homes
"a"  n0:1     2        2       0, 1 and 2
"a"  n0:2     3        1       0, 1 and 2

Sums: 3 versions held, 2 puts acknowledged, 1 get answered, 15 steps made.
"""
OBJECTS: List[Tuple[int, Object]] = [
    (1, {"kind": "cluster", "n": 3, "r": 2, "w": 2,
         "words": "Each key has 3 homes; a get wants 2, and a put 2."}),
    (2, {"kind": "token", "position": "2" + "0" * 31, "node": 0,
         "words": f"Node 0 has a token at 2{'0' * 31}."}),
    (9, {"kind": "step", "number": 1, "command": 2, "step": "issue", "node": 0, "key": "a",
         "keyhex": "61", "dot": "n0:1", "follows": "-", "value": "x", "valuehex": "78",
         "words": 'Step 1: node 0 made n0:1 of "a" = "x", behind no other version.'}),
    (12, {"kind": "step", "number": 4, "command": 2, "step": "hold", "holder": 3, "home": 1,
          "key": "a", "keyhex": "61", "dots": "n0:1",
          "words": 'Step 4: node 3 merged n0:1 of "a" into what it holds for home 1.'}),
    (15, {"kind": "step", "number": 6, "command": 3, "step": "issue", "node": 0, "key": "a",
          "keyhex": "61", "dot": "n0:2", "follows": "n0:1",
          "words": 'Step 6: node 0 made n0:2 of "a", a deletion, behind n0:1.'}),
    (19, {"kind": "step", "number": 10, "command": 3, "step": "ack", "key": "a", "keyhex": "61",
          "dot": "n0:2", "wanted": 1, "session": 2,
          "words": "Step 10: session 2 was told that 1 home has n0:2, which the delete made."}),
    (23, {"kind": "step", "number": 12, "command": 5, "step": "release", "holder": 3, "home": 1,
          "key": "a", "keyhex": "61", "dot": "n0:2",
          "words": 'Step 12: node 3 gave up n0:2 of its hint of "a" for home 1.'}),
    (25, {"kind": "step", "number": 13, "command": 6, "step": "fetch", "holder": 0, "home": 0,
          "key": "a", "keyhex": "61",
          "words": 'Step 13: node 0 answered what it holds of "a" for itself.'}),
    (28, {"kind": "told", "command": 6, "numbers": [13, 14], "session": 2,
          "words": "The get of session 2 used the fetches of steps 13 and 14."}),
]

# Which line is another one, what stands there, and the first thing that is said of it.
STRANGERS: List[Tuple[int, str, str]] = [
    (1, "cluster n 3 r 1 w 2", "line 1: the script has n 3, r 2 and w 2"),
    (2, "cluster n 3 r 2 w 2", "line 2: it is not the first line"),
    (8, "cluster n 3 r 2 w 2", "line 8: it is not the first line"),
    (6, "token f0000000000000000000000000000000 5",
     "line 6: there is no node 5; the script has 5 nodes"),
    (6, "step 1 hold 0/0 61 n0:1", "line 6: no command stands before it"),
    (9, "step 1 issue 5 61 n0:1 behind - value 78",
     "line 9: there is no node 5; the script has 5 nodes"),
    (9, "step 1 issue 0 61 n0:1 behind - value 79", "line 9: command 2 has another value"),
    (9, "step 1 issue 0 61 n0:1 behind - deleted", "line 9: command 2 has another value"),
    (9, "step 1 issue 0 61 n0:2 behind - value 78", 'line 9: command 2 did not make n0:2 of "a"'),
    (9, "step 1 issue 0 61 n0:1 behind -", "line 9: no known form"),
    (10, "step 3 hold 0/0 61 n0:1", "line 10: no line before it tells step 2"),
    (10, "step 4 hold 0/0 61 n0:1", "line 10: no line before it tells steps 2 to 3"),
    (10, "step 1 hold 0/0 61 n0:1", "line 10: step 1 comes again, or too late"),
    (10, "step 2 hold 0/0 62 n0:1", 'line 10: command 2 has nothing to do with the key "b"'),
    (22, "step 11 hold 1/1 62 n0:2", 'line 22: command 5 has nothing to do with the key "b"'),
    (13, "step 5 ack 61 n0:1 w 3 session 0", "line 13: command 2 wants 2, in session 0"),
    (13, "step 5 ack 61 n0:1 w 2 session 1", "line 13: command 2 wants 2, in session 0"),
    (23, "step 12 ack 61 n0:2 w 1 session 2", 'line 23: command 5 did not make n0:2 of "a"'),
    (28, "told 13 14 session 0", "line 28: command 6 is no get of session 0"),
    (28, "told 12 13 session 2", "line 28: step 12 is no fetch of command 6"),
    (19, "told 10 session 2", "line 19: command 3 is no get of session 2"),
    (29, "step 16 fetch 3/3 61", "line 34: the lines before it have held 2, not 3, steps 16, not 15"),
    (30, "step 16 fetch 3/3 61", "line 30: a step comes behind the audit"),
    (34, "end held 3 acked 2 gets 1 steps 14",
     "line 34: the lines before it have steps 15, not 14"),
]


def line_again(it: Object) -> str:
    """Returns the line that an object tells, where only an output with steps has such a line."""
    if it["kind"] == "cluster":
        return f"cluster n {it['n']} r {it['r']} w {it['w']}"
    if it["kind"] == "told":
        return f"told {' '.join(map(str, it['numbers']))} session {it['session']}"
    head, key = f"step {it['number']} {it['step']}", it["keyhex"]
    if it["step"] == "issue":
        value = f"value {it['valuehex']}".rstrip() if "valuehex" in it else "deleted"
        return f"{head} {it['node']} {key} {it['dot']} behind {it['follows']} {value}"
    if it["step"] == "ack":
        return f"{head} {key} {it['dot']} w {it['wanted']} session {it['session']}"
    dots = "".join(f" {it[name]}" for name in ("dots", "dot") if name in it)
    return f"{head} {it['holder']}/{it['home']} {key}{dots}"


def told(output: str, is_json: bool) -> Telling:
    return tell(json.dumps(SCRIPT).encode("utf-8"), output, MEANINGS, is_json)


def scene_checks() -> Iterator[Check]:
    """Checks that each line of a scene is explained, and is written again from its object."""
    for name, output in SCENES.items():
        lines = [line for line in output.split("\n") if line]
        given = (SCRIPTS / f"{name}.json").read_bytes(), "\n".join(lines) + "\n", MEANINGS
        telling = tell(*given, True)
        yield f"{name} with steps", telling.complaints, []
        objects = map(json.loads, telling.lines)
        for line, it in zip(lines, objects):
            if it["kind"] in ("cluster", "step", "told"):
                yield f"{name} with steps: {line}", line_again(it), line
        text = tell(*given, False).lines
        of_steps = ("cluster", "token", "step", "told")
        plain = [line for line in lines if line.split()[0] not in of_steps]
        without = tell(given[0], "\n".join(plain) + "\n", MEANINGS, False).lines
        kept = [line for line in text if line in without]
        yield f"{name} with steps: the rest of its text", kept, without


def step_checks() -> Iterator[Check]:
    """Checks a whole text, objects, lines that do not belong, and an output that ends early."""
    yield "a text with steps", told(OUTPUT, False), Telling(TEXT.splitlines(), [])
    objects = told(OUTPUT, True).lines
    for number, wanted in OBJECTS:
        told_of = json.loads(objects[number - 1])
        yield f"line {number} with steps", told_of, {"line": number, **wanted}
    lines = OUTPUT.splitlines()
    for number, line, wanted in STRANGERS:
        output = "\n".join([*lines[: number - 1], line, *lines[number:]]) + "\n"
        said = told(output, True).complaints[0]
        yield f"{line} at {number}", said.startswith(f"{wanted}: "), True
    cut = told("\n".join(lines[:24]) + "\n", False)
    end = "The output ends here, before the audit."
    yield "steps without the rest", (cut.lines[-1], cut.complaints), (end, [])
    yield from scene_checks()
