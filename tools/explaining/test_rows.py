"""The tables of tools/explain_test: scripts and what is printed of them, with what is said of it.

All of it is by hand, from docs/FORMATS.md. What a refusal means is read from docs/REFUSALS.md.
"""
import pathlib
from typing import Any, Dict, List, Tuple

from reading.rules import MAX_KEY_BYTES, MAX_VALUE_BYTES

PAGE = pathlib.Path(__file__).resolve().parent.parent.parent / "docs/REFUSALS.md"
TOKENS = [["20"], ["60"], ["a0"], ["d0"], ["f0"]]
HEAD = {"n": 3, "r": 2, "w": 2, "tokens": TOKENS}
ALONE = {"n": 1, "r": 1, "w": 1, "tokens": [["20"]]}
Row = Tuple[str, Dict[str, Any], List[Dict[str, Any]], List[str], List[str]]


def put(value: str, **more: object) -> Dict[str, Any]:
    return {"do": "put", "key": "a", "value": value, **more}


def at(word: str, node: int, **more: object) -> Dict[str, Any]:
    return {"do": word, "node": node, **more}


def held(*places: str, dots: str = "n0:1") -> List[str]:
    return [f"held {place} 61 {dots}" for place in places]


def meant(text: str, told: str = "") -> str:
    """Returns what is said of a refusal, with what is told of this one between its parts."""
    name = " ".join(text.split()[:2])
    row = PAGE.read_text(encoding="utf-8").split(f"\n| {name} | ")[1].split("\n")[0]
    cause, stands, to_do = row.split(" | ")[:3]
    return f"Refused with {text}: {cause}. {told}What stands after: {stands}. What to do: {to_do}."


GET = {"do": "get", "key": "a"}
STORED = "0/0=stored 1/1=stored 2/2=stored"
PUT = f"1 put ok n0:1 answers {STORED}"
HOMES = ["0/0", "1/1", "2/2"]
ACKED = "acked 61 n0:1 covered 0/0 1/1 2/2"
ALL_STORED = "3 homes have it, and 2 were wanted. Homes 0, 1 and 2 stored it."
MADE = "Acknowledged: node 0 made the version"
NONE_MENDED = "No home had to be mended."
MAY_HAVE = "did not answer, and may have it all the same."
NOTHING = "end held 0 acked 0 gets 0 steps 0"

ALL_DOWN = (
    "Home 1 was down. Home 2 was down. Node 3, asked in place of home 1, was down. "
    "Node 4, asked in place of home 2, was down."
)
STEPS = "E12 StepsFull means: the call's steps would pass the limit."

# What PROGRAM prints of each script, and what is said of its last commands.
PLAYED: List[Row] = [
    (
        "a plain put", {}, [put("x")],
        [PUT, *held(*HOMES), ACKED, "end held 3 acked 1 gets 0 steps 5"],
        [f"{MADE} n0:1; {ALL_STORED}"],
    ),
    (
        "a put with a stand-in", {}, [at("down", 0), put("x")],
        ["1 down ok", "2 put ok n1:1 answers 1/1=stored 0/0=down 2/2=stored 3/0=stored",
         *held("1/1", "2/2", "3/0", dots="n1:1"), "acked 61 n1:1 covered 3/0 1/1 2/2",
         "end held 3 acked 1 gets 0 steps 5"],
        ["Node 0 is down: whoever asks it is told so.",
         "Acknowledged: node 1 made the version n1:1; 3 homes have it, and 2 were wanted. "
         "Homes 1 and 2 stored it. Node 3 stood in for home 0. Home 0 was down."],
    ),
    (
        "a home that does not answer", {}, [at("fault", 1, mode="mute"), put("x")],
        ["1 fault ok", "2 put ok n0:1 answers 0/0=stored 1/1=noanswer 2/2=stored 3/1=stored",
         *held(*HOMES, "3/1"), "acked 61 n0:1 covered 0/0 1/1 3/1 2/2",
         "end held 4 acked 1 gets 0 steps 6"],
        [f"{MADE} n0:1; 3 homes have it, and 2 were wanted. Homes 0 and 2 stored it. "
         f"Node 3 stood in for home 1. Home 1 {MAY_HAVE}"],
    ),
    (
        "a home that answers late", {}, [at("fault", 1, mode="late"), put("x")],
        ["1 fault ok",
         "2 put ok n0:1 answers 0/0=stored 1/1=noanswer 2/2=stored 3/1=stored 1/1=stored",
         *held(*HOMES, "3/1"), "acked 61 n0:1 covered 0/0 1/1 3/1 2/2",
         "end held 4 acked 1 gets 0 steps 6"],
        [f"{MADE} n0:1; {ALL_STORED} Node 3 stood in for home 1. Home 1 answered late."],
    ),
    (
        "what a node kept", {},
        [at("fault", 1, mode="delay"), put("x"), at("deliver", 1), at("deliver", 1)],
        ["1 fault ok", "2 put ok n0:1 answers 0/0=stored 1/1=noanswer 2/2=stored 3/1=stored",
         "3 deliver ok 1", "4 deliver ok 0", *held(*HOMES, "3/1"),
         "acked 61 n0:1 covered 0/0 1/1 3/1 2/2", "end held 4 acked 1 gets 0 steps 6"],
        ["Node 1 stored 1 message that it had kept.", "Node 1 had kept no message."],
    ),
    (
        "a deletion", {}, [put("x"), {"do": "delete", "key": "a", "context": "n0:1"}, GET],
        [PUT, f"2 delete ok n0:2 answers {STORED}",
         "3 get ok context n0:1-2 from 0/0 1/1 values none", *held(*HOMES, dots="n0:2"), ACKED,
         ACKED.replace("n0:1", "n0:2"), "end held 3 acked 2 gets 1 steps 13"],
        [f"{MADE} n0:2; {ALL_STORED}",
         "There is no value: what stands is a deletion. Homes 0 and 1 answered. "
         f"{NONE_MENDED} The context for a put that follows is n0:1-2."],
    ),
    (
        "siblings", {}, [put("x"), put("y"), GET],
        [PUT, f"2 put ok n0:2 answers {STORED}",
         "3 get ok context n0:1-2 from 0/0 1/1 values n0:1=78 n0:2=79",
         *held(*HOMES, dots="n0:1-2"), ACKED, ACKED.replace("n0:1", "n0:2"),
         "end held 6 acked 2 gets 1 steps 13"],
        ['2 values stand beside each other: "x" (n0:1, put by command 1) and "y" (n0:2, put by '
         "command 2). A put with the context of this get reconciles them. Homes 0 and 1 answered. "
         f"{NONE_MENDED} The context for a put that follows is n0:1-2."],
    ),
    (
        "a home that is mended, and a hint that is handed over", {},
        [at("down", 1), put("x"), at("up", 1), GET, at("show", 3, key="a"), at("handoff", 3),
         at("handoff", 3)],
        ["1 down ok", "2 put ok n0:1 answers 0/0=stored 1/1=down 2/2=stored 3/1=stored", "3 up ok",
         "4 get ok context n0:1 from 0/0 1/1 values n0:1=78", "5 show 3 own - for 1 n0:1",
         "6 handoff ok offers 1 stored 1 released 1", "7 handoff ok offers 0 stored 0 released 0",
         *held(*HOMES), ACKED, "end held 3 acked 1 gets 1 steps 11"],
        ["Node 1 is up, with what it held before.",
         'The value is "x" (n0:1, put by command 2). Homes 0 and 1 answered. Mended: home 1, which '
         "had another row and was asked to hold the merged one. The context for a put that follows "
         "is n0:1.",
         'Node 3 holds of "a": nothing for itself and n0:1 for home 1.',
         "Node 3 offered 1 hint to its home: receipts came for 1, and 1 version left its hints.",
         "Node 3 had no hint to hand over."],
    ),
    (
        "a hint that its home does not take", {}, [at("down", 1), put("x"), at("handoff", 3)],
        ["1 down ok", "2 put ok n0:1 answers 0/0=stored 1/1=down 2/2=stored 3/1=stored",
         "3 handoff ok offers 1 stored 0 released 0", *held("0/0", "2/2", "3/1"),
         "acked 61 n0:1 covered 0/0 3/1 2/2", "end held 3 acked 1 gets 0 steps 5"],
        ["Node 3 offered 1 hint to its home: receipts came for 0, and 0 versions left its hints. "
         "Hints without a receipt stay until a later pass."],
    ),
    (
        "a put that names its own number of homes", {}, [put("x", w=1)],
        [PUT, *held(*HOMES), ACKED.replace(" covered", " w 1 covered"),
         "end held 3 acked 1 gets 0 steps 5"],
        [f"{MADE} n0:1; 3 homes have it, and 1 was wanted. Homes 0, 1 and 2 stored it."],
    ),
    (
        "a home that had stored without an answer", {},
        [at("fault", 1, mode="mute"), put("x"), at("fault", 1, mode="none"), GET],
        ["1 fault ok", "2 put ok n0:1 answers 0/0=stored 1/1=noanswer 2/2=stored 3/1=stored",
         "3 fault ok", "4 get ok context n0:1 from 0/0 1/1 values n0:1=78", *held(*HOMES, "3/1"),
         "acked 61 n0:1 covered 0/0 1/1 3/1 2/2", "end held 4 acked 1 gets 1 steps 9"],
        ['The value is "x" (n0:1, put by command 2). Homes 0 and 1 answered. '
         f"{NONE_MENDED} The context for a put that follows is n0:1."],
    ),
    (
        "a hint of two versions, offered twice", {},
        [at("down", 1), put("x"), put("y"), at("up", 1), at("fault", 1, mode="mute"),
         at("handoff", 3), at("fault", 1, mode="none"), at("handoff", 3), GET],
        ["1 down ok", "2 put ok n0:1 answers 0/0=stored 1/1=down 2/2=stored 3/1=stored",
         "3 put ok n0:2 answers 0/0=stored 1/1=down 2/2=stored 3/1=stored", "4 up ok", "5 fault ok",
         "6 handoff ok offers 1 stored 0 released 0", "7 fault ok",
         "8 handoff ok offers 1 stored 1 released 2",
         "9 get ok context n0:1-2 from 0/0 1/1 values n0:1=78 n0:2=79",
         *held(*HOMES, dots="n0:1-2"), ACKED, ACKED.replace("n0:1", "n0:2"),
         "end held 6 acked 2 gets 1 steps 17"],
        ["Node 3 offered 1 hint to its home: receipts came for 1, and 2 versions left its hints.",
         '2 values stand beside each other: "x" (n0:1, put by command 2) and "y" (n0:2, put by '
         "command 3). A put with the context of this get reconciles them. Homes 0 and 1 answered. "
         f"{NONE_MENDED} The context for a put that follows is n0:1-2."],
    ),
    (
        "a get from a stand-in", {"r": 3}, [put("x"), at("down", 1), GET],
        [PUT, "2 down ok", "3 get ok context n0:1 from 0/0 2/2 3/1 values n0:1=78", *held(*HOMES),
         ACKED, "end held 3 acked 1 gets 1 steps 8"],
        ['The value is "x" (n0:1, put by command 1). Homes 0 and 2 answered. Node 3 stood in for '
         f"home 1. {NONE_MENDED} The context for a put that follows is n0:1."],
    ),
    (
        "a key that nobody wrote", {}, [GET],
        ["1 get ok context - from 0/0 1/1 values none", "end held 0 acked 0 gets 1 steps 3"],
        ["There is no value: those who answered hold no version of the key. Homes 0 and 1 "
         f"answered. {NONE_MENDED} The context for a put that follows is -."],
    ),
    (
        "bytes that are no text", ALONE,
        [{"do": "put", "key": "a", "valuehex": "00FF"}, GET, put("", context="n0:1"), GET],
        ["1 put ok n0:1 answers 0/0=stored", "2 get ok context n0:1 from 0/0 values n0:1=00ff",
         "3 put ok n0:2 answers 0/0=stored", "4 get ok context n0:1-2 from 0/0 values n0:2=",
         *held("0/0", dots="n0:2"), "acked 61 n0:1 covered 0/0", "acked 61 n0:2 covered 0/0",
         "end held 1 acked 2 gets 2 steps 8"],
        ["The value is hex 00ff (n0:1, put by command 1). Home 0 answered. "
         f"{NONE_MENDED} The context for a put that follows is n0:1.",
         f"{MADE} n0:2; 1 home has it, and 1 was wanted. Home 0 stored it.",
         'The value is "" (n0:2, put by command 3). Home 0 answered. '
         f"{NONE_MENDED} The context for a put that follows is n0:1-2."],
    ),
    (
        "modes", {},
        [at("fault", 4, mode=mode) for mode in ("none", "mute", "late", "repeat", "delay")],
        [*(f"{number} fault ok" for number in range(1, 6)), NOTHING],
        ["From now on node 4 does what it is asked, and answers.",
         "From now on node 4 does what it is asked, and no answer comes.",
         "From now on node 4 does what it is asked, and its answer follows behind all others.",
         "From now on node 4 does three times what it is asked, and its last answer counts.",
         "From now on node 4 keeps what it is asked to store for a later deliver, and no answer "
         "comes."],
    ),
    ("E1", {}, [put("x", context="n0:1,2")], ["1 put E1 ContextSyntax", NOTHING],
     [meant("E1 ContextSyntax")]),
    (
        "E2", {},
        [put("x", key=""), {"do": "get", "key": "k" * (MAX_KEY_BYTES + 1)}, at("show", 0, key="")],
        ["1 put E2 KeySize", "2 get E2 KeySize", "3 show E2 KeySize", NOTHING],
        [meant("E2 KeySize")] * 3,
    ),
    ("E3", {}, [put("x" * (MAX_VALUE_BYTES + 1))], ["1 put E3 ValueSize", NOTHING],
     [meant("E3 ValueSize")]),
    (
        "E7", {"limits": {"counter": 1}}, [put("x"), put("y")],
        [PUT, "2 put E7 CounterFull", *held(*HOMES), ACKED, "end held 3 acked 1 gets 0 steps 5"],
        [meant("E7 CounterFull")],
    ),
    ("E8", {}, [put("x", context="n2:7")], ["1 put E8 ContextUnknown n2:7", NOTHING],
     [meant("E8 ContextUnknown n2:7")]),
    (
        "E9", {"limits": {"versions": 1}}, [put("x"), put("y")],
        [PUT, "2 put E9 VersionsFull", *held(*HOMES), ACKED, "end held 3 acked 1 gets 0 steps 5"],
        [meant("E9 VersionsFull")],
    ),
    ("E12 of a put", {"limits": {"steps": 1}}, [put("x")], ["1 put E12 StepsFull", NOTHING],
     [meant("E12 StepsFull")]),
    (
        "E12 of a put that made its version", {"limits": {"steps": 4}}, [put("x"), GET],
        ["1 put E12 StepsFull after n0:1", "2 get E12 StepsFull", *held(*HOMES),
         "end held 3 acked 0 gets 0 steps 4"],
        [meant("E12 StepsFull", "The version n0:1 was made, and is not acknowledged. "),
         meant("E12 StepsFull")],
    ),
    (
        "E12 of a delivery", {"limits": {"steps": 5}},
        [at("fault", 1, mode="delay"), put("x"), at("deliver", 1)],
        ["1 fault ok", "2 put ok n0:1 answers 0/0=stored 1/1=noanswer 2/2=stored 3/1=stored",
         "3 deliver E12 StepsFull", *held("0/0", "2/2", "3/1"), "acked 61 n0:1 covered 0/0 3/1 2/2",
         "end held 3 acked 1 gets 0 steps 5"],
        [meant("E12 StepsFull")],
    ),
    (
        "E13", {}, [at("down", 0), at("deliver", 0), at("handoff", 0)],
        ["1 down ok", "2 deliver E13 Down", "3 handoff E13 Down", NOTHING], [meant("E13 Down")] * 2,
    ),
    (
        "E14", ALONE, [at("down", 0), put("x"), GET],
        ["1 down ok", "2 put E14 NoNode", "3 get E14 NoNode", NOTHING], [meant("E14 NoNode")] * 2,
    ),
    (
        "E15", {}, [*(at("down", node) for node in range(1, 5)), put("x"), GET],
        [*(f"{number} down ok" for number in range(1, 5)),
         "5 put E15 NotEnough n0:1 answers 0/0=stored 1/1=down 2/2=down 3/1=down 4/2=down",
         "6 get E15 NotEnough answers 0/0=rows 1/1=down 2/2=down 3/1=down 4/2=down",
         *held("0/0"), "end held 1 acked 0 gets 0 steps 3"],
        [meant("E15 NotEnough", "Node 0 made the version n0:1, which is not acknowledged: 1 home "
               f"has it, and 2 were wanted. Home 0 stored it. {ALL_DOWN} "),
         meant("E15 NotEnough",
               f"1 home answered, and 2 were wanted. Home 0 answered. {ALL_DOWN} ")],
    ),
    (
        "E12 of homes", {"limits": {"steps": 6}}, [put("x"), GET],
        [PUT, "2 get E15 NotEnough answers 0/0=rows 1/1=E12 2/2=E12 3/1=E12 4/2=E12",
         *held(*HOMES), ACKED, "end held 3 acked 1 gets 0 steps 6"],
        [meant("E15 NotEnough", "1 home answered, and 2 were wanted. Home 0 answered. Home 1 "
               "refused with E12. Home 2 refused with E12. Node 3, asked in place of home 1, "
               f"refused with E12. Node 4, asked in place of home 2, refused with E12. {STEPS} ")],
    ),
    ("E16", {}, [put("x", w=4)], ["1 put E16 BadQuorum", NOTHING], [meant("E16 BadQuorum")]),
]

# Lines of a run to which memory was refused, as of no run that a test can count on.
MADE_UP: List[Row] = [
    (
        "E0", {},
        [put("x"), put("y"), GET, at("deliver", 0), at("handoff", 0), at("show", 0, key="a")],
        ["1 put E0 OutOfMemory", "2 put E0 OutOfMemory after n0:1", "3 get E0 OutOfMemory",
         "4 deliver E0 OutOfMemory", "5 handoff E0 OutOfMemory", "6 show E0 OutOfMemory",
         *held(*HOMES), "end held 3 acked 0 gets 0 steps 4"],
        [meant("E0 OutOfMemory"),
         meant("E0 OutOfMemory", "The version n0:1 was made, and is not acknowledged. "),
         *[meant("E0 OutOfMemory")] * 4],
    ),
    (
        "E0 of a home", {}, [put("x")],
        ["1 put ok n0:1 answers 0/0=stored 1/1=E0 2/2=stored 3/1=stored",
         *held("0/0", "2/2", "3/1"), "acked 61 n0:1 covered 0/0 3/1 2/2",
         "end held 3 acked 1 gets 0 steps 5"],
        [f"{MADE} n0:1; 3 homes have it, and 2 were wanted. Homes 0 and 2 stored it. Node 3 stood "
         "in for home 1. Home 1 refused with E0. E0 OutOfMemory means: memory was refused to the "
         "call."],
    ),
    (
        "a get before a put that tells no answers", {},
        [put("x"), GET, put("y")],
        [PUT, "2 get ok context n0:1 from 0/0 1/1 values n0:1=78",
         "3 put E0 OutOfMemory after n0:2",
         *held(*HOMES, dots="n0:1-2"), ACKED, "end held 6 acked 1 gets 1 steps 12"],
        ['The value is "x" (n0:1, put by command 1). Homes 0 and 1 answered. The output does not '
         "say which homes had another row, and were mended. The context for a put that follows is "
         "n0:1.",
         meant("E0 OutOfMemory", "The version n0:2 was made, and is not acknowledged. ")],
    ),
]

ENDED = "The run ended here. "
OF_ITSELF = "The fault is in its own members, or it is no JSON. "
TWICE = [["20"], ["20"], ["a0"]]
WALK = [GET, {"do": "walk"}]

# A script, the line of standard error of its run, and what is said of that.
REFUSED: List[Tuple[str, Any, str, str]] = [
    ("clash", {**HEAD, "tokens": TWICE}, f"dynamo: E4 TokenClash 2{'0' * 31}",
     ENDED + meant(f"E4 TokenClash 2{'0' * 31}")),
    ("no token", {**HEAD, "tokens": [["20"], []]}, "dynamo: E5 NodeWithoutToken 1",
     ENDED + meant("E5 NodeWithoutToken 1")),
    ("limit", {**HEAD, "limits": {"steps": 0}}, "dynamo: E6 TooMany", ENDED + meant("E6 TooMany")),
    ("quorum", {**HEAD, "w": 4}, "dynamo: E16 BadQuorum", ENDED + meant("E16 BadQuorum")),
    ("no JSON", "{", "dynamo: E17 ScriptSyntax 0",
     ENDED + meant("E17 ScriptSyntax 0", OF_ITSELF)),
    ("brackets", "[" * 5000, "dynamo: E17 ScriptSyntax 0",
     ENDED + meant("E17 ScriptSyntax 0", OF_ITSELF)),
    ("a member", {**HEAD, "run": [GET, {"do": "get"}]}, "dynamo: E17 ScriptSyntax 2",
     ENDED + meant("E17 ScriptSyntax 2", 'Command 2 of the script is {"do": "get"}. ')),
    ("a word", {**HEAD, "run": WALK}, "dynamo: E18 UnknownCommand 2",
     ENDED + meant("E18 UnknownCommand 2", 'Command 2 of the script is {"do": "walk"}. ')),
]
