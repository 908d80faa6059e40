"""Each refusal that a store can meet, as the client raises it (docs/REFUSALS.md)."""
from typing import Any, Callable, Dict, List, NamedTuple, Optional

from meldakwi import Answer, Ended, Refused, Store

from reading.rules import MAX_KEY_BYTES, MAX_VALUE_BYTES
from serving.checks import TOKENS, Test

DOWN = [Answer(1, 1, "down"), Answer(2, 2, "down"), Answer(3, 1, "down"), Answer(4, 2, "down")]
ALL_BUT_HOME = [1, 2, 3, 4]
ALL = [0, 1, 2, 3, 4]
# More bytes than there may be, though not more characters.
LONG_KEY, LONG_VALUE = "é" * (MAX_KEY_BYTES // 2 + 1), "é" * (MAX_VALUE_BYTES // 2 + 1)


class Case(NamedTuple):
    """What is refused, in which store, with which nodes down, and after which puts of the key a."""

    number: int
    name: str
    call: Callable[[Store], object]
    text: str
    words: Dict[str, Any] = {}
    down: List[int] = []
    puts: int = 0
    dot: Optional[str] = None
    answers: List[Answer] = []


def limits(**of: int) -> Dict[str, Any]:
    return {"limits": of}


def put(store: Store, context: Optional[str] = None, w: Optional[int] = None) -> object:
    return store.put("a", "x", context=context, w=w)


def script(number: int) -> str:
    return f"E17 ScriptSyntax {number}"


# The first command of a store has the number 2: the client asks one thing itself.
CASES = [
    Case(1, "ContextSyntax", lambda it: put(it, "n0:1,2"), "put E1 ContextSyntax"),
    Case(1, "ContextSyntax", lambda it: it.delete("a", "n0"), "delete E1 ContextSyntax"),
    Case(1, "ContextSyntax", lambda it: put(it, ""), "put E1 ContextSyntax"),
    Case(2, "KeySize", lambda it: it.get(""), "get E2 KeySize"),
    Case(2, "KeySize", lambda it: it.put(LONG_KEY, "x"), "put E2 KeySize"),
    Case(2, "KeySize", lambda it: it.delete(b"a" * (MAX_KEY_BYTES + 1)), "delete E2 KeySize"),
    Case(2, "KeySize", lambda it: it.show(0, ""), "show E2 KeySize"),
    Case(3, "ValueSize", lambda it: it.put("a", bytes(MAX_VALUE_BYTES + 1)), "put E3 ValueSize"),
    Case(3, "ValueSize", lambda it: it.put("a", LONG_VALUE), "put E3 ValueSize"),
    Case(7, "CounterFull", put, "put E7 CounterFull", limits(counter=1), puts=1),
    Case(8, "ContextUnknown", lambda it: put(it, "n2:7-8"), "put E8 ContextUnknown n2:7"),
    Case(9, "VersionsFull", put, "put E9 VersionsFull", limits(versions=2), puts=2),
    Case(9, "VersionsFull", lambda it: it.delete("b"), "delete E9 VersionsFull",
         limits(versions=1), puts=1),
    Case(12, "StepsFull", put, "put E12 StepsFull", limits(steps=1)),
    Case(12, "StepsFull", put, "put E12 StepsFull after n0:1", limits(steps=4), dot="n0:1"),
    Case(12, "StepsFull", lambda it: it.get("a"), "get E12 StepsFull", limits(steps=5), puts=1),
    Case(13, "Down", lambda it: it.handoff(3), "handoff E13 Down", down=[3]),
    Case(13, "Down", lambda it: it.deliver(3), "deliver E13 Down", down=[3]),
    Case(14, "NoNode", put, "put E14 NoNode", down=ALL),
    Case(14, "NoNode", lambda it: it.get("a"), "get E14 NoNode", down=ALL),
    Case(15, "NotEnough", put,
         "put E15 NotEnough n0:1 answers 0/0=stored 1/1=down 2/2=down 3/1=down 4/2=down",
         down=ALL_BUT_HOME, dot="n0:1", answers=[Answer(0, 0, "stored"), *DOWN]),
    Case(15, "NotEnough", lambda it: it.delete("a"),
         "delete E15 NotEnough n0:1 answers 0/0=stored 1/1=down 2/2=down 3/1=down 4/2=down",
         down=ALL_BUT_HOME, dot="n0:1", answers=[Answer(0, 0, "stored"), *DOWN]),
    Case(15, "NotEnough", lambda it: it.get("a"),
         "get E15 NotEnough answers 0/0=rows 1/1=down 2/2=down 3/1=down 4/2=down",
         down=ALL_BUT_HOME, answers=[Answer(0, 0, "rows"), *DOWN]),
    Case(16, "BadQuorum", lambda it: put(it, w=0), "put E16 BadQuorum"),
    Case(16, "BadQuorum", lambda it: it.delete("a", w=4), "delete E16 BadQuorum"),
    Case(17, "ScriptSyntax", lambda it: it.down(5), script(2)),
    Case(17, "ScriptSyntax", lambda it: it.up(-1), script(2)),
    Case(17, "ScriptSyntax", lambda it: it.show(32, "a"), script(2)),
    Case(17, "ScriptSyntax", lambda it: it.fault(0, "asleep"), script(2)),
    Case(17, "ScriptSyntax", lambda it: put(it, w=256), script(3), down=[3]),
    Case(17, "ScriptSyntax", lambda it: it.get("a", session=32), script(4), down=[3, 4]),
    Case(17, "ScriptSyntax", lambda it: it.put("a", "x", session=32), script(2)),
    Case(17, "ScriptSyntax", lambda it: it.delete("a", session=32), script(2)),
    Case(17, "ScriptSyntax", lambda it: it.call("get"), script(2)),
    Case(17, "ScriptSyntax", lambda it: it.call("get", key="a", kye="b"), script(2)),
    Case(18, "UnknownCommand", lambda it: it.call("walk"), "E18 UnknownCommand 2"),
    Case(18, "UnknownCommand", lambda it: it.call("Put", key="a", value="x"),
         "E18 UnknownCommand 2"),
]

# Scripts that are refused: what is wrong with them, and what the program says.
SCRIPTS = [
    ({"tokens": [["20"], ["20"]]}, "E4 TokenClash 20000000000000000000000000000000"),
    ({"tokens": [["20"], []]}, "E5 NodeWithoutToken 1"),
    ({"tokens": []}, "E5 NodeWithoutToken 0"),
    ({"tokens": None, "derived": (33, 1)}, "E6 TooMany"),
    ({"limits": {"versions": 0}}, "E6 TooMany"),
    ({"w": 4}, "E16 BadQuorum"),
    ({"tokens": ["20"]}, "E17 ScriptSyntax 0"),
    ({"tokens": [["2"]]}, "E17 ScriptSyntax 0"),
    ({"tokens": None}, "E17 ScriptSyntax 0"),
    ({"derived": (5, 1)}, "E17 ScriptSyntax 0"),
    ({"limits": {"puts": 1}}, "E17 ScriptSyntax 0"),
]


def test_refusals(test: Test) -> None:
    for case in CASES:
        with Store(**{"tokens": TOKENS, "program": test.program, **case.words}) as store:
            for _ in range(case.puts):
                put(store)
            for node in case.down:
                store.down(node)
            name = f"the refusal '{case.text}'"
            test.raises(name, Refused, lambda: case.call(store), number=case.number,
                        name=case.name, dot=case.dot, answers=case.answers, args=(case.text,))
            test.same(f"{name}, and a command after it", store.up(0), None)


def test_scripts(test: Test) -> None:
    for words, text in SCRIPTS:
        given = {"tokens": TOKENS, "program": test.program, **words}
        test.raises(f"a script with {words}", Ended, lambda: Store(**given), status=2,
                    error=f"dynamo: {text}\n")


PARTS = [test_refusals, test_scripts]
