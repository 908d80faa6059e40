"""Each method of the client for Python: what it returns, by docs/FORMATS.md and by hand.

The key `a` has the homes 0, 1 and 2, and the stand-ins 3 and 4; `abc` has the homes 2, 3 and 4.
"""
import threading
from typing import Any, List

from meldakwi import Answer, Ended, Got, Passed, Place, Put, Refused, Shown, Store

from reading.rules import COMMANDS, MAX_KEY_BYTES, MAX_VALUE_BYTES, MODES
from serving.checks import TOKENS, TOP, Test

STORED = [Answer(0, 0, "stored"), Answer(1, 1, "stored"), Answer(2, 2, "stored")]
FIRST_TWO = [Place(0, 0), Place(1, 1)]
THREADS, TURNS = 8, 20
# What commands are given that need it, or the value that they may have.
GIVEN = {"key": "a", "node": 3, "mode": "none", "value": "x"}
TEXTS = ["ключ", "é" * (MAX_KEY_BYTES // 2), "😀", "\0", "\"\\/\n\r\t\b\f", "\u2028\x7f",
         "a" * MAX_KEY_BYTES, " "]
VALUES = [b"", b"\xff\0\n\r", bytes(range(256)), b"\xff" * MAX_VALUE_BYTES, b"none", b"n0:1=78"]
VALUE_TEXTS = ["", "\0", "é" * (MAX_VALUE_BYTES // 2), "x" * MAX_VALUE_BYTES, "\"\\\n\u2028"]


def store_of(test: Test, **words: Any) -> Store:
    return Store(**{"tokens": TOKENS, "program": test.program, **words})


def test_puts_and_gets(test: Test) -> None:
    with store_of(test) as store:
        first = store.put("a", "x")
        test.same("a put", first, Put("n0:1", STORED))
        test.same("a get", store.get("a"), Got([b"x"], ["n0:1"], "n0:1", FIRST_TWO))
        test.same("a put that follows it", store.put("a", "y", first.context), Put("n0:2", STORED))
        test.same("its get", store.get("a"), Got([b"y"], ["n0:2"], "n0:1-2", FIRST_TWO))
        store.put("a", b"z", context=first.context)
        siblings = Got([b"y", b"z"], ["n0:2", "n0:3"], "n0:1-3", FIRST_TWO)
        test.same("siblings", store.get("a"), siblings)
        united = store.put("a", "yz", context=siblings.context)
        test.same("siblings united", store.get("a").values, [b"yz"])
        store.put("a", "q", context=united.context)
        test.same("a put that follows a put", store.get("a").values, [b"q"])
        gone = store.delete("a", context=store.get("a").context)
        test.same("a delete", gone, Put("n0:6", STORED))
        test.same("a get of what is deleted", store.get("a"), Got([], [], "n0:1-6", FIRST_TWO))
        nothing = Got([], [], "-", [Place(2, 2), Place(3, 3)])
        test.same("a get of what was never put", store.get("abc"), nothing)
        audit = store.audit()
    places = ["held 0/0 61 n0:6", "held 1/1 61 n0:6", "held 2/2 61 n0:6"]
    acked = [f"acked 61 n0:{counter} covered 0/0 1/1 2/2" for counter in range(1, 7)]
    # A put makes five steps, and a get three.
    last = "end held 3 acked 6 gets 8 steps 54"
    test.same("an audit's lines", audit.lines, [*places, *acked, last])
    sums = (audit.held, audit.acked, audit.gets, audit.steps)
    test.same("an audit's sums", sums, (3, 6, 8, 54))
    part = {"audit": "held", "places": "0/0", "key": "61", "dots": "n0:6"}
    test.same("what a line of an audit says", audit.parts[0], part)


def test_outages(test: Test) -> None:
    with store_of(test) as store:
        store.put("a", "w")
        test.same("down", store.down(0), None)
        answers = [Answer(1, 1, "stored"), Answer(0, 0, "down"), Answer(2, 2, "stored"),
                   Answer(3, 0, "stored")]
        test.same("a put with a stand-in", store.put("a", "x"), Put("n1:1", answers))
        test.same("up", store.up(0), None)
        test.same("what a stale home shows", store.show(0, "a"), Shown("n0:1", {}))
        test.same("what a stand-in shows", store.show(3, b"a"), Shown("-", {0: "n0:1 n1:1"}))
        test.same("a handoff", store.handoff(3), Passed(1, 1, 2))
        test.same("a handoff of nothing", store.handoff(3), Passed(0, 0, 0))
        test.same("what the home shows then", store.show(0, "a"), Shown("n0:1 n1:1", {}))
        test.same("what the stand-in shows then", store.show(3, "a"), Shown("-", {}))
        test.same("a get of both", store.get("a").values, [b"w", b"x"])


def test_modes(test: Test) -> None:
    with store_of(test) as store:
        for mode in MODES:
            test.same(f"the mode {mode}", store.fault(1, mode), None)
        answers = [Answer(0, 0, "stored"), Answer(1, 1, "noanswer"), Answer(2, 2, "stored"),
                   Answer(3, 1, "stored")]
        test.same("a put with a delay", store.put("a", "x"), Put("n0:1", answers))
        test.same("what is not delivered", store.show(1, "a"), Shown("-", {}))
        test.same("a delivery", store.deliver(1), 1)
        test.same("what is delivered", store.show(1, "a"), Shown("n0:1", {}))
        test.same("a delivery of nothing", store.deliver(1), 0)


def test_words(test: Test) -> None:
    with store_of(test, settled=True) as store:
        store.put("a", "x", session=31)
        test.same("another session", store.get("a", session=7).values, [b"x"])
        test.same("a settled key", store.audit().lines[-2:],
                  ["settled 61", "end held 3 acked 1 gets 1 steps 8"])
        test.same("the key of that line", store.audit().parts[-2]["key"], "61")
    with store_of(test) as store:
        for node in range(1, 5):
            store.down(node)
        test.same("a put to one home", store.put("a", "x", w=1).context, "n0:1")
        test.same("a delete at one home", store.delete("a", "n0:1", w=1).context, "n0:2")
        line = "acked 61 n0:1 w 1 covered 0/0"
        test.look("its own quorum in the audit", line in store.audit().lines, store.audit())
    words = {"tokens": None, "derived": (2, 2), "n": 2, "r": 1, "w": 1}
    with store_of(test, **words) as store:
        test.same("a derived ring", store.put("abc", "x").answers,
                  [Answer(1, 1, "stored"), Answer(0, 0, "stored")])
    with store_of(test, program=["env", test.program]) as store:
        test.same("a program of two words", store.get("a").values, [])


def test_each_command(test: Test) -> None:
    page = (TOP / "clients/python/README.md").read_text(encoding="utf-8")
    with store_of(test) as store:
        for word, rule in COMMANDS.items():
            names = [*rule.needs, *({"value"} & {*rule.may})]
            found = getattr(store, word)(**{name: GIVEN[name] for name in names})
            fields = getattr(found, "_fields", ())
            told = page.partition(f"| `{type(found).__name__}`: ")[2].partition(" |\n")[0]
            lacking = [name for name in fields if f"`{name}`" not in told]
            test.same(f"what the page says not of a {word}", lacking, [])
            if rule.counts:
                test.same(f"what a {word} counts", fields, rule.counts)
                line = store.call(word, **{name: GIVEN[name] for name in names})
                again = getattr(store, word)(**{name: GIVEN[name] for name in names})
                counts = [str(count) for count in again]
                test.same(f"the counts of a {word}", counts, [line[it] for it in rule.counts])


def test_texts(test: Test) -> None:
    with store_of(test) as store:
        for text in TEXTS:
            store.put(text, text)
            test.same(f"the key {text!r}", store.get(text.encode()).values, [text.encode()])
        for value in VALUES:
            store.put("value", value, context=store.get("value").context)
            test.same(f"the value {value!r}", store.get("value").values, [value])
        for text in VALUE_TEXTS:
            store.put(b"value", text, context=store.get(b"value").context)
            test.same(f"the value {text!r}", store.get("value").values, [text.encode()])
        store.put("ключ".encode(), "y", context=store.get("ключ").context)
        test.same("a key of bytes", store.get("ключ").values, [b"y"])
        for name, call in (
                ("put", lambda: store.put(b"\xff", "x")), ("get", lambda: store.get("\ud800")),
                ("value", lambda: store.put("a", "\udfff")),
                ("show", lambda: store.show(0, b"\xc3")),
                ("delete", lambda: store.delete(b"\x80")),
                ("context", lambda: store.put("a", "x", context="\ud800"))):
            test.raises(f"what is no UTF-8: {name}", ValueError, call)
        test.same("a get after it", store.get("ключ").values, [b"y"])


def take_turns(store: Store, session: int, wrong: List[object]) -> None:
    """Gets and puts a key of its own, and a key that all threads share."""
    key, last = f"key {session}", []
    try:
        for turn in range(TURNS):
            found = store.get(key, session)
            if found.values != last:
                wrong.append((session, turn, found))
            last = [f"{session}-{turn}".encode()]
            store.put(key, last[0], found.context, session=session)
        store.put("shared", str(session), session=session)
    except Exception as error:  # pylint: disable=broad-except
        wrong.append(error)


def test_threads(test: Test) -> None:
    wrong: List[object] = []
    with store_of(test) as store:
        threads = [threading.Thread(target=take_turns, args=(store, session, wrong))
                   for session in range(THREADS)]
        for thread in threads:
            thread.start()
        for thread in threads:
            thread.join()
        test.same("what was wrong in threads", wrong, [])
        shared = sorted(store.get("shared").values)
        test.same("what all threads put", shared, [str(it).encode() for it in range(THREADS)])
        audit = store.audit()
    test.same("the puts of all threads", audit.acked, THREADS * (TURNS + 1))
    test.same("the gets of all threads", audit.gets, THREADS * TURNS + 1)


def test_steps(test: Test) -> None:
    with store_of(test, steps=True) as store:
        store.put("a", "x")
        store.get("a")
        old = store.renew().audit
        store.get("a", session=3)
        new = store.audit()
    for name, audit in (("old", old), ("new", new)):
        steps = [line for line in audit.lines if line.startswith("step ")]
        test.same(f"the steps of the {name} cluster", (len(steps), audit.steps), (8, 8))
    told = "told 6 7 session 3"
    test.look("the fetches of a get", told in new.lines, new)
    test.same("the audit behind them", new.lines[-2:],
              ["acked 61 n0:1 covered 0/0 1/1 2/2", "end held 3 acked 1 gets 1 steps 8"])


def test_closing(test: Test) -> None:
    store = store_of(test)
    test.same("an audit of nothing", store.audit().lines, ["end held 0 acked 0 gets 0 steps 0"])
    test.look("an audit once more", store.audit() is store.audit())
    test.raises("a put after the audit", Ended, lambda: store.put("a", "x"), status=0, error="")
    test.raises("a renewal after it", Ended, store.renew, status=0)
    with store_of(test) as store:
        store.put("a", "x")
    test.same("the status without an audit", store.child.poll(), 0)
    try:
        with store_of(test) as store:
            store.put("", "x")
    except Refused as refusal:
        test.same("an exception that leaves the store", refusal.number, 2)
    test.look("the program then", store.child.poll() is not None)
    test.raises("a put then", Ended, lambda: store.put("a", "x"))


def test_renewal(test: Test) -> None:
    with store_of(test, limits={"versions": 3}) as store:
        context = "-"
        for value in ("1", "2", "3"):
            context = store.put("a", value, context=context).context
        test.raises("a full cluster", Refused, lambda: store.put("b", "x"), number=9)
        old = store.get("a")
        store.down(4)
        renewed = store.renew()
        test.same("a renewal carries", renewed.carried, 1)
        sums = (renewed.audit.held, renewed.audit.acked, renewed.audit.gets, renewed.audit.steps)
        test.same("the audit of the old cluster", sums, (3, 3, 1, 18))
        test.same("what was present", store.get("a"), Got([b"3"], ["n0:1"], "n0:1", FIRST_TWO))
        test.raises("an old context", Refused, lambda: store.put("a", "4", old.context), number=8)
        test.same("a node that was down", store.handoff(4), Passed(0, 0, 0))
        store.put("a", "4", context=store.get("a").context)
        store.put("b", "5")
        test.raises("a full cluster again", Refused, lambda: store.put("b", "x"), number=9)
        test.same("another renewal carries", store.renew().carried, 2)
        test.same("what is present", store.get("a").values + store.get("b").values, [b"4", b"5"])
        test.same("the last audit", store.audit().acked, 2)


def test_what_is_carried(test: Test) -> None:
    with store_of(test) as store:
        nothing = store.renew()
        test.same("a renewal of nothing", (nothing.carried, nothing.audit.lines),
                  (0, ["end held 0 acked 0 gets 0 steps 0"]))
        store.put("a", "x")
        store.put("a", b"\xff")
        store.delete("b", context=store.put("b", "gone").context)
        old = store.put("abc", "old")
        for home in (2, 3, 4):
            store.down(home)
        store.put("abc", "new", context=old.context)
        test.same("a renewal of siblings and of hints", store.renew().carried, 3)
        test.same("the siblings", store.get("a").values, [b"x", b"\xff"])
        test.same("what was deleted", store.get("b")[:3], ([], [], "-"))
        test.same("what stand-ins alone had", store.get("abc").values, [b"new"])
    with store_of(test, limits={"counter": 1}) as store:
        store.put("a", "x")
        store.down(0)
        store.put("a", "y")
        told = "dynamo: E7 CounterFull\n"
        test.raises("a renewal with no room for siblings", Ended, store.renew, error=told)
        test.raises("a get after it", Ended, lambda: store.get("a"), error=told)


PARTS = [test_puts_and_gets, test_outages, test_modes, test_words, test_each_command, test_texts,
         test_threads, test_steps, test_closing, test_renewal, test_what_is_carried]
