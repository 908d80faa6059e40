"""Programs that die, are no dynamo or are not there; the example; and the client's page."""
import os
import pathlib
import re
import signal
import sys
from typing import List

from meldakwi import Ended, Store, Unexpected

from serving.checks import TOKENS, TOP, Test, run

PAGE = TOP / "clients/python/README.md"
CART = TOP / "examples/python/cart.py"
BLOCK = re.compile(r"^```(python|text)\n(.*?)^```$", re.DOTALL | re.MULTILINE)
# What a program prints that answers the client's first command, and no other.
HELLO = "print('1 show 0 own -', flush=True); "
END = "end held 0 acked 0 gets 0 steps 0"
# By hand: the first put and the last get are of node 1, and the others of node 2.
CART_LINES = [
    "session 0 writes bread,milk as n2:1: 2/2=stored 1/1=down 3/3=stored 4/1=stored",
    "session 1 writes eggs,milk as n2:2: 2/2=stored 1/1=down 3/3=stored 4/1=stored",
    "siblings: bread,milk eggs,milk",
    "the cart: bread,eggs,milk,tea",
    "node 1 is back and has n1:1",
    "node 4 hands over 1 hint; node 1 has n2:3",
    "  held 1/1 63617274 n2:3",
    "  acked 63617274 n2:2 covered 1/1 2/2 3/3",
    "  end held 3 acked 4 gets 4 steps 34",
]


def python(text: str) -> List[str]:
    """The words of a program that does this, whatever else it is asked."""
    return [sys.executable, "-c", f"import os, sys; {text}"]


def store(program: List[str]) -> Store:
    return Store(tokens=TOKENS, program=program)


def test_kill(test: Test) -> None:
    with store([test.program]) as killed:
        killed.put("a", "x")
        os.kill(killed.child.pid, signal.SIGKILL)
        for name, call in (("put", lambda: killed.put("a", "y")), ("audit", killed.audit),
                           ("get", lambda: killed.get("a")), ("renewal", killed.renew)):
            test.raises(f"a {name} of a killed program", Ended, call, status=-9, error="")
    with store([test.program]) as ended:
        os.kill(ended.child.pid, signal.SIGKILL)
        ended.child.wait()
        test.raises("a put to a program that has ended", Ended, lambda: ended.put("a", "x"),
                    status=-9)
        test.raises("a great line to it", Ended, lambda: ended.put("a", "x" * 200_000), status=-9)


def test_others(test: Test) -> None:
    for name, text, kind, wanted in (
            ("says nothing", "sys.exit(3)", Ended, {"status": 3, "error": ""}),
            ("complains", "sys.exit('oops')", Ended, {"status": 1, "error": "oops\n"}),
            ("greets", "print('hello')", Unexpected, {"line": "hello"}),
            ("prints an empty line", "print()", Unexpected, {"line": ""}),
            ("prints what is no text", r"os.write(1, b'\xff\n')", Unexpected, {"line": r"\xff"}),
            ("prints half a line", "print('1 show 0 own -', end='')", Ended, {"status": 0}),
            ("answers another number", "print('2 show 0 own -')", Unexpected,
             {"line": "2 show 0 own -"}),
            ("answers another command", "print('1 up ok')", Unexpected, {"line": "1 up ok"}),
            ("audits at once", f"print('{END}')", Unexpected, {"line": END}),
            ("prints more than a line has", "print('1 show 0 own - .')", Unexpected,
             {"line": "1 show 0 own - ."}),
            ("has other digits", "print('\u0661 show 0 own -')", Unexpected, {})):
        words = ["env", "PYTHONIOENCODING=utf-8", *python(text)]
        test.raises(f"a program that {name}", kind, lambda: store(words), **wanted)
    for name in ("/nowhere/at/all", str(TOP), __file__):
        test.raises(f"a program {name}", OSError, lambda: store([name]))


def test_audits(test: Test) -> None:
    for name, text, kind, wanted in (
            ("has no audit", "sys.stdin.read()", Ended, {"status": 0}),
            ("has half an audit", "sys.stdin.read(); print('held 0/0 61 n0:1')", Ended, {}),
            ("fails at its end", f"sys.stdin.read(); print('{END}'); sys.exit(1)", Ended,
             {"status": 1}),
            ("goes on behind its audit", f"sys.stdin.read(); print('{END}\\nsettled 61')",
             Unexpected, {"line": "settled 61"}),
            ("answers in its audit", "sys.stdin.read(); print('2 up ok')", Unexpected,
             {"line": "2 up ok"})):
        other = store(python(HELLO + text))
        test.raises(f"a program that {name}", kind, other.audit, **wanted)
        test.raises(f"a get from a program that {name}", Ended, lambda: other.get("a"))
    for name, text in (("without an audit", "2 renew ok carried 1"),
                       ("with half an audit", "settled 61\\n2 renew ok carried 1")):
        other = store(python(HELLO + f"print('{text}', flush=True); sys.stdin.read()"))
        test.raises(f"a renewal {name}", Unexpected, other.renew, line="2 renew ok carried 1")


def test_places(test: Test) -> None:
    """Where the program is found if none is named."""
    was = dict(os.environ)
    folder = pathlib.Path(test.folder) / "bin"
    folder.mkdir()
    (folder / "dynamo").symlink_to(test.program)
    try:
        os.environ["PATH"] = f"{folder}:{was['PATH']}"
        with Store(TOKENS) as of_path:
            test.same("dynamo on the path", of_path.put("a", "x").context, "n0:1")
        os.environ["PATH"] = was["PATH"]
        os.environ["MELDAKWI"] = test.program
        with Store(TOKENS) as of_variable:
            test.same("the program of MELDAKWI", of_variable.put("a", "x").context, "n0:1")
    finally:
        os.environ.clear()
        os.environ.update(was)


def test_cart(test: Test) -> None:
    done = run([sys.executable, "-X", "dev", str(CART), test.program])
    test.same("the status and the error of the cart", (done.status, done.err), (0, b""))
    lines = done.out.decode("utf-8").splitlines()
    for line in CART_LINES:
        test.look(f"the cart prints '{line}'", line in lines, lines)


def test_page(test: Test) -> None:
    """The program of the client's page prints what stands below it."""
    blocks = dict(BLOCK.findall(PAGE.read_text(encoding="utf-8")))
    settings = {**os.environ, "MELDAKWI": test.program, "PYTHONPATH": str(PAGE.parent),
                "PYTHONDONTWRITEBYTECODE": "1"}
    done = run([sys.executable, "-X", "dev", "-c", blocks["python"]], env=settings)
    test.same("the program of clients/python/README.md", done, (0, blocks["text"].encode(), b""))


PARTS = [test_kill, test_others, test_audits, test_places, test_cart, test_page]
