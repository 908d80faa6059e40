"""Lines as they are: blank, broken, long, cut off, with a lost output, and one at a time."""
import os
import subprocess
from typing import List, Sequence

from serving.checks import QUIET, SCRIPT, TOP, Run, Talk, Test, line_of, run, text_of

LONGEST = 1 << 20
PUT = line_of({"do": "put", "key": "a", "value": "x"})
GET = line_of({"do": "get", "key": "a"})
RENEW = line_of({"do": "renew"})
EMPTY = ["end held 0 acked 0 gets 0 steps 0"]
ROWS = ["held 0/0 61 n0:1", "held 1/1 61 n0:1", "held 2/2 61 n0:1",
        "acked 61 n0:1 covered 0/0 1/1 2/2"]
ONE_PUT = [*ROWS, "end held 3 acked 1 gets 0 steps 5"]
PUT_AND_GET = [*ROWS, "end held 3 acked 1 gets 1 steps 8"]
FULL = b"dynamo: No space left on device (os error 28)\n"
SHUT = b"dynamo: Bad file descriptor (os error 9)\n"


def put_line(number: int) -> str:
    return f"{number} put ok n0:1 answers 0/0=stored 1/1=stored 2/2=stored"


def get_line(number: int) -> str:
    return f"{number} get ok context n0:1 from 0/0 1/1 values n0:1=78"


def padded(line: bytes, length: int) -> bytes:
    """The line with blanks behind it, so long that it has this many bytes."""
    return line + b" " * (length - len(line))


ONE = [put_line(1), *ONE_PUT]
BOTH = [put_line(1), get_line(2), *PUT_AND_GET]
# What is written, and all that is printed.
INPUTS = [
    ("no line", b"", EMPTY),
    ("blank lines", b"\n \n\t\n\r\n \t\r \n", EMPTY),
    ("a last line of blanks", b" \t\r ", EMPTY),
    ("blank lines have no number", b"\n\r\n" + PUT + b"\n \n\n" + GET + b"\n\t", BOTH),
    ("a last line without a line feed", PUT + b"\n" + GET, BOTH),
    ("lines that end with CRLF", PUT + b"\r\n" + GET + b"\r\n", BOTH),
    ("a last line that ends with CR", PUT + b"\r", ONE),
    ("blanks around a command", b" \t\r" + PUT + b" \t\r\n" + b"\t" + GET, BOTH),
    ("a line of 1 MiB", padded(PUT, LONGEST) + b"\n" + GET, BOTH),
    ("a line of 1 MiB with CR", padded(PUT, LONGEST - 1) + b"\r\n" + GET, BOTH),
    ("a last line of 1 MiB", PUT + b"\n" + padded(GET, LONGEST), BOTH),
    ("1 MiB of blanks", b" " * LONGEST + b"\n" + PUT, ONE),
    ("a member twice", PUT[:-1] + b',"value":"y","value":"x"}\n', ONE),
    ("escapes", rb'{"d\u006f":"put","key":"\u0061","value":"\u0078"}', ONE),
    ("a refused command", line_of({"do": "get", "key": ""}), ["1 get E2 KeySize", *EMPTY]),
]
TOO_LONG = [padded(PUT, LONGEST + 1), padded(PUT, LONGEST) + b"\r", b" " * (LONGEST + 1),
            b"x" * (3 * LONGEST), PUT + b" " * (3 * LONGEST)]
NO_COMMAND = [
    b"x", b"{", b"}", b"[]", b"{}", b"null", b"1", b'"put"', b"[" * 128, b'{"do":1}',
    b'{"do":null}', b'{"key":"a"}', b"[" + PUT + b"]", PUT + PUT, PUT + b",", PUT[:-1],
    b"\xff", b'{"do":"get","key":"\xff"}', b'{"do":"get","key":"\xed\xa0\x80"}', GET + b"\xc3",
    b"\xef\xbb\xbf" + GET, b"\xc2\xa0", b"\0", b"\0" + GET, GET + b"\0",
    b'{"do":"get","key":"a\0"}', b'{"do":"get","key":"a\tb"}', b"\x0b", b"\x0c",
    rb'{"do":"get","key":"\ud800"}', b'{"do":"get"}', b'{"do":"get","key":1}',
    b'{"do":"get","key":"a","kye":"b"}', b'{"do":"get","key":"a","session":32}',
    b'{"do":"get","key":"a","session":1.0}', b'{"do":"down","node":5}', b'{"do":"down","node":-1}',
    b'{"do":"fault","node":0,"mode":"asleep"}', b'{"do":"put","key":"a"}',
    b'{"do":"put","key":"a","value":"","valuehex":""}', b'{"do":"renew","node":0}',
]
NO_WORD = [b'{"do":"walk"}', b'{"do":""}', b'{"do":"Get","key":"a"}', b'{"do":"renew "}',
           b'{"do":"walk","key":1}', b'{"do":"end"}', b'{"do":"audit"}']


def of_lines(lines: List[str]) -> Run:
    return Run(0, text_of(lines), b"")


def test_inputs(test: Test) -> None:
    for name, data, wanted in INPUTS:
        test.same(name, test.serve(data), of_lines(wanted))


def test_wrong_lines(test: Test) -> None:
    cases = [(line, "E17 ScriptSyntax 1") for line in [*NO_COMMAND, *TOO_LONG]]
    cases += [(line, "E18 UnknownCommand 1") for line in NO_WORD]
    for line, refusal in cases:
        name = f"the wrong line {line[:40]!r} of {len(line)} bytes"
        after = of_lines([f"1 {refusal}", put_line(2), *ONE_PUT])
        test.same(f"{name}, and a put", test.serve(line + b"\n" + PUT + b"\n"), after)
        last = of_lines([put_line(1), f"2 {refusal[:-1]}2", *ONE_PUT])
        test.same(f"{name}, at the end", test.serve(PUT + b"\n" + line), last)
    all_lines = b"\n".join(line for line, _ in cases)
    told = [f"{number} {refusal[:-1]}{number}" for number, (_, refusal) in enumerate(cases, 1)]
    test.same("all wrong lines", test.serve(all_lines), of_lines([*told, *EMPTY]))


def test_script(test: Test) -> None:
    """The commands of the script come first, and the numbers go on."""
    script = {**SCRIPT, "run": [{"do": "put", "key": "a", "value": "x"}]}
    got = test.serve(GET + b"\n\nx\n" + b'{"do":"walk"}\n', script)
    wanted = [put_line(1), get_line(2), "3 E17 ScriptSyntax 3", "4 E18 UnknownCommand 4"]
    test.same("lines behind a script's commands", got, of_lines([*wanted, *PUT_AND_GET]))
    test.same("no line behind them", test.serve(b"", script), of_lines(ONE))


def test_renewals(test: Test) -> None:
    data = b"\n".join([PUT, GET, RENEW, GET, b'{"do":"put","key":"b","value":"y"}', RENEW, RENEW])
    of_b = ["held 2/2 62 n2:1", "held 3/3 62 n2:1", "held 4/4 62 n2:1"]
    places = ["held 0/0 61 n0:1", "held 1/1 61 n0:1", "held 2/2 61 n0:1"]
    acked = ["acked 61 n0:1 covered 0/0 1/1 2/2", "acked 62 n2:1 covered 2/2 3/3 4/4"]
    two = [*places, *of_b, *acked]
    wanted = [
        put_line(1), get_line(2), *PUT_AND_GET, "3 renew ok carried 1", get_line(4),
        "5 put ok n2:1 answers 2/2=stored 3/3=stored 4/4=stored",
        *two, "end held 6 acked 2 gets 1 steps 13", "6 renew ok carried 2",
        *two, "end held 6 acked 2 gets 0 steps 10", "7 renew ok carried 2",
        *two, "end held 6 acked 2 gets 0 steps 10"]
    test.same("renewals", test.serve(data), of_lines(wanted))
    test.same("a renewal at the end of the input", test.serve(PUT + b"\n" + RENEW),
              of_lines([put_line(1), *ONE_PUT, "2 renew ok carried 1", *ONE_PUT]))


def test_talk(test: Test) -> None:
    """Each answer comes before more is written."""
    with Talk(test, {**SCRIPT, "run": [{"do": "put", "key": "a", "value": "x"}]}) as talk:
        test.same("a script's line before any input", talk.line(), text_of([put_line(1)]))
        for number in range(2, 6):
            test.same("an answer at once", talk.ask(GET), text_of([get_line(number)]))
        talk.write(b"\n \r\n" + GET[:9])
        test.same("blank lines and half a line", talk.line(QUIET), b"")
        test.same("its other half", talk.ask(GET[9:]), text_of([get_line(6)]))
        test.same("a wrong line", talk.ask(b"x"), b"7 E17 ScriptSyntax 7\n")
        test.same("a line that is too long", talk.ask(TOO_LONG[0]), b"8 E17 ScriptSyntax 8\n")
        test.same("an unknown command", talk.ask(NO_WORD[0]), b"9 E18 UnknownCommand 9\n")
        talk.write(GET + b"\n" + GET + b"\n")
        test.same("two lines at once", talk.lines(2), text_of([get_line(10), get_line(11)]))
        talk.write(RENEW + b"\n")
        audit = [*ROWS, "end held 3 acked 1 gets 7 steps 26", "12 renew ok carried 1"]
        test.same("a renewal at once", talk.lines(6), text_of(audit))
        talk.write(GET)
        test.same("a line without its end", talk.line(QUIET), b"")
        talk.child.stdin.close()
        test.same("at the end of the input", talk.lines(6),
                  text_of([get_line(13), *PUT_AND_GET]))
        test.same("the status", talk.child.wait(timeout=20), 0)


def test_streams(test: Test) -> None:
    words = ["serve", test.file(SCRIPT)]
    null = test.run(words, stdin=subprocess.DEVNULL)
    test.same("an input of nothing", null, of_lines(EMPTY))
    with open("/dev/full", "wb") as full:
        test.same("a full output", test.run(words, PUT, stdout=full), Run(1, b"", FULL))
    shell = ["sh", "-c", 'exec "$0" "$@" >&-', test.program, *words]
    test.same("a shut output", run(shell, PUT), Run(1, b"", SHUT))
    with Talk(test) as talk:
        talk.ask(PUT)
        talk.child.stdout.close()
        talk.write(GET + b"\n")
        test.same("an output that is closed early", talk.child.wait(timeout=20), 1)
    for name, written in (("before a line", b""), ("behind many", (GET + b"\n") * 5000)):
        reader, writer = os.pipe()
        os.close(reader)
        lost = test.run(words, written, stdout=writer)
        os.close(writer)
        test.same(f"an output that is closed {name}", lost.status, 1)


def words_of(test: Test) -> Sequence[Sequence[str]]:
    file = test.file(SCRIPT)
    return [["serve"], ["serve", "-"], ["serve", "--steps", "-"], ["serve", "--", "-"],
            ["serve", file, file], ["serve", "--step", file], ["serve", "--steps=1", file],
            ["serve", "--steps", "--steps", file], ["serve", "--faults", file], ["--serve", file]]


def test_command_lines(test: Test) -> None:
    for words in words_of(test):
        done = test.run(words, PUT)
        test.same(f"the words {words[:2]}", (done.status, done.out), (2, b""))
        test.look(f"the words {words[:2]} are explained", done.err != b"", done)
    told = f"dynamo: {TOP}: Is a directory (os error 21)\n".encode()
    test.same("a folder", test.run(["serve", str(TOP)], PUT), Run(2, b"", told))
    none = "/nowhere/at/all"
    told = f"dynamo: {none}: No such file or directory (os error 2)\n".encode()
    test.same("no such file", test.run(["serve", none], PUT), Run(2, b"", told))


PARTS = [test_inputs, test_wrong_lines, test_script, test_renewals, test_talk, test_streams,
         test_command_lines]
