"""A client of `dynamo serve`, by the standard library of Python 3.8 alone. README.md shows its use.

A store starts the program as a child. Each call writes a command, and reads the line that answers.
It raises Refused where the store refuses the command, and the store goes on. It raises Ended where
the program has ended, and Unexpected where a line answers nothing. It raises ValueError where a key
or a text is no UTF-8, before it sends anything. The words are those of docs/FORMATS.md.
"""
import contextlib
import itertools
import json
import os
import re
import subprocess
import tempfile
import threading
from typing import Dict, List, Mapping, NamedTuple, Optional, Sequence, Tuple, Type, Union

NUMBER, DOT, PLACE, HEX = r"(?P<number>\d+)", r"n\d+:\d+", r"\d+/\d+", "(?:[0-9a-f]{2})"
CONTEXT, PLACES = r"(?:-|n[\d:,-]+(?: n[\d:,-]+)*)", f"(?P<places>{PLACE}(?: {PLACE})*)"
LIST = rf"answers (?P<answers>{PLACE}=\w+(?: {PLACE}=\w+)*)"
# All that the program prints: answers, which have a number, an audit's lines, and those of steps.
FORMS = [re.compile(form) for form in (
    rf"{NUMBER} (?P<do>put|delete) ok (?P<dot>{DOT}) {LIST}",
    rf"{NUMBER} (?P<do>get) ok context (?P<context>{CONTEXT}) from {PLACES} "
    rf"values (?P<values>none|{DOT}={HEX}*(?: {DOT}={HEX}*)*)",
    rf"{NUMBER} (?P<do>down|up|fault) ok",
    rf"{NUMBER} (?P<do>deliver) ok (?P<stored>\d+)",
    rf"{NUMBER} (?P<do>handoff) ok offers (?P<offers>\d+) stored (?P<stored>\d+) "
    r"released (?P<released>\d+)",
    rf"{NUMBER} (?P<do>show) \d+ own (?P<own>{CONTEXT})(?P<hints>(?: for \d+ {CONTEXT})*)",
    rf"{NUMBER} (?P<do>renew) ok carried (?P<carried>\d+)",
    rf"{NUMBER} (?P<do>put|delete|get) E(?P<fault>15) (?P<name>\w+)(?: (?P<dot>{DOT}))? {LIST}",
    rf"{NUMBER} (?:(?P<do>[a-z]+) )?E(?P<fault>\d|1[0-8]) (?P<name>[A-Z]\w+)"
    rf"(?: (?:{DOT}|\d+))?(?: after (?P<dot>{DOT}))?",
    rf"(?P<audit>held) {PLACES} (?P<key>{HEX}+) (?P<dots>{CONTEXT})",
    rf"(?P<audit>acked) (?P<key>{HEX}+) (?P<dot>{DOT})(?: w (?P<w>\d+))? covered {PLACES}",
    rf"(?P<audit>settled) (?P<key>{HEX}+)",
    r"(?P<audit>end) held (?P<held>\d+) acked (?P<acked>\d+) gets (?P<gets>\d+) "
    r"steps (?P<steps>\d+)",
    r"(?P<audit>(?P<step>step|told)) .+",
    r"(?P<head>cluster|token) .+",
)]

Text = Union[str, bytes]
Line = Dict[str, str]  # What a line says, by the names of its form; "" is what it lacks.
Lines = List[Tuple[str, Line]]
Place = NamedTuple("Place", [("holder", int), ("home", int)])
Answer = NamedTuple("Answer", [("holder", int), ("home", int), ("word", str)])
# The context of a put that is to follow this one, and the answers of nodes in their order.
Put = NamedTuple("Put", [("context", str), ("answers", List[Answer])])
# The present values, the dot of each, the context of all, and each home with who answered for it.
Got = NamedTuple("Got", [
    ("values", List[bytes]), ("dots", List[str]), ("context", str), ("homes", List[Place])])
Passed = NamedTuple("Passed", [("offers", int), ("stored", int), ("released", int)])
Shown = NamedTuple("Shown", [("own", str), ("hints", Dict[int, str])])
# The lines of a closed cluster (with `steps` its steps first), what each says, and the sums.
Audit = NamedTuple("Audit", [("lines", List[str]), ("parts", List[Line]),
                             ("held", int), ("acked", int), ("gets", int), ("steps", int)])
Renewed = NamedTuple("Renewed", [("audit", Audit), ("carried", int)])


class Refused(Exception):
    """A refusal of docs/REFUSALS.md. `dot` is the version that a put made all the same, or None."""

    def __init__(self, text: str, line: Line) -> None:
        super().__init__(text.partition(" ")[2])
        self.number, self.name = int(line["fault"]), line["name"]
        self.dot, self.answers = line["dot"] or None, answers_of(line.get("answers", ""))


class Ended(Exception):
    """The program has ended, with this status and this text on standard error."""

    def __init__(self, status: int, error: str) -> None:
        super().__init__(f"the program has ended with status {status}: {error.strip()}")
        self.status, self.error = status, error


class Unexpected(Exception):
    """This line has no form, or answers another command. The program was killed for it."""

    def __init__(self, line: str) -> None:
        super().__init__(f"unexpected line: {line}")
        self.line = line


def answers_of(text: str) -> List[Answer]:
    return [Answer(int(a), int(b), it) for a, b, it in re.findall(r"(\d+)/(\d+)=(\w+)", text)]


def audit_of(lines: Lines) -> Audit:
    texts, parts = [text for text, _ in lines], [line for _, line in lines]
    return Audit(texts, parts, *(int(parts[-1][name]) for name in Audit._fields[2:]))


def json_of(members: Mapping[str, object]) -> bytes:
    given = {name: value for name, value in members.items() if value is not None}
    return json.dumps(given, ensure_ascii=False, default=bytes.decode).encode()


class Store:
    """A replicated store in a child process. Threads may share it: it does one call at a time.

    `tokens` lists each node's positions in hexadecimal digits, or `derived` is (nodes, per_node).
    `program` is a path or a list of words, by default the environment variable MELDAKWI or `dynamo`
    on the path. Raises OSError where it does not start, and Ended where it refuses the script.
    """

    def __init__(self, tokens: Optional[Sequence[Sequence[str]]] = None, n: int = 3, r: int = 2,
                 w: int = 2, program: Union[None, str, Sequence[str]] = None,
                 derived: Optional[Tuple[int, int]] = None, settled: bool = False,
                 limits: Optional[Mapping[str, int]] = None, steps: bool = False) -> None:
        nodes = derived and {"nodes": derived[0], "per_node": derived[1]}
        script = {"n": n, "r": r, "w": w, "tokens": tokens, "derived": nodes, "limits": limits}
        program = program or os.environ.get("MELDAKWI") or "dynamo"
        words = [program] if isinstance(program, str) else list(program)
        self._lock, self._count, self._error = threading.Lock(), 0, tempfile.TemporaryFile()
        self._over: Optional[Tuple[int, str]] = None
        self._audit: Optional[Audit] = None
        self._lines: Lines = []  # The open cluster's steps.
        with tempfile.NamedTemporaryFile(suffix=".json", buffering=0) as file:
            file.write(json_of({**script, "settled": settled}))
            # In a session of its own it outlives an interrupt at the terminal, to be audited.
            self.child: "subprocess.Popen[bytes]" = subprocess.Popen(
                [*words, "serve", *["--steps"] * steps, file.name], stdin=subprocess.PIPE,
                stdout=subprocess.PIPE, stderr=self._error, start_new_session=True)
            assert self.child.stdin and self.child.stdout
            self._input, self._output = self.child.stdin, self.child.stdout
            self.call("show", node=0, key="-")  # Its answer says that the script was read.

    def put(self, key: Text, value: Text, context: Optional[str] = None, w: Optional[int] = None,
            session: int = 0) -> Put:
        """Writes a value that follows the context. Raises Refused: E15 where too few have it."""
        member = {"value": value} if isinstance(value, str) else {"valuehex": value.hex()}
        line = self.call("put", key=key, context=context, w=w, session=session, **member)
        return Put(line["dot"], answers_of(line["answers"]))

    def delete(self, key: Text, context: Optional[str] = None, w: Optional[int] = None,
               session: int = 0) -> Put:
        """Deletes the values of the context. Raises Refused: E15 where too few have it."""
        line = self.call("delete", key=key, context=context, w=w, session=session)
        return Put(line["dot"], answers_of(line["answers"]))

    def get(self, key: Text, session: int = 0) -> Got:
        """Reads a key, and mends stale homes. Raises Refused: E15 where too few homes answer."""
        line = self.call("get", key=key, session=session)
        pairs = re.findall(rf"({DOT})=({HEX}*)", line["values"])
        homes = [Place(*map(int, place.split("/"))) for place in line["places"].split()]
        values, dots = [bytes.fromhex(digits) for _, digits in pairs], [dot for dot, _ in pairs]
        return Got(values, dots, line["context"], homes)

    def down(self, node: int) -> None:
        """Takes the node down. Raises Refused: E17 where there is no such node."""
        self.call("down", node=node)

    def up(self, node: int) -> None:
        """Brings the node up. Raises Refused: E17 where there is no such node."""
        self.call("up", node=node)

    def fault(self, node: int, mode: str) -> None:
        """Sets a node's mode, one of docs/FORMATS.md. Raises Refused: E17 for others."""
        self.call("fault", node=node, mode=mode)

    def deliver(self, node: int) -> int:
        """Stores what the node kept in mode delay, and counts it. Raises Refused: E12, E13."""
        return int(self.call("deliver", node=node)["stored"])

    def handoff(self, node: int) -> Passed:
        """Has the node hand its hints over to their homes. Raises Refused: E13 where it is down."""
        line = self.call("handoff", node=node)
        return Passed(int(line["offers"]), int(line["stored"]), int(line["released"]))

    def show(self, node: int, key: Text) -> Shown:
        """What the node keeps for itself and, by home, for others. Raises Refused: E2, E17."""
        line = self.call("show", node=node, key=key)
        hints = re.findall(rf" for (\d+) ({CONTEXT})", line["hints"])
        return Shown(line["own"], {int(home): dots for home, dots in hints})

    def renew(self) -> Renewed:
        """Closes the cluster, and carries its present values into a new one, or raises Ended."""
        lines, line = self._ask("renew", {})
        return Renewed(audit_of(lines), int(line["carried"]))

    def audit(self) -> Audit:
        """Closes the store, and returns its audit, each time the same. Raises Ended, Unexpected."""
        self._audit = self._audit or audit_of(self._ask("", {})[0])
        return self._audit

    def call(self, do: str, **members: object) -> Line:
        """Does a command, with its members that are not None. Raises Refused, Ended, Unexpected."""
        return self._ask(do, members)[1]

    def __enter__(self) -> "Store":
        return self

    def __exit__(self, kind: Optional[Type[BaseException]], *rest: object) -> None:
        if kind is None and self._over is None:
            self.audit()
        with self._lock:
            self._finish()

    def _ask(self, do: str, members: Mapping[str, object]) -> Tuple[Lines, Line]:
        data = json_of({"do": do, **members}) + b"\n" if do else b""
        with self._lock:
            if self._over:
                raise Ended(*self._over)
            self._count += bool(do)
            with contextlib.suppress(OSError):  # If the program has ended, what is read says how.
                self._input.write(data)
                self._input.flush()
                if not do:
                    self._input.close()
            return self._read(do)

    def _read(self, do: str) -> Tuple[Lines, Line]:
        lines = self._lines
        for data in itertools.takewhile(lambda data: data.endswith(b"\n"), self._output):
            text = data[:-1].decode("ascii", "backslashreplace")
            match = next(filter(None, (form.fullmatch(text) for form in FORMS)), None)
            line = match.groupdict("") if match else {}
            is_closed = bool(lines) and "gets" in lines[-1][1]
            if "audit" in line and (do in ("renew", "") or line.get("step")) and not is_closed:
                lines.append((text, line))
            elif line.get("number") == str(self._count) and line["do"] in (do, "") and (
                    "fault" in line or is_closed == (do == "renew")):
                if "fault" in line:
                    raise Refused(text, line)
                self._lines = [] if is_closed else lines
                return lines, line
            elif "head" not in line:
                self.child.kill()
                self._finish()
                raise Unexpected(text)
        ended = self._finish()
        if do or ended.status or not lines or "gets" not in lines[-1][1]:
            raise ended
        return lines, {}

    def _finish(self) -> Ended:
        if self._over is None:
            with contextlib.suppress(OSError, ValueError), self._output, self._input:
                pass
            with contextlib.suppress(subprocess.TimeoutExpired):
                self.child.wait(timeout=10)
            self.child.kill()
            with self._error:
                self._error.seek(0)
                self._over = self.child.wait(), self._error.read().decode("utf-8", "replace")
        return Ended(*self._over)
