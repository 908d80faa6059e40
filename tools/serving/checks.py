"""What the tests of `dynamo serve` share: the count of checks, scripts, and ways to start it."""
import json
import os
import pathlib
import select
import subprocess
import threading
import time
import traceback
from typing import Any, Callable, Dict, List, NamedTuple, Sequence, Type

from testing import Counts

TOP = pathlib.Path(__file__).resolve().parent.parent.parent
TOKENS = [["20"], ["60"], ["a0"], ["d0"], ["f0"]]
SCRIPT: Dict[str, Any] = {"n": 3, "r": 2, "w": 2, "tokens": TOKENS}
# How many seconds a program has to answer, and how long one waits for what must not come.
PATIENCE, QUIET = 20, 0.3
LONGEST_SHOWN = 300


class Run(NamedTuple):
    """How a program ended, and what it printed."""

    status: int
    out: bytes
    err: bytes


class Test(Counts):
    """Counts checks, and keeps the program and a folder for files. Threads may share it."""

    def __init__(self, program: str, folder: str) -> None:
        super().__init__()
        self.program = program
        self.folder = pathlib.Path(folder)
        self.lock = threading.Lock()

    def look(self, name: str, is_good: bool, said: object = "") -> None:
        """Counts a check, and says what was wrong with it."""
        with self.lock:
            self.note(is_good, f"{name}: {str(said)[:LONGEST_SHOWN]}")

    def same(self, name: str, got: object, wanted: object) -> None:
        """Both must be the same."""
        self.look(name, got == wanted, f"wanted {short(wanted)}, got {short(got)}")

    def raises(self, name: str, kind: Type[Exception], call: Callable[[], object], /,
               **wanted: object) -> None:
        """The call must raise this exception, with these attributes."""
        try:
            got = call()
        except kind as error:
            self.same(name, {it: getattr(error, it) for it in wanted}, wanted)
        except Exception as error:  # pylint: disable=broad-except
            self.look(name, False, f"wanted {kind.__name__}, got {error!r}")
        else:
            self.look(name, False, f"wanted {kind.__name__}, got {short(got)}")

    def part(self, of: Callable[["Test"], None]) -> None:
        """Makes the checks of a part; an exception that leaves it is a failure."""
        try:
            of(self)
        except Exception:  # pylint: disable=broad-except
            self.look(of.__name__, False, traceback.format_exc()[-LONGEST_SHOWN:])

    def file(self, script: Dict[str, Any], name: str = "script.json") -> str:
        """Writes the script to a file, and returns where it is."""
        path = self.folder / name
        path.write_text(json.dumps(script), encoding="utf-8")
        return str(path)

    def run(self, words: Sequence[str], data: bytes = b"", **how: Any) -> Run:
        """Runs the program with this input."""
        return run([self.program, *words], data, **how)

    def serve(self, data: bytes, script: Dict[str, Any] = SCRIPT, *flags: str) -> Run:
        """Serves these lines in the cluster of the script."""
        return self.run(["serve", *flags, self.file(script)], data)


class Talk:
    """A service that is started and spoken with line by line."""

    def __init__(self, test: Test, script: Dict[str, Any] = SCRIPT) -> None:
        words = [test.program, "serve", test.file(script)]
        pipe = subprocess.PIPE
        self.child = subprocess.Popen(words, stdin=pipe, stdout=pipe, stderr=pipe, bufsize=0)
        self.ready = b""

    def __enter__(self) -> "Talk":
        return self

    def __exit__(self, *_: object) -> None:
        for pipe in (self.child.stdin, self.child.stdout, self.child.stderr):
            pipe.close()
        self.child.kill()
        self.child.wait()

    def write(self, data: bytes) -> None:
        self.child.stdin.write(data)

    def line(self, seconds: float = PATIENCE) -> bytes:
        """Returns the next line, or what there is of it after so many seconds."""
        end = time.monotonic() + seconds
        while b"\n" not in self.ready:
            left = max(0, end - time.monotonic())
            if not select.select([self.child.stdout], [], [], left)[0]:
                break
            more = os.read(self.child.stdout.fileno(), 65536)
            if not more:
                break
            self.ready += more
        line, feed, self.ready = self.ready.partition(b"\n")
        return line + feed

    def lines(self, count: int) -> bytes:
        return b"".join(self.line() for _ in range(count))

    def ask(self, data: bytes) -> bytes:
        """Writes a line, and returns the line that answers it."""
        self.write(data + b"\n")
        return self.line()


def run(words: Sequence[str], data: bytes = b"", **how: Any) -> Run:
    """Runs these words with this input."""
    if "stdin" not in how:
        how["input"] = data
    how = {"stdout": subprocess.PIPE, "stderr": subprocess.PIPE, "timeout": 120, **how}
    done = subprocess.run(list(words), check=False, **how)
    return Run(done.returncode, done.stdout or b"", done.stderr or b"")


def short(value: object) -> str:
    text = repr(value)
    half = LONGEST_SHOWN // 2
    return text if len(text) <= half else f"{text[:half]}.."


def line_of(command: Dict[str, Any]) -> bytes:
    """The command as a line of input, without its line feed."""
    return json.dumps(command, ensure_ascii=False).encode("utf-8")


def text_of(lines: List[str]) -> bytes:
    """The lines as they are printed."""
    return "".join(f"{line}\n" for line in lines).encode("utf-8")
