"""The store as a child: `dynamo serve`, which answers a line with lines."""
import re
import subprocess
from typing import Iterator, List

ANSWER = re.compile(r"[0-9]+ ")


class StoreEnded(Exception):
    """The program has ended before it answered; it has what the program said, and its status."""

    def __init__(self, said: str, status: int) -> None:
        super().__init__(said)
        self.said = said
        self.status = status


def look(program: str, script: str) -> None:
    """Looks whether the program serves the script; if not, raises StoreEnded with what it says."""
    how = {"stdin": subprocess.DEVNULL, "stdout": subprocess.DEVNULL, "stderr": subprocess.PIPE}
    ended = subprocess.run([program, "serve", script], check=False, **how)
    if ended.returncode:
        raise StoreEnded(ended.stderr.decode("utf-8", "backslashreplace"), ended.returncode)


class Store:
    """A running `dynamo serve`. An interrupt of the terminal does not reach it."""

    def __init__(self, program: str, script: str) -> None:
        look(program, script)
        pipes = {"stdin": subprocess.PIPE, "stdout": subprocess.PIPE, "stderr": subprocess.PIPE}
        self.child = subprocess.Popen([program, "serve", script], start_new_session=True, **pipes)

    def first(self, count: int) -> List[str]:
        """Returns the lines of the script's own commands, which are so many."""
        return [self.read() for _ in range(count)]

    def ask(self, line: str) -> List[str]:
        """Sends a line, and returns its answer with the audit that may stand before it."""
        try:
            self.child.stdin.write(line.encode("utf-8") + b"\n")
            self.child.stdin.flush()
        except OSError:
            self.lose([])
        lines = [self.read()]
        while not ANSWER.match(lines[-1]):
            lines.append(self.read(lines))
        return lines

    def end(self) -> List[str]:
        """Ends the input, and returns the lines of the audit."""
        self.close_input()
        lines = list(self.rest())
        said = self.child.stderr.read().decode("utf-8", "backslashreplace")
        if self.child.wait():
            raise StoreEnded("\n".join([*lines, said]), self.child.returncode)
        return lines

    def leave(self) -> None:
        """Ends the store, whatever it still says."""
        self.close_input()
        self.child.stdout.close()
        self.child.stderr.close()
        self.child.wait()

    def close_input(self) -> None:
        try:
            self.child.stdin.close()
        except OSError:
            # The program has ended, and its status tells why.
            pass

    def rest(self) -> Iterator[str]:
        return (text_of(line) for line in self.child.stdout)

    def read(self, before: List[str] = ()) -> str:
        """Returns the next line; these came before it, and are told where none comes."""
        line = self.child.stdout.readline()
        if not line.endswith(b"\n"):
            self.lose([*before, *([text_of(line)] if line else [])])
        return text_of(line)

    def lose(self, lines: List[str]) -> None:
        """Raises that the store has ended, with what it printed and said."""
        self.close_input()
        said = self.child.stderr.read().decode("utf-8", "backslashreplace")
        raise StoreEnded("\n".join([*lines, said]), self.child.wait())


def text_of(line: bytes) -> str:
    return line.decode("utf-8", "backslashreplace").rstrip("\n")

