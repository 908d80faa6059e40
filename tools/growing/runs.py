"""Runs the program with a library before its own that refuses a growth."""
import json
import os
import subprocess

from growing.frames import Frames, stacks_in

NO_MEMORY = "dynamo: E0 OutOfMemory\n"


def run(words, library, given="", **named):
    """Runs the program with the library loaded before its own, and gives it this input."""
    env = dict(os.environ, LD_PRELOAD=library, **named)
    how = {"env": env, "input": given, "capture_output": True, "encoding": "utf-8"}
    return subprocess.run(words, timeout=120, **how)


class Player:
    """Plays scripts of the program, by files in a folder. Those that were traced are counted, and
    those of their allocations whose calls could not be followed out of the program."""

    def __init__(self, program, library, folder):
        self.program, self.library, self.folder = program, library, folder
        self.frames, self.table = Frames(program), f"{folder}/frames"
        self.frames.write(self.table)
        self.played, self.traced, self.lost = {}, 0, 0

    def play(self, ring, commands, **named):
        """Runs a script of these commands."""
        path = f"{self.folder}/script.json"
        with open(path, "w", encoding="utf-8") as it:
            json.dump({**ring, "run": list(commands)}, it)
        return run([self.program, "run", path], self.library, **named)

    def output(self, ring, commands):
        """What a script of these commands prints where nothing is refused."""
        key = json.dumps([ring, commands])
        if key not in self.played:
            self.played[key] = Output(self.play(ring, commands).stdout)
        return self.played[key]

    def trace(self, ring, commands):
        """The calls that each allocation of a run lies in, by the places where they go on."""
        path = f"{self.folder}/traced"
        self.play(ring, commands, TRACED=path, FRAMES=self.table)
        stacks, lost = stacks_in(path)
        self.traced, self.lost = self.traced + 1, self.lost + lost
        return stacks


class Output:
    """What a run printed: what each command's line has behind its number, the audit, and how many
    steps there were."""

    def __init__(self, text):
        lines = text.splitlines()
        self.lines = [line.partition(" ")[2] for line in lines if line[:1].isdigit()]
        self.audit = [line for line in lines if not line[:1].isdigit()]
        self.steps = 0
        if self.audit and " steps " in self.audit[-1]:
            self.audit[-1], steps = self.audit[-1].split(" steps ")
            self.steps = int(steps)

    def behind(self, place):
        """The lines from a place on, and the audit."""
        return self.lines[place:], self.audit


def with_end(audit, change):
    """The audit, its last line's count of acknowledged puts changed."""
    words = audit[-1].split(" ")
    at = words.index("acked") + 1
    words[at] = str(int(words[at]) + change)
    return [*audit[:-1], " ".join(words)]
