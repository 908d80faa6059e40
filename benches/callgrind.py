"""Counts the instructions of the programs by valgrind's callgrind, for benches/instructions and benches/hot."""
import argparse
import collections
import concurrent.futures
import os
import subprocess
import tempfile

import scripts

ROWS = ["mixed-16-10000", "mixed-5000-10000", "gets-16-10000", "storm-1x1000", "blind-1-1000"]
EACH = {"gets": "a get", "blind": "a put", "puts": "a put", "storm": "a turn"}
OPTIONS = ["--tool=callgrind", "-q", "--dump-instr=yes", "--compress-pos=no", "--compress-strings=no"]


def given_by(usage):
    """Returns the words of benches/instructions or benches/hot."""
    words = argparse.ArgumentParser(usage=usage)
    words.add_argument("program", nargs="?")
    words.add_argument("--row", action="append", dest="rows")
    words.add_argument("--parts", nargs="?", type=int, const=40, default=0)
    given = words.parse_args()
    given.rows = given.rows or ROWS
    return given


class Counts:
    """What a run took: all its instructions, those of each function by itself and with what it calls,
    and how often each instruction was executed. A function is its object and its name, and an
    instruction a function and the address in the object."""

    def __init__(self, lines):
        self.all = 0
        self.own, self.whole, self.at = (collections.Counter() for _ in range(3))
        here = there = function = callee = None
        for line in lines:
            word, _, name = line.rstrip("\n").partition("=")
            if word == "ob":
                here = there = name
            elif word == "cob":
                there = name
            elif word == "fn":
                function = here, name
            elif word == "cfn":
                callee = there, name
            elif line.startswith("0x"):
                address, _, count = line.split()
                # Behind a callee's name stands what its calls from here took.
                if callee is None:
                    self.own[function] += int(count)
                    self.at[function, int(address, 16)] += int(count)
                if callee != function:
                    self.whole[function] += int(count)
                there, callee = here, None
            elif word.startswith("summary:"):
                self.all = int(word.split()[1])

    def without(self, other):
        """Takes what another run took away, and returns what is left."""
        self.all -= other.all
        self.own.subtract(other.own)
        self.whole.subtract(other.whole)
        self.at.subtract(other.at)
        return self


def counted(words, given=os.devnull):
    """Runs the words with the file as their input, and returns what was counted."""
    with tempfile.NamedTemporaryFile("r", encoding="utf-8", errors="replace") as out, open(given, "rb") as lines:
        valgrind = ["valgrind", *OPTIONS, f"--callgrind-out-file={out.name}"]
        subprocess.run([*valgrind, *words], stdin=lines, stdout=subprocess.DEVNULL, check=True)
        return Counts(out)


class Row:
    """A row of benches/all, and the same without its commands: a storm of one turn, a script of none, and
    of gets the puts before them. What is counted is their difference, so no start is in it."""

    def __init__(self, folder, name):
        self.name = name
        word, *numbers = name.split("-")
        self.each = EACH.get(word, "a command")
        if word == "storm":
            clients, turns = numbers[0].split("x")
            self.runs = [(["storm", "1", clients, it], os.devnull) for it in (turns, "1")]
            self.count = int(clients) * (int(turns) - 1)
            return
        shorter = "-".join([word, *numbers[:-1], "0"])
        paths = [scripts.write(folder, it.replace("serve", "mixed")) for it in (name, shorter)]
        served = [scripts.write_service(it) for it in paths]
        self.count = commands_of(served[0][1]) - commands_of(served[1][1])
        self.runs = [(["run", path], os.devnull) for path in paths]
        if word == "serve":
            self.runs = [(["serve", store], lines) for store, lines in served]

    def counts(self, programs):
        """Returns what the row's commands take, by each of the programs."""
        def count(program):
            whole, start = (counted([program, *words], given) for words, given in self.runs)
            return whole.without(start)

        with concurrent.futures.ThreadPoolExecutor(len(programs)) as pool:
            return list(pool.map(count, programs))


def commands_of(path):
    """Returns how many lines the file has."""
    with open(path, "rb") as it:
        return sum(1 for _ in it)
