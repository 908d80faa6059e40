"""Where each call of a program returns to, and how far its frame reaches there.

A program of the kit has names of functions, and neither frame pointers nor tables to unwind it. So
its instructions are followed from the start of each function: at every call it is then known how
far above it the function's own return address lies. With that refusals.c tells the calls that an
allocation lies in.
"""
import bisect
import re
import struct
import subprocess

HEAD = re.compile(r"([0-9a-f]+) <(.*)>:$")
LINE = re.compile(r" *([0-9a-f]+):\t(\S+) *(.*?)(?: *#.*)?$")
ENDS = {"ret", "ud2", "hlt", "int3"}
WORD = 1 << 64


def number_of(text):
    """A number of 64 bits with its sign."""
    number = int(text, 16)
    return number - WORD if number >= WORD // 2 else number


class Function:
    """A function's instructions, and the depth of the stack at each: how far it is below the
    return address. A depth is followed along jumps."""

    def __init__(self, name, start):
        self.name, self.start, self.lines, self.depths = name, start, [], {}

    def follow(self):
        """Returns the places that its calls return to, each with its depth."""
        places = {line[0]: at for at, line in enumerate(self.lines)}
        todo, tables = [(0, (0, None, None))], []
        self.walk(todo, places, tables)
        # What a jump by a table leads to has the depth of that jump.
        for at in range(len(self.lines)):
            if at not in self.depths and tables:
                self.walk([(at, max(tables, key=lambda it: it[0]))], places, [])
        for at, (_, word, _) in enumerate(self.lines[:-1]):
            depth = self.depths.get(at)
            if word == "call" and depth is not None:
                yield self.lines[at + 1][0], depth

    def walk(self, todo, places, tables):
        """Follows the depths from each of these: the depth, that of rbp, and that at which a probe
        of the stack ends."""
        while todo:
            at, state = todo.pop()
            while at < len(self.lines) and at not in self.depths:
                self.depths[at] = state[0]
                _, word, rest = self.lines[at]
                if word in ENDS or state[0] is None:
                    break
                target = re.match(r"([0-9a-f]+)( |$)", rest) if word[0] == "j" else None
                if target and int(target[1], 16) in places:
                    todo.append((places[int(target[1], 16)], state))
                if word == "jmp":
                    if rest.startswith("*"):
                        tables.append(state)
                    break
                state = after(state, word, rest)
                at += 1


def after(state, word, rest):
    """The state of the stack after an instruction."""
    depth, frame, probe = state
    moved = re.match(r"(?:\$|)(-?0x[0-9a-f]+)(?:\((%\w+)\))?,(%rsp|%r11)$", rest)
    if word.startswith("push"):
        depth += 8
    elif word.startswith("pop"):
        depth -= 8
    elif word == "leave":
        depth = frame - 8
    elif word == "sub" and moved and moved[3] == "%rsp":
        depth += number_of(moved[1])
    elif word == "add" and moved and moved[3] == "%rsp":
        depth -= number_of(moved[1])
    elif word == "lea" and moved and moved[2] == "%rsp":
        to = depth - number_of(moved[1])
        depth, probe = (to, probe) if moved[3] == "%rsp" else (depth, to)
    elif word == "lea" and moved and moved.groups()[1:] == ("%rbp", "%rsp"):
        depth = frame - number_of(moved[1])
    elif word == "mov" and rest == "%rsp,%rbp":
        frame = depth
    elif word == "mov" and rest == "%rbp,%rsp":
        depth = frame
    elif word == "cmp" and rest in ("%r11,%rsp", "%rsp,%r11") and probe is not None:
        depth = probe
    elif rest.endswith(",%rsp") and word in ("and", "sub", "add", "mov", "lea"):
        depth = None
    return depth, frame, probe


class Frames:
    """The functions of a program, and where their calls return to."""

    def __init__(self, program):
        words = ["objdump", "-d", "--no-show-raw-insn", program]
        ran = subprocess.run(words, stdout=subprocess.PIPE, check=True, encoding="utf-8")
        functions = []
        for line in ran.stdout.splitlines():
            head = HEAD.match(line)
            if head:
                functions.append(Function(head[2], int(head[1], 16)))
                continue
            found = LINE.match(line)
            if found and functions:
                functions[-1].lines.append((int(found[1], 16), found[2], found[3]))
        self.starts = [it.start for it in functions]
        self.names = [it.name for it in functions]
        self.reaches = sorted(pair for it in functions for pair in it.follow())

    def write(self, path):
        """Writes the table that refusals.c reads."""
        with open(path, "wb") as it:
            for place, reach in self.reaches:
                it.write(struct.pack("<II", place, reach))

    def name_at(self, place):
        """The name of the function in which a call returns to the place."""
        return self.names[bisect.bisect_left(self.starts, place) - 1]


def stacks_in(path):
    """The calls of each allocation that a run wrote to the file, the innermost first, and how many
    of them could not be followed out of the program."""
    with open(path, "rb") as it:
        whole = it.read()
    stack, stacks, lost = [], [], 0
    for (place,) in struct.iter_unpack("<Q", whole):
        if place > 1:
            stack.append(place)
            continue
        stacks.append(tuple(stack))
        stack, lost = [], lost + place
    return stacks, lost
