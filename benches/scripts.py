#!/usr/bin/env python3
"""Writes the scripts that benches/all has programs run.

usage: benches/scripts.py FOLDER [NAME ..]    without names all of them; each is FOLDER/NAME.json
       benches/scripts.py --service SCRIPT    of a script, SCRIPT.store for `dynamo serve`, which has no
                                              commands, and SCRIPT.lines, which has them as its input

A name says what the script does, and ends with how often:

mixed-KEYS-COMMANDS    gets and puts by turns, of k0, k1 and so on in turn; a put has the context that
                       the get before it is given
longkeys-KEYS-COMMANDS as mixed, with keys of 40 bytes, of which the first 24 are alike
values-BYTES-COMMANDS  as mixed, over 16 keys, with values of so many bytes
outages-KEYS-COMMANDS  as mixed; of each 200 of its gets and puts a node is down for the first 100, each
                       node in turn, and then the other four hand over what they kept for it
siblings-KEYS-ROUNDS   in each round 99 puts of each key without a context, and then a get of each key
                       and a put with its context: from the second round on it reconciles 100 siblings
gets-KEYS-COMMANDS     a put of each key, and then gets of the keys in turn
blind-KEYS-PUTS        puts of the keys in turn, all without a context: each stands beside all others
handoff-HINTS          puts of so many keys while a home is down, which is back for the one pass at the end
delayed-MESSAGES       puts over 5,000 keys of which two homes keep the messages, and then deliver them
puts-KEYS-PUTS         puts of the keys in turn, each with the context of all those before
"""
import hashlib
import itertools
import json
import os
import sys

TOKENS = ["20", "60", "a0", "d0", "f0"]
# All of these lie below the positions of all keys, so each key's homes are nodes 0, 1 and 2, and node
# 0 makes its versions; nodes 3 and 4 stand in.
LOW_TOKENS = ["00" * 15 + f"{it:02x}" for it in (1, 2, 3, 4, 5)]
NAMES = [f"mixed-{keys}-{commands}" for keys in (1, 16, 5000, 50000) for commands in (1000, 10000, 100000)]
NAMES += ["longkeys-16-10000", "longkeys-5000-10000", "values-1000-10000", "values-4096-10000"]
NAMES += ["outages-16-20000", "siblings-16-10"]
NAMES += ["gets-16-100000"]
NAMES += [f"blind-1-{puts}" for puts in (1000, 2000, 4000, 10000)]
NAMES += ["blind-1000-20000", "blind-1000-100000", "handoff-10000", "delayed-100000"]
NAMES += ["puts-5000-100000"]


def get(key):
    return {"do": "get", "key": key}


def order_of(name):
    """Returns the nodes in the order in which the key prefers them: from the next token of the ring."""
    first = hashlib.md5(name.encode()).digest()[0]
    at = next((at for at, token in enumerate(TOKENS) if int(token, 16) > first), 0)
    return [(at + more) % len(TOKENS) for more in range(len(TOKENS))]


def short_name(at):
    return f"k{at}"


def long_name(at):
    return "session/2026-11-28/user-" + hashlib.md5(str(at).encode()).hexdigest()[:16]


class Keys:
    """Keys, and how many versions each node made of each."""

    def __init__(self, count, name_of=short_name, order_of=order_of):
        self.names = [name_of(at) for at in range(count)]
        self.orders = [order_of(name) for name in self.names]
        self.made = [{} for _ in range(count)]

    def put(self, at, knows=True, down=None, size=0):
        """Returns the put of this number, behind those of its key before it where it knows them. Its value
        has as many bytes as size says, or a few."""
        number = at % len(self.names)
        put = {"do": "put", "key": self.names[number], "value": f"v{at}"}
        made = self.made[number]
        if size:
            put["value"] = f"v{at} ".ljust(size, "x")
        if knows and made:
            runs = [f"n{node}:1-{last}" if last > 1 else f"n{node}:1" for node, last in sorted(made.items())]
            put["context"] = " ".join(runs)
        node = next(it for it in self.orders[number] if it != down)
        made[node] = made.get(node, 0) + 1
        return put


def turns(keys, numbers, **of_put):
    """Returns a get and a put for each number."""
    run = []
    for at in numbers:
        put = keys.put(at, **of_put)
        run += [get(put["key"]), put]
    return run


def mixed(keys, commands):
    return TOKENS, turns(Keys(keys), range(commands // 2))


def longkeys(keys, commands):
    return TOKENS, turns(Keys(keys, long_name), range(commands // 2))


def values(size, commands):
    return TOKENS, turns(Keys(16), range(commands // 2), size=size)


def outages(keys, commands):
    keys, run = Keys(keys), []
    for begin in range(0, commands // 2, 100):
        node = begin // 100 % len(TOKENS)
        others = [it for it in range(len(TOKENS)) if it != node]
        run += [{"do": "down", "node": node}, *turns(keys, range(begin, begin + 50), down=node)]
        run += [{"do": "up", "node": node}, *({"do": "handoff", "node": it} for it in others)]
        run += turns(keys, range(begin + 50, begin + 100))
    return TOKENS, run


def siblings(keys, rounds):
    keys, run, more = Keys(keys), [], itertools.count()
    count = len(keys.names)
    for _ in range(rounds):
        run += [keys.put(at, knows=False) for at in itertools.islice(more, 99 * count)]
        run += turns(keys, itertools.islice(more, count))
    return TOKENS, run


def gets(keys, commands):
    keys = Keys(keys)
    names = keys.names
    puts = [keys.put(at) for at in range(len(names))]
    return TOKENS, puts + [get(names[at % len(names)]) for at in range(commands - len(puts))]


def blind(keys, puts):
    keys = Keys(keys)
    return TOKENS, [keys.put(at, knows=False) for at in range(puts)]


def puts(keys, count):
    keys = Keys(keys)
    return TOKENS, [keys.put(at) for at in range(count)]


def handoff(hints):
    keys = Keys(hints, order_of=lambda name: [0])
    run = [{"do": "down", "node": 1}] + [keys.put(at) for at in range(hints)]
    return LOW_TOKENS, run + [{"do": "up", "node": 1}, {"do": "handoff", "node": 3}]


def delayed(messages):
    keys, nodes = Keys(5000, order_of=lambda name: [0]), (1, 2)

    def at_both(word, **members):
        return [{"do": word, "node": node, **members} for node in nodes]

    # A script has 100,000 commands at most; each put leaves two messages.
    count = min(messages // 2, 100_000 - 6)
    run = at_both("fault", mode="delay") + [keys.put(at) for at in range(count)]
    return LOW_TOKENS, run + at_both("fault", mode="none") + at_both("deliver")


MAKERS = {it.__name__: it for it in (mixed, longkeys, values, outages, siblings, gets, blind, puts,
                                     handoff, delayed)}


def text_of(name):
    """Returns the script of this name."""
    word, *numbers = name.split("-")
    tokens, run = MAKERS[word](*map(int, numbers))
    script = {"n": 3, "r": 2, "w": 2, "tokens": [[it] for it in tokens], "run": run}
    return json.dumps(script, separators=(",", ":")) + "\n"


def write(folder, name):
    """Writes the script of this name, and returns its path."""
    path = os.path.join(folder, f"{name}.json")
    with open(path, "w", encoding="utf-8") as out:
        out.write(text_of(name))
    return path


def write_service(path):
    """Writes the script without its commands, and these as lines. Returns both paths."""
    with open(path, encoding="utf-8") as it:
        script = json.load(it)
    commands = script.pop("run", [])
    paths = [f"{path}.{it}" for it in ("store", "lines")]
    for path, values in zip(paths, ([script], commands)):
        with open(path, "w", encoding="utf-8") as out:
            out.writelines(json.dumps(it, separators=(",", ":")) + "\n" for it in values)
    return paths


def main(words):
    if len(words) == 2 and words[0] == "--service":
        write_service(words[1])
        return 0
    if not words or words[0].startswith("-"):
        print(__doc__, end="", file=sys.stderr)
        return 2
    for name in words[1:] or NAMES:
        write(words[0], name)
    return 0


if __name__ == "__main__":
    sys.exit(main(sys.argv[1:]))
