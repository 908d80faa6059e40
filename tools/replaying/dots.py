"""Sets of dots of one key.

A dot is one number, its node times 2^20 plus its counter, so numbers have the order of dots. A set
is the rising tuple of the numbers at which its runs begin and end: (1, 4, 6, 7) has 1, 2, 3 and 6.
So a long run of counters takes two numbers.
"""
import re
from bisect import bisect_right
from functools import lru_cache
from typing import Iterator, Tuple

Dots = Tuple[int, ...]
SHIFT, MAX_COUNTER, MAX_NODE = 20, 1_000_000, 31
EMPTY: Dots = ()
BEYOND = 1 << 63
NODE_RUNS = re.compile("n([0-9]{1,2}):([0-9,-]+)")
COUNTERS = re.compile("([1-9][0-9]{0,6})(?:-([1-9][0-9]{0,6}))?")


class BadText(ValueError):
    """A text is no dot, or no context."""


def dot(node: int, counter: int) -> int:
    return (node << SHIFT) + counter


def node_of(it: int) -> int:
    return it >> SHIFT


def counter_of(it: int) -> int:
    return it & ((1 << SHIFT) - 1)


def one(it: int) -> Dots:
    """Returns the set of one dot."""
    return (it, it + 1)


def dot_text(it: int) -> str:
    return f"n{node_of(it)}:{counter_of(it)}"


def has(dots: Dots, it: int) -> bool:
    return bisect_right(dots, it) % 2 == 1


def combine(left: Dots, right: Dots, kept: int) -> Dots:
    """Returns the dots that the bits of `kept` name: 2 left alone, 4 right alone, 8 both."""
    out, i, j, inside = [], 0, 0, 0
    left, right = (*left, BEYOND), (*right, BEYOND)
    while True:
        at = min(left[i], right[j])
        if at == BEYOND:
            return tuple(out)
        i += left[i] == at
        j += right[j] == at
        now = kept >> ((i & 1) + 2 * (j & 1)) & 1
        if now != inside:
            out.append(at)
            inside = now


def union(left: Dots, right: Dots) -> Dots:
    if not left or left == right:
        return right
    return combine(left, right, 0b1110) if right else left


def minus(left: Dots, right: Dots) -> Dots:
    if not left or not right:
        return left
    if len(left) == 2 and bisect_right(right, left[0]) == bisect_right(right, left[1] - 1):
        return EMPTY if has(right, left[0]) else left
    return combine(left, right, 0b0010)


def both(left: Dots, right: Dots) -> Dots:
    return combine(left, right, 0b1000) if left and right else EMPTY


def lies_in(left: Dots, right: Dots) -> bool:
    return not minus(left, right)


def ends(dots: Dots) -> Iterator[int]:
    """Gives the last dot of each run."""
    return (it - 1 for it in dots[1::2])


def each(dots: Dots) -> Iterator[int]:
    """Gives the dots, rising."""
    for first, end in zip(dots[::2], dots[1::2]):
        yield from range(first, end)


def count(dots: Dots) -> int:
    return sum(dots[1::2]) - sum(dots[::2])


def context_text(dots: Dots) -> str:
    """Returns the one spelling of a set."""
    nodes = {}
    for first, end in zip(dots[::2], dots[1::2]):
        last = counter_of(end - 1)
        run = f"{counter_of(first)}-{last}" if end - first > 1 else f"{last}"
        node = node_of(first)
        nodes[node] = f"{nodes[node]},{run}" if node in nodes else f"n{node}:{run}"
    return " ".join(nodes.values()) or "-"


@lru_cache(maxsize=1 << 16)
def read_context(text: str) -> Dots:
    """Returns the set that a text spells; a set has one spelling."""
    bounds = []
    for word in [] if text == "-" else text.split(" "):
        match = NODE_RUNS.fullmatch(word)
        for run in match.group(2).split(",") if match else [""]:
            counters = COUNTERS.fullmatch(run)
            if not counters or not match or int(match.group(1)) > MAX_NODE:
                raise BadText(f"'{text}' is no context")
            first, last = counters.group(1), counters.group(2) or counters.group(1)
            bounds += [dot(int(match.group(1)), int(it)) for it in (first, last)]
            bounds[-1] += 1
    is_rising = all(before < after for before, after in zip(bounds, bounds[1:]))
    if not is_rising or any(counter_of(it) > MAX_COUNTER for it in ends(tuple(bounds))):
        raise BadText(f"'{text}' is no context")
    if context_text(tuple(bounds)) != text:
        raise BadText(f"'{text}' is not how its set is spelt")
    return tuple(bounds)


@lru_cache(maxsize=1 << 16)
def read_dot(text: str) -> int:
    """Returns the dot that a text names."""
    dots = read_context(text)
    if count(dots) != 1:
        raise BadText(f"'{text}' is no dot")
    return dots[0]
