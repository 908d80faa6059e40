"""How keys, values, versions and lists are spelt for a reader."""
import json
import re
from typing import Iterable, List, Optional, Sequence, Tuple

SHOWN_LENGTH = 40

Run = Tuple[int, int, int]


def text_of(data: bytes) -> Optional[str]:
    """Returns the bytes as a text, or None where they are none that can be printed."""
    try:
        text = data.decode("utf-8")
    except UnicodeDecodeError:
        return None
    return text if text.isprintable() else None


def shown(data: bytes) -> str:
    """Returns the bytes as a text in quotation marks, else in hexadecimal; long ones are cut."""
    text = text_of(data)
    whole = data.hex() if text is None else text
    cut = whole[:SHOWN_LENGTH]
    spelt = f"hex {cut}" if text is None else json.dumps(cut, ensure_ascii=False)
    return spelt if cut == whole else f"{spelt}.. ({len(data):,} bytes)"


def listed(words: Iterable[object]) -> str:
    """Returns the words with commas, and 'and' before the last."""
    spelt = [str(word) for word in words]
    return " and ".join([", ".join(spelt[:-1]), spelt[-1]] if len(spelt) > 1 else spelt)


def counted(count: int, noun: str) -> str:
    """Returns the count with the noun, which takes an s where it is not one."""
    return f"{count:,} {noun}{'' if count == 1 else 's'}"


class Count(int):
    """A count that a text has with the noun behind its colon: {stored:message}."""

    def __format__(self, noun: str) -> str:
        return counted(int(self), noun) if noun else f"{int(self):,}"


def named(noun: str, numbers: Sequence[int]) -> str:
    """Returns the noun with these numbers behind it: home 0, homes 1 and 2."""
    return f"{noun}{'' if len(numbers) == 1 else 's'} {listed(numbers)}"


def named_to(noun: str, first: int, last: int) -> str:
    """Returns the noun with the numbers from the first to the last: command 2, steps 3 to 5."""
    return f"{noun} {first}" if first == last else f"{noun}s {first} to {last}"


def runs_of(context: str) -> List[Run]:
    """Returns the runs of a context text: each a node, its first counter and its last."""
    found = []
    for node, runs in re.findall(r"n([0-9]{1,2}):([0-9,-]+)", context):
        for first, last in re.findall(r"([0-9]{1,7})(?:-([0-9]{1,7}))?", runs):
            found.append((int(node), int(first), int(last or first)))
    return found


def count_of(context: str) -> int:
    """Returns how many dots a context text names."""
    return sum(last - first + 1 for _, first, last in runs_of(context))


def dots_of(context: str) -> List[str]:
    """Returns the dots that a context text names."""
    runs = runs_of(context)
    return [f"n{node}:{at}" for node, first, last in runs for at in range(first, last + 1)]
