"""Reads JSON as the reader of scripts does, and keeps where each value stands.

A text that is read here is one that `dynamo` reads, and no other: bytes that are no UTF-8, a byte
order mark, anything behind the value, 128 open brackets, a number beyond a finite double, half a
surrogate pair and a raw byte below 0x20 in a text are refused, and of members of one name the last
one counts.
"""
import bisect
import difflib
import math
import re
from dataclasses import dataclass, field
from typing import Any, Dict, Iterable, List, Optional, Tuple

MAX_OPEN = 127
BLANKS = re.compile(r"[ \t\r\n]*")
PLAIN = re.compile(r'"([^"\\\x00-\x1f]*)"')
CHARACTERS = re.compile(r'[^"\\\x00-\x1f]*')
FOUR_DIGITS = re.compile(r"[0-9a-fA-F]{4}")
NUMBER = re.compile(r"-?(0|[1-9][0-9]*)(\.[0-9]+)?([eE][+-]?[0-9]+)?")
NUMBER_LIKE = re.compile(r"[-+.0-9][-+.0-9eE]*")
WORD = re.compile(r"\w+")
WORDS = {"true": True, "false": False, "null": None}
ESCAPES = dict(zip('"\\/bfnrt', '"\\/\b\f\n\r\t'))


class NotJson(Exception):
    """A text that is no JSON: what is wrong with it, and the character where it is."""

    def __init__(self, start: int, text: str):
        super().__init__(text)
        self.start, self.text = start, text


class Number(str):
    """A number as it is spelt."""


@dataclass
class Value:
    """A JSON value: where it begins, and a dict of members, list, text, number, truth or None."""

    start: int
    data: Any


@dataclass
class Member:
    """A member: where its name begins, its value, and where its name stood before."""

    start: int
    value: Value
    earlier: List[int] = field(default_factory=list)


class Lines:
    """The lines of a text, to tell where in it something stands."""

    def __init__(self, text: str):
        self.starts = [0] + [found.end() for found in re.finditer("\n", text)]

    def place(self, start: int) -> Tuple[int, int]:
        """The line and the column of a character, both from 1."""
        line = bisect.bisect_right(self.starts, start)
        return line, start - self.starts[line - 1] + 1


class Reader:
    """Reads one text, from its first character to its last."""

    def __init__(self, text: str):
        self.text, self.at, self.open = text, 0, 0

    def whole(self) -> Value:
        """The one value of the text."""
        if self.text.startswith("\ufeff"):
            raise NotJson(0, "the file begins with a byte order mark; save it without one")
        self.skip()
        value = self.value()
        self.skip()
        if self.at < len(self.text):
            raise NotJson(self.at, "something stands behind the end of the script; take it away")
        return value

    def skip(self) -> None:
        """Goes past blanks and line ends."""
        self.at = BLANKS.match(self.text, self.at).end()

    def next(self) -> str:
        """The character that comes, empty at the end."""
        return self.text[self.at : self.at + 1]

    def refuse(self, wanted: str) -> NotJson:
        """What to say where something else is wanted."""
        if self.at == len(self.text):
            return NotJson(self.at, f"the file ends here; write {wanted}")
        if self.next() in "/#":
            return NotJson(self.at, "JSON has no comments; take it away")
        return NotJson(self.at, f"{self.next()!r} can't stand here; write {wanted}")

    def value(self) -> Value:
        """The value that begins here."""
        start, first = self.at, self.next()
        if first == '"':
            return Value(start, self.string())
        if first in ("{", "["):
            if self.open == MAX_OPEN:
                raise NotJson(start, f"this bracket stands in {MAX_OPEN} others; that is too deep")
            self.open += 1
            self.at += 1
            value = Value(start, self.members() if first == "{" else self.items())
            self.open -= 1
            return value
        if NUMBER_LIKE.match(self.text, start):
            return Value(start, self.number())
        if WORD.match(self.text, start):
            return Value(start, self.word())
        raise self.refuse("a value")

    def members(self) -> Dict[str, Member]:
        """The members of an object, behind its bracket."""
        found: Dict[str, Member] = {}
        self.skip()
        while not self.ends("}", bool(found)):
            start = self.at
            if self.next() != '"':
                raise self.refuse("a name in double quotes, or '}'")
            name = self.string()
            self.skip()
            if self.next() != ":":
                raise self.refuse("':' behind the name")
            self.at += 1
            self.skip()
            member = Member(start, self.value())
            if name in found:
                member.earlier = found[name].earlier + [found[name].start]
            found[name] = member
            self.skip()
        return found

    def items(self) -> List[Value]:
        """The items of a list, behind its bracket."""
        found: List[Value] = []
        self.skip()
        while not self.ends("]", bool(found)):
            found.append(self.value())
            self.skip()
        return found

    def ends(self, bracket: str, has_some: bool) -> bool:
        """Whether the bracket closes here; where not, goes past the comma that must come."""
        if self.next() == bracket:
            self.at += 1
            return True
        if not has_some:
            return False
        comma = self.at
        if self.next() != ",":
            raise self.refuse(f"',' or '{bracket}'")
        self.at += 1
        self.skip()
        if self.next() == bracket:
            raise NotJson(comma, f"no comma stands before '{bracket}'; take it away")
        return False

    def string(self) -> str:
        """The text that begins with this quote."""
        plain = PLAIN.match(self.text, self.at)
        if plain:
            self.at = plain.end()
            return plain[1]
        start, parts = self.at, []
        self.at += 1
        while True:
            chunk = CHARACTERS.match(self.text, self.at)
            parts.append(chunk[0])
            self.at = chunk.end()
            character = self.next()
            if character == '"':
                self.at += 1
                return "".join(parts)
            if character == "\\":
                parts.append(self.escape())
            elif character in ("", "\n", "\r"):
                raise NotJson(start, 'this text has no end on its line; close it with a "')
            else:
                raise NotJson(self.at, f"a raw byte below 0x20; write \\u{ord(character):04x}")

    def escape(self) -> str:
        """The character that an escape stands for."""
        start, letter = self.at, self.text[self.at + 1 : self.at + 2]
        if letter in ESCAPES:
            self.at += 2
            return ESCAPES[letter]
        if letter != "u":
            raise NotJson(start, "there is no such escape; write \\\\ for a backslash")
        first = self.unit()
        if 0xD800 <= first < 0xDC00 and self.text.startswith("\\u", self.at):
            second = self.unit()
            if 0xDC00 <= second < 0xE000:
                return chr(0x10000 + ((first - 0xD800) << 10) + (second - 0xDC00))
        if 0xD800 <= first < 0xE000:
            said = "half a surrogate pair; write both halves, or the character itself"
            raise NotJson(start, said)
        return chr(first)

    def unit(self) -> int:
        """The number of an escape of four digits."""
        digits = FOUR_DIGITS.match(self.text, self.at + 2)
        if not digits:
            raise NotJson(self.at, "\\u has four hexadecimal digits")
        self.at = digits.end()
        return int(digits[0], 16)

    def number(self) -> Number:
        """The number that begins here."""
        start, spelt = self.at, NUMBER_LIKE.match(self.text, self.at)[0]
        if not NUMBER.fullmatch(spelt):
            raise NotJson(start, f"{shown(spelt)} is no number; {slip_of(spelt)}")
        if math.isinf(float(spelt)):
            raise NotJson(start, "this number is beyond what a double can be")
        self.at += len(spelt)
        return Number(spelt)

    def word(self) -> Any:
        """What the word that begins here means."""
        word = WORD.match(self.text, self.at)[0]
        if word not in WORDS:
            near = nearest(word, WORDS)
            hint = f"did you mean {near}?" if near else "a text stands in double quotes"
            raise NotJson(self.at, f"there is no word {shown(word)}; {hint}")
        self.at += len(word)
        return WORDS[word]


def slip_of(spelt: str) -> str:
    """What to do about a number that is spelt wrong."""
    if spelt.startswith("+"):
        return "take away the +"
    if re.match("-?0[0-9]", spelt):
        return "take away the zero before it"
    if re.match(r"-?\.", spelt):
        return "write a digit before the point"
    return "write digits, and more behind a point, an exponent or a sign"


def shown(text: str) -> str:
    """The text in single quotes, on one line, and not too long."""
    cut = text if len(text) <= 40 else text[:40] + ".."
    return "'" + escaped(cut) + "'"


def escaped(text: str) -> str:
    """The text with what can't be printed as escapes."""
    if text.isprintable():
        return text
    return "".join(c if c.isprintable() else c.encode("unicode_escape").decode() for c in text)


def nearest(word: str, choices: Iterable[str]) -> str:
    """The choice that the word may have been meant for, or an empty text."""
    lower = {choice.lower(): choice for choice in choices}
    near = difflib.get_close_matches(word.lower()[:100], lower, 1)
    return lower[near[0]] if near else ""


def text_of(data: bytes) -> Tuple[str, Optional[NotJson]]:
    """The text of the bytes; where they are no UTF-8, the text before, and what is wrong there."""
    try:
        return data.decode("utf-8"), None
    except UnicodeDecodeError as error:
        text = data[: error.start].decode("utf-8")
        return text, NotJson(len(text), "a byte that is no UTF-8; save the file as UTF-8")
