"""What a typed line asks for: a command of the store, as JSON has it, or one of the shell's own."""
import shlex
from typing import Any, Dict, List, Mapping, NamedTuple, Optional, Tuple

from reading.rules import COMMANDS, MEMBERS, MODES, NUMBERS
from reading.texts import shown

# How a typed line names the members that may stand behind those that a command needs.
OPTIONS = {name: rule.typed for name, rule in MEMBERS.items() if rule.typed}
# The commands that have no words behind them; the store does the first.
PLAIN = ("renew", "audit", "new", "quit")
WORDS = (*COMMANDS, *PLAIN, "help")
DIGITS = "0123456789abcdefABCDEF"


class BadWords(Exception):
    """The words ask for nothing; the text says why."""


class Asked(NamedTuple):
    """What a line asks for: its word, the members of a command, or what help is wanted of."""

    word: str
    members: Dict[str, Any]
    topic: str = ""


class Known(NamedTuple):
    """What words may speak of: how many nodes there are, and each key's context of its last get."""

    nodes: int
    contexts: Mapping[bytes, str]


def needs_of(word: str) -> Tuple[str, ...]:
    """Returns the words that a command of the store needs behind its own, in their order."""
    return COMMANDS[word].needs + (("value",) if "value" in COMMANDS[word].may else ())


def options_of(word: str) -> Tuple[str, ...]:
    """Returns the words that may stand behind those that a command of the store needs."""
    return tuple(option for name, option in OPTIONS.items() if name in COMMANDS[word].may)


def usage_of(word: str) -> str:
    """Returns how a command is typed."""
    if word == "help":
        return "help [COMMAND]"
    if word not in COMMANDS:
        return word
    needed = [name.upper() for name in needs_of(word)]
    may = [rule for name, rule in MEMBERS.items() if rule.typed and name in COMMANDS[word].may]
    return " ".join([word, *needed, *(f"[{rule.typed} {rule.place}]" for rule in may)])


def typed(word: str) -> str:
    """Returns how the command is typed, as the end of what is said of bad words."""
    return f"type {usage_of(word)}"


def split(line: str) -> List[str]:
    """Returns the words of a line; those with blanks stand in quotation marks."""
    try:
        line.encode("utf-8")
        return shlex.split(line)
    except UnicodeEncodeError:
        raise BadWords("the line is not UTF-8") from None
    except ValueError as error:
        is_open = "closing" in str(error)
        what = "a quotation mark is not closed" if is_open else "nothing stands behind the last \\"
        raise BadWords(what) from None


def number_of(word: str, name: str, most: int) -> int:
    """Returns the number that a word is, of this member."""
    is_number = word.isascii() and word.isdigit()
    if not is_number or len(word) > len(str(most)) or int(word) > most:
        raise BadWords(f"{name} is a number from 0 to {most}, and not {shown_word(word)}")
    return int(word)


def shown_word(word: str) -> str:
    return shown(word.encode("utf-8"))


def node_of(word: str, known: Known) -> int:
    """Returns the node that a word names."""
    return number_of(word, "a node", known.nodes - 1)


def mode_of(word: str) -> str:
    """Returns the mode that a word names."""
    if word not in MODES:
        raise BadWords(f"there is no mode {shown_word(word)}; there are {', '.join(MODES)}")
    return word


def is_dots(word: str) -> bool:
    """Tells whether a word may be the dots of one node, as those of a context are."""
    return word[:1] == "n" and word[1:2].isdigit() and ":" in word


def context_of(words: List[str], key: str, known: Known) -> str:
    """Takes a context off the words, and returns it; 'it' is that of the last get of the key."""
    first = words.pop(0)
    if first != "it":
        dots = [first]
        while is_dots(first) and words and is_dots(words[0]):
            dots.append(words.pop(0))
        return " ".join(dots)
    context = known.contexts.get(key.encode("utf-8"))
    if context is None:
        raise BadWords(f"no get of {shown_word(key)} was answered yet, so there is nothing that"
                       f" 'it' names; type get {shlex.quote(key)} first")
    return context


def value_in(words: List[str]) -> Dict[str, str]:
    """Takes the value of a put off the words; behind 'hex' it may be in hexadecimal digits."""
    value = words.pop(0)
    is_hex = value == "hex" and words and words[0] and all(it in DIGITS for it in words[0])
    if not is_hex:
        return {"value": value}
    if len(words[0]) % 2:
        raise BadWords("a value behind hex has two digits for each byte")
    return {"valuehex": words.pop(0)}


def needed_in(word: str, words: List[str], known: Known) -> Dict[str, Any]:
    """Takes what a command of the store needs off the words."""
    members: Dict[str, Any] = {}
    for name in needs_of(word):
        if not words:
            raise BadWords(f"a {word} needs a {name}; {typed(word)}")
        if name == "value":
            members.update(value_in(words))
        elif name == "node":
            members[name] = node_of(words.pop(0), known)
        else:
            members[name] = mode_of(words.pop(0)) if name == "mode" else words.pop(0)
    return members


def optional_in(word: str, words: List[str], key: str, known: Known) -> Dict[str, Any]:
    """Takes what may stand behind off the words."""
    members: Dict[str, Any] = {}
    names = {option: name for name, option in OPTIONS.items() if option in options_of(word)}
    while words:
        option = words.pop(0)
        if option not in names:
            blanks = " in quotation marks, where it has blanks" if "value" in needs_of(word) else ""
            hint = f", the value{blanks}" if blanks else ""
            raise BadWords(f"{shown_word(option)} is too much; {typed(word)}{hint}")
        name = names[option]
        if name in members:
            raise BadWords(f"{option} comes twice")
        if not words:
            raise BadWords(f"nothing stands behind {option}; {typed(word)}")
        if name == "context":
            members[name] = context_of(words, key, known)
        else:
            members[name] = number_of(words.pop(0), name, NUMBERS[MEMBERS[name].kind])
    return members


def read_words(line: str, known: Known) -> Optional[Asked]:
    """Returns what a line asks for, or None where it is blank."""
    words = split(line)
    if not words:
        return None
    word = words.pop(0)
    if word == "help":
        if len(words) > 1 or words and words[0] not in WORDS:
            raise BadWords(f"there is no help of {shown_word(' '.join(words))}; type help")
        return Asked(word, {}, *words)
    if word in PLAIN:
        if words:
            raise BadWords(f"{shown_word(words[0])} is too much; {typed(word)}")
        return Asked(word, {"do": word} if word == "renew" else {})
    if word not in COMMANDS:
        raise BadWords(f"there is no command {shown_word(word)}; help lists them")
    needed = needed_in(word, words, known)
    return Asked(word, {"do": word, **needed,
                        **optional_in(word, words, needed.get("key", ""), known)})
