"""Checks that the schema is as the table has it, and that the tools, the client, the pages, the
scenes and the sources of both programs know each command, member, mode, number and option.
"""
import inspect
import json
import re
from typing import Any, Dict, Iterator, Set, Tuple

from explaining.refusals import read_meanings
from explaining.tellings import tell
from pictures.run_drawing import drawn_run
from replaying import forms as replaying
from replaying.dots import BadText
from shelling.helps import help_of
from shelling.words import Known, needs_of, read_words
from testing import TOP, module_of, scenes

from . import rules
from .lines import COMMAND_FORMS, Refused, read_line
from .rules import COMMANDS, LIMITS, MEMBERS, MODES
from .schemas import schema_text
from .scripts import read_script

SCHEMA = TOP / "docs/script.schema.json"
HEAD = {"n": 1, "r": 1, "w": 1, "derived": {"nodes": 1, "per_node": 1}}
END = "end held 0 acked 0 gets 0 steps 0\n"
GIVEN = {"key": "a", "node": 0, "mode": "none"}
SEED, SEEDED = 1, 1000
EACH = "examples/scripts/each_member_of_a_script.json"
Check = Tuple[str, object, object]
PLAIN = "benches/plain/src/*.rs"
READERS = ["crates/dy_script/src/*.rt", "crates/dy_modes/src/*.rt"]
OPTION = r'has_flag\(words, "(--[a-z]+)"\)'
CONSTANT = r"const (MAX_[A-Z_]+): \w+ = ([0-9_]+);"
# What pages say of the numbers, whole or with the words around it.
SAID = {
    "docs/FORMATS.md": [
        "A key has 1 to {MAX_KEY_BYTES:,} bytes, and a value 0 to {MAX_VALUE_BYTES:,}.",
        "its UTF-8 bytes are the key, 1 to {MAX_KEY_BYTES:,} of them",
        "its UTF-8 bytes are the value, at most {MAX_VALUE_BYTES:,} of them",
        "list of texts of 1 to {MAX_KEY_BYTES:,} bytes", "counters 1 to {MAX_COUNTER:,}.",
        "list of at most {MAX_COMMANDS:,} commands", "A `run` of more than {MAX_COMMANDS:,} is",
        "names more than {MAX_CONTEXT_DOTS:,} dots",
        "over {MAX_NODES} nodes, or over {MAX_TOKENS_PER_NODE} tokens of a node",
        "at most {MAX_VERSIONS:,} versions and {MAX_STEPS:,} steps",
    ],
    "docs/REFUSALS.md": [
        "a key of no byte, or of more than {MAX_KEY_BYTES:,}", "a key of 1 to {MAX_KEY_BYTES:,}",
        "a value of more than {MAX_VALUE_BYTES:,} bytes",
        "over {MAX_NODES} nodes, {MAX_TOKENS_PER_NODE} tokens a node",
    ],
}


def script_of(word: str, **more: object) -> Dict[str, Any]:
    """Returns a script of one such command."""
    value = {"value": "x"} if word == "put" else {}
    command = {"do": word, **{name: GIVEN[name] for name in COMMANDS[word].needs}, **value, **more}
    return {**HEAD, "run": [command]}


def text_of(script: Dict[str, Any], output: str) -> str:
    """Returns what tools/explain says and tools/picture draws of an output."""
    telling = tell(json.dumps(script).encode("utf-8"), output, read_meanings(), False)
    return "\n".join([*telling.complaints, *telling.lines, drawn_run(script, output)])


def text_in(files: str) -> str:
    """Returns what these files have, one behind the other."""
    return "".join(path.read_text(encoding="utf-8") for path in sorted(TOP.glob(files)))


def row_of(page: str, *cells: str) -> bool:
    """Tells whether the page has a row of a table that begins with these cells."""
    return f"\n| {' | '.join(cells)} |" in page


def members_in(script: bytes) -> Set[str]:
    """Returns the names of the members that a script's commands have, none where it is no script."""
    try:
        commands = json.loads(script).get("run", [])
    except (AttributeError, ValueError):
        return set()
    return {name for it in commands if isinstance(it, dict) for name in it}


def is_replayed(line: str) -> bool:
    """Tells whether tools/replay reads a line."""
    try:
        return bool(replaying.read_line(line))
    except BadText:
        return False


def command_checks(lint: Any, store: Any) -> Iterator[Check]:
    """Checks each command of the table: what is said of its line, and what is typed and called."""
    schema = json.loads(SCHEMA.read_text(encoding="utf-8"))
    for word, rule in COMMANDS.items():
        refused = f"1 {word} E0 OutOfMemory"
        said = text_of(script_of(word), f"{refused}\n{END}")
        yield f"explain and picture of {word}", said.startswith(f"1  {word}"), True
        yield f"replay of {word}", is_replayed(refused), True
        found = [lint.findings_of(json.dumps(script_of(word, **more)).encode("utf-8"), schema)[0]
                 for more in ({}, {"node": 1} if "node" in rule.needs else {"node": 0})]
        yield f"lint of {word}", [len(it) for it in found], [0, 1]
        command = script_of(word)["run"][0]
        typed = " ".join([word, *(str(command[name]) for name in needs_of(word))])
        yield f"shell of {word}", read_words(typed, Known(1, {})).members, command
        yield f"help of {word}", help_of(word)[1], f"   It {rule.does}."
        method = getattr(store, word, None)
        called = inspect.signature(method).parameters if method else ()
        lacking = {word, *rule.needs, *rule.may} - {word if method else "", *called, "valuehex"}
        yield f"what the client's {word} lacks", lacking, set()


def mode_checks() -> Iterator[Check]:
    """Checks that each mode of the table is said and drawn."""
    for name, mode in MODES.items():
        said = text_of(script_of("fault", mode=name), f"1 fault ok\n{END}")
        is_told = f"node 0 {mode.does}." in said and f"node 0 {mode.drawn}<" in said
        yield f"explain and picture of the mode {name}", is_told, True


def page_checks() -> Iterator[Check]:
    """Checks that pages have each row of the table, and each of its numbers."""
    formats, client = text_in("docs/FORMATS.md"), text_in("clients/python/README.md")
    _, commands, _ = re.split(r"^### Commands$|^### Rings of a script$", formats, flags=re.M)
    told = set(re.findall(r"`(\w+)`", "".join(re.findall(r"^\| (.*?) \|", commands, re.M))))
    others = told ^ {"do", *COMMANDS, *MEMBERS}
    yield "the commands and members that docs/FORMATS.md has otherwise", others, set()
    for name in MODES:
        yield f"the mode {name} in docs/FORMATS.md", row_of(formats, f"`{name}`"), True
    for name, limit in LIMITS.items():
        is_there = row_of(formats, f"`{name}`", f"1 to {limit.most:,}")
        yield f"the limit {name} in docs/FORMATS.md", is_there, True
    told = set(re.findall(r"`(\w+)`", text_in("examples/README.md")))
    yield "the scenes that examples/README.md lacks", {it.name for it in scenes()} - told, set()
    for word in COMMANDS:
        yield f"{word} in clients/python/README.md", f"`{word}(" in client, True
    for name, texts in SAID.items():
        for wanted in (text.format(**vars(rules)) for text in texts):
            yield f"'{wanted}' in {name}", wanted in text_in(name), True


def program_checks() -> Iterator[Check]:
    """Checks the sources of both programs: their limits and words, and the options of the first."""
    limits = {name: most for name, most in vars(rules).items() if name.startswith("MAX_")}
    for files, readers in ("crates/*/src/*.rt", READERS), (PLAIN, [PLAIN]):
        found = {name: int(most) for name, most in re.findall(CONSTANT, text_in(files))}
        others = {name for name, most in limits.items() if found.get(name) != most}
        yield f"the limits that {files} has otherwise", others, set()
        text = "".join(map(text_in, readers))
        lacking = {it for it in (*COMMANDS, *MEMBERS, *MODES) if f'"{it}"' not in text}
        yield f"the words that {' and '.join(readers)} lack", lacking, set()
    options = set(re.findall(OPTION, text_in("crates/dy_jobs/src/*.rt")))
    yield "the program has options", bool(options), True
    for name in ("README.md", "docs/FORMATS.md", "tools/completion.bash", "tools/edges"):
        page = text_in(name)
        yield f"the options that {name} lacks", {it for it in options if it not in page}, set()


def rule_checks() -> Iterator[Check]:
    """Checks that the schema, the seeded scripts, the examples and all programs know the table."""
    words, modes, schema = set(COMMANDS), set(MODES), SCHEMA.read_text(encoding="utf-8")
    yield "the schema is what --write makes of the table", schema_text(schema) == schema, True
    seeded = json.loads(module_of("tools/scripts").text_of(SEED, SEEDED))["run"]
    yield "the commands that no seed has", words - {it["do"] for it in seeded}, set()
    yield "the modes that no seed has", modes - {it.get("mode") for it in seeded}, set()
    lines = [read_line(line) for scene in scenes() for line in scene.output.splitlines()]
    told = [it for it in lines if isinstance(it, COMMAND_FORMS) and not isinstance(it, Refused)]
    yield "the commands that no scene has done", words - {it.word for it in told}, set()
    scripts = [read_script(scene.script.read_bytes()) for scene in scenes()]
    each = read_script((TOP / EACH).read_bytes())
    yield f"the commands that {EACH} lacks", words - {it.word for it in each.commands if it}, set()
    given = {it for scene in scenes() for it in members_in(scene.script.read_bytes())}
    yield "the members that no scene has", set(MEMBERS) - given, set()
    drawn = {it for command in seeded for it in command}
    yield "the members that no seed has", set(MEMBERS) - drawn, set()
    set_modes = {it.mode for script in scripts for it in script.commands if it and it.mode}
    yield "the modes that no scene sets", modes - set_modes, set()
    client = module_of("clients/python/meldakwi.py")
    yield from command_checks(module_of("tools/lint"), client.Store)
    yield from mode_checks()
    yield from page_checks()
    yield from program_checks()
