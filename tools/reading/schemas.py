"""docs/script.schema.json: the parts of it that follow from the table, and its text."""
import copy
import json
from typing import Any, Dict, List

from .rules import (
    COMMANDS, LIMITS, MAX_COMMANDS, MAX_KEY_BYTES, MEMBERS, MODES, NUMBERS, WRITES,
)

Schema = Dict[str, Any]
WIDTH = 100
WORDS = [*WRITES, *(word for word in COMMANDS if word not in WRITES)]


def member_of(name: str) -> Schema:
    """Returns the schema of a command's member."""
    kind = MEMBERS[name].kind
    if kind == "mode":
        return {"enum": list(MODES)}
    return {"type": "string"} if kind == "text" else {"$ref": f"#/definitions/{kind}"}


def groups_of() -> Dict[str, List[str]]:
    """Returns the commands by a name for those that have the same members."""
    groups: Dict[str, List[str]] = {}
    for word in WORDS:
        members = COMMANDS[word][:2]
        alike = [it for it, rule in COMMANDS.items() if rule[:2] == members]
        name = word if len(alike) == 1 else f"at_{'_'.join(members[0])}"
        groups.setdefault(name, []).append(word)
    return groups


def commands_of(words: List[str]) -> Schema:
    """Returns the schema of commands that have the same members."""
    rule = COMMANDS[words[0]]
    said = " or ".join([", ".join(words[:-1]), words[-1]] if words[1:] else words)
    names = {name: member_of(name) for name in (*rule.needs, *rule.may)}
    either = {
        "if": {"required": ["valuehex"]},
        "then": {"properties": {"value": False}},
        "else": {"required": ["value"]},
    }
    return {
        "title": f"A {said}",
        "additionalProperties": False,
        "required": list(rule.needs),
        **(either if "valuehex" in rule.may else {}),
        "properties": {"do": True, **names},
    }


def with_table(old: Schema) -> Schema:
    """Returns the schema with the commands, the members, the modes and the limits of the table."""
    schema = copy.deepcopy(old)
    members, definitions = schema["properties"], schema["definitions"]
    members["limits"]["properties"] = {
        name: {"$ref": "#/definitions/whole", "description": f"{it.does}, 1 to {it.most:,}."}
        for name, it in LIMITS.items()}
    members["keys"]["items"]["maxLength"] = MAX_KEY_BYTES
    members["run"]["maxItems"] = MAX_COMMANDS
    for name, most in NUMBERS.items():
        definitions[name] = {"type": "integer", "minimum": 0, "maximum": most}
    groups = groups_of()
    definitions["command"]["properties"]["do"]["enum"] = WORDS
    definitions["command"]["allOf"] = [
        {"if": {"required": ["do"], "properties": {"do": {"enum": words}}},
         "then": {"$ref": f"#/definitions/{name}"}}
        for name, words in groups.items()]
    # What stands behind the command is of the table alone.
    first = list(definitions).index("command") + 1
    kept = {name: definitions[name] for name in list(definitions)[:first]}
    schema["definitions"] = {**kept, **{name: commands_of(it) for name, it in groups.items()}}
    return schema


def flat(value: Any) -> str:
    """Returns a JSON value in one line."""
    if isinstance(value, dict) and value:
        items = ", ".join(f"{json.dumps(name)}: {flat(inner)}" for name, inner in value.items())
        return f"{{ {items} }}"
    return f"[{', '.join(map(flat, value))}]" if isinstance(value, list) else json.dumps(value)


def text_of(value: Any, before: str = "") -> str:
    """Returns a JSON value behind this text, with a line for each part where one line is short."""
    line = before + flat(value)
    # A comma may stand behind it.
    if len(line) < WIDTH or not isinstance(value, (dict, list)):
        return line
    blanks = before[:len(before) - len(before.lstrip(" "))]
    if isinstance(value, dict):
        items = [text_of(it, f"{blanks}  {json.dumps(name)}: ") for name, it in value.items()]
    else:
        items = [text_of(it, f"{blanks}  ") for it in value]
    first, last = "{}" if isinstance(value, dict) else "[]"
    return f"{before}{first}\n" + ",\n".join(items) + f"\n{blanks}{last}"


def schema_text(old: str) -> str:
    """Returns the text of the schema, whose parts that no table has are as in the old text."""
    return text_of(with_table(json.loads(old))) + "\n"
