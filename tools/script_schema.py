"""Holds a script against docs/script.schema.json, and says each mistake and its place.

It knows the words of JSON Schema that this schema has. It is stricter in one thing: a whole number
is spelt in digits alone, as the reader of scripts wants it.
"""
import re
from dataclasses import dataclass, replace
from typing import Any, Dict, List, Optional, Set

from json_places import Number, Value, escaped, nearest, shown

KNOWN = {
    "$schema", "$comment", "title", "description", "definitions", "$ref", "type", "enum", "allOf",
    "if", "then", "else", "properties", "required", "additionalProperties", "items", "maxItems",
    "minimum", "maximum", "minLength", "maxLength", "pattern",
}
DIGITS = re.compile(r"0|[1-9][0-9]*")
KINDS = (
    (dict, "an object"), (list, "a list"), (Number, "a number"), (str, "a text"),
    (bool, "true or false"), (type(None), "null"),
)
TYPES = {"object": dict, "array": list, "string": str, "boolean": bool, "integer": Number}
PHRASES = {
    "object": "an object in { }", "array": "a list in [ ]", "string": "a text in double quotes",
    "boolean": "true or false",
}


@dataclass
class Finding:
    """What is wrong in a script: where, by which path, and how the program refuses it."""

    start: int
    path: str
    text: str
    refusal: str
    is_warning: bool = False


def below(path: str, name: str) -> str:
    """The path of what has this name, or this number, below a path."""
    name = escaped(name.replace("~", "~0").replace("/", "~1"))
    return f"{path}/{name}" if path else name


def number_of(path: str) -> int:
    """The number of the command that a path is of, from 1; 0 is the script itself."""
    words = path.split("/")
    return int(words[1]) + 1 if words[0] == "run" and len(words) > 1 else 0


@dataclass
class Owner:
    """The schema that says which members an object has, and what the object is called.

    Where just one of two members is wanted, `other` is the one that is not told yet."""

    schema: Dict[str, Any]
    name: str
    other: str = ""


def owner_of(schema: Dict[str, Any], path: str) -> Owner:
    """The owner of an object at this path, called by its title or its member's name."""
    title = schema.get("title", "")
    return Owner(schema, title[:1].lower() + title[1:] if title else f"'{path.split('/')[-1]}'")


def unknown_words(schema: Any) -> Set[str]:
    """The words of a schema that are not known here; a condition may have two of them alone."""
    if isinstance(schema, bool):
        return set()
    found = set(schema) - KNOWN | set(schema.get("if", {})) - {"required", "properties"}
    inner = [schema[word] for word in ("items", "if", "then", "else") if word in schema]
    inner += schema.get("allOf", [])
    inner += [*schema.get("properties", {}).values(), *schema.get("definitions", {}).values()]
    return found.union(*map(unknown_words, inner))


def holds(value: Value, condition: Dict[str, Any]) -> bool:
    """Whether an object has the members that a condition requires, and their texts are its."""
    if any(name not in value.data for name in condition["required"]):
        return False
    texts = condition.get("properties", {}).items()
    return all(value.data[name].value.data in inner["enum"] for name, inner in texts)


def has_type(value: Value, name: str) -> bool:
    """Whether a value is of a type; of numbers, only whole ones in digits alone are integers."""
    data = value.data
    if name == "integer":
        return isinstance(data, Number) and DIGITS.fullmatch(data) is not None
    if name == "string" and isinstance(data, Number):
        return False
    return isinstance(data, TYPES[name])


def mistaken(value: Value, schema: Dict[str, Any]) -> str:
    """What to say of a value of another type."""
    if schema.get("type") == "integer" and isinstance(value.data, Number):
        return f"{shown(value.data)} is not spelt in digits alone; write {wanted(schema)}"
    kind = next(name for kind, name in KINDS if isinstance(value.data, kind))
    return f"{kind} can't stand here; write {wanted(schema)}"


def wanted(schema: Any) -> str:
    """What to write for a schema."""
    if schema is True:
        return "a value"
    if "enum" in schema:
        return "one of " + ", ".join(schema["enum"])
    if schema["type"] == "integer":
        return f"a whole number from {schema['minimum']} to {schema['maximum']}"
    if "description" in schema and "pattern" in schema:
        return schema["description"]
    return PHRASES[schema["type"]]


class Judge:
    """Holds values against a schema, and keeps what it finds."""

    def __init__(self, schema: Dict[str, Any]):
        self.definitions = schema.get("definitions", {})
        self.found: List[Finding] = []

    def tell(self, start: int, path: str, text: str) -> None:
        """Keeps a mistake."""
        self.found.append(Finding(start, path, text, f"E17 ScriptSyntax {number_of(path)}"))

    def resolve(self, schema: Any) -> Any:
        """The schema itself, or the definition that it refers to."""
        while isinstance(schema, dict) and "$ref" in schema:
            schema = self.definitions[schema["$ref"].split("/")[-1]]
        return schema

    def judge(self, value: Value, schema: Any, path: str, owner: Optional[Owner] = None) -> None:
        """Holds a value against a schema; the owner is of the object, where that is known."""
        schema = self.resolve(schema)
        if schema is True:
            return
        if "enum" in schema:
            self.judge_choice(value, schema, path)
        elif "type" in schema and not has_type(value, schema["type"]):
            self.tell(value.start, path, mistaken(value, schema))
        elif isinstance(value.data, dict):
            is_owner = "title" in schema or "additionalProperties" in schema
            self.judge_object(value, schema, path, owner_of(schema, path) if is_owner else owner)
        elif isinstance(value.data, list):
            self.judge_list(value, schema, path)
        elif isinstance(value.data, Number):
            self.judge_number(value, schema, path)
        elif isinstance(value.data, str):
            self.judge_text(value, schema, path)

    def judge_choice(self, value: Value, schema: Dict[str, Any], path: str) -> None:
        """Holds a value against a list of texts; a command's word is refused in its own way."""
        if not has_type(value, "string"):
            self.tell(value.start, path, mistaken(value, schema))
        elif value.data not in schema["enum"]:
            near = nearest(value.data, schema["enum"])
            hint = f"did you mean '{near}'?" if near else f"write {wanted(schema)}"
            self.tell(value.start, path, f"there is no {shown(value.data)}; {hint}")
            if path.endswith("/do"):
                self.found[-1].refusal = f"E18 UnknownCommand {number_of(path)}"

    def judge_list(self, value: Value, schema: Dict[str, Any], path: str) -> None:
        """Holds a list against how many items it may have, and each item against its schema."""
        most = schema.get("maxItems", len(value.data))
        if len(value.data) > most:
            self.tell(value.start, path, f"{len(value.data)} stand here, and at most {most} may")
        for number, item in enumerate(value.data):
            self.judge(item, schema.get("items", True), below(path, str(number)))

    def judge_number(self, value: Value, schema: Dict[str, Any], path: str) -> None:
        """Holds a whole number against its range."""
        # Thirty digits are beyond any range, and all of a number's may be too many for an int.
        number = int(value.data[:30])
        if not schema["minimum"] <= number <= schema["maximum"]:
            text = f"{shown(value.data)} is out of range; write {wanted(schema)}"
            self.tell(value.start, path, text)

    def judge_text(self, value: Value, schema: Dict[str, Any], path: str) -> None:
        """Holds a text against its length and its pattern."""
        length = len(value.data)
        least, most = schema.get("minLength", 0), schema.get("maxLength", length)
        # In a pattern of JSON Schema `$` is the very end, and not before a last line feed.
        pattern = schema.get("pattern", "").replace("$", r"\Z")
        if not least <= length <= most:
            text = f"this text has {length} characters; write {least} to {most}"
            self.tell(value.start, path, text)
        elif not re.search(pattern, value.data):
            text = f"{shown(value.data)} can't stand here; write {wanted(schema)}"
            self.tell(value.start, path, text)

    def judge_object(self, value: Value, schema: Dict[str, Any], path: str, owner: Owner) -> None:
        """Holds an object against the members that it may and must have, and each of these."""
        self.judge_names(value, schema, path, owner)
        for name, inner in schema.get("properties", {}).items():
            if name not in value.data:
                continue
            member = value.data[name]
            if inner is False:
                text = f"{owner.name} can't have both '{name}' and '{owner.other}'; take one away"
                self.tell(member.start, below(path, name), text)
            else:
                self.judge(member.value, inner, below(path, name))
        for inner in schema.get("allOf", []):
            self.judge(value, inner, path, owner)
        if "if" in schema:
            self.judge_branch(value, schema, path, owner)

    def judge_branch(self, value: Value, schema: Dict[str, Any], path: str, owner: Owner) -> None:
        """Holds an object against the branch that its condition chooses."""
        condition = schema["if"]
        if "properties" not in condition:
            owner = replace(owner, other=condition["required"][0])
        branch = schema.get("then" if holds(value, condition) else "else")
        if branch is not None:
            self.judge(value, branch, path, owner)

    def judge_names(self, value: Value, schema: Dict[str, Any], path: str, owner: Owner) -> None:
        """Tells the names that an object can't have, and those that it must have and has not."""
        known = owner.schema["properties"]
        is_closed = owner.schema.get("additionalProperties") is False
        lacking = [name for name in schema.get("required", []) if name not in value.data]
        strange = [name for name in value.data if name not in known]
        if not strange or (not is_closed and not lacking):
            meant = {}
        else:
            absent = [name for name in known if name not in value.data]
            meant = {name: nearest(name, absent) for name in strange}
        for name, near in meant.items():
            if schema is owner.schema and (is_closed or near):
                self.tell_strange(value, name, near, path, owner)
        for name in lacking:
            if name not in meant.values():
                self.tell_absent(value, name, path, owner)

    def tell_strange(self, value: Value, name: str, near: str, path: str, owner: Owner) -> None:
        """Tells a name that an object can't have, and the one that it may have been meant for."""
        has = ", ".join(owner.schema["properties"])
        hint = f"did you mean '{near}'?" if near else f"it has {has}"
        text = f"there is no {shown(name)} in {owner.name}; {hint}"
        self.tell(value.data[name].start, below(path, name), text)

    def tell_absent(self, value: Value, name: str, path: str, owner: Owner) -> None:
        """Tells a name that an object must have and has not."""
        if owner.other:
            text = f"{owner.name} has neither '{name}' nor '{owner.other}'; add one of them"
        else:
            inner = self.resolve(owner.schema["properties"][name])
            text = f"{owner.name} has no '{name}'; add it with {wanted(inner)}"
        self.tell(value.start, path, text)
