"""What docs/settings.schema.json finds wrong in settings, in words; and which texts in them have to be read."""
import difflib
import json
import os
import re
from typing import NamedTuple

PATH = os.path.join(os.path.dirname(os.path.abspath(__file__)), "../../docs/settings.schema.json")
with open(PATH, encoding="utf-8") as file:
    SCHEMA = json.load(file)

# The definitions and keys of the schema whose texts have a grammar of their own.
GRAMMARS = {"#/$defs/pattern": "glob", "#/$defs/field": "field", "#/$defs/field_with_member": "field with a member",
            "#/$defs/expression": "expression"}
GRAMMAR_KEYS = {"regex": "pattern", "line_start_pattern": "pattern", "line_end_pattern": "pattern", "layout": "layout"}
KINDS = {"string": "a text", "integer": "a whole number", "boolean": "true or false", "array": "a list", "object": "an object",
         "null": "null"}
NO_NAMES = "no group has a name, and nothing would come out: write one as (?P<name>..)"
NO_SEVERITY = ("there is no such severity: trace, debug, info, warn, error and fatal are known, each also with 2, 3 or 4 "
               "behind it")
UNITS = {"b": 1, "kb": 1000, "kib": 1 << 10, "mb": 1000**2, "mib": 1 << 20, "k": 1 << 10, "m": 1 << 20}


class Finding(NamedTuple):
    """What is wrong at a place of the settings, which has a name and a byte of the file."""

    at: int
    name: str
    what: str


class Reading(NamedTuple):
    """A text that has to be read by a grammar."""

    grammar: str
    text: str
    at: int
    name: str


def within(place, key):
    if isinstance(key, int):
        return f"{place}[{key}]"
    return f"{place}.{key}" if place else key


def one_of(words):
    words = list(words)
    return words[0] if len(words) == 1 else f"{', '.join(words[:-1])} and {words[-1]}"


def nearest(word, words):
    """The word that this one was meant to be, as far as one is near: a part of it, or one with few other letters."""
    words = list(words)
    begun = [it for it in words if len(it) > 2 and word.startswith(it) or len(word) > 2 and it.startswith(word)]
    return next(iter(begun or difflib.get_close_matches(word, words, 1, 0.6)), None)


def parts(schema, value):
    """A schema and what it stands on, as far as it speaks of this value."""
    yield schema
    if "$ref" in schema:
        yield from parts(resolved(schema["$ref"]), value)
    for it in schema.get("allOf", ()):
        yield from parts(it, value)
    if "if" in schema and holds(schema["if"], value):
        yield from parts(schema["then"], value)


def resolved(name):
    return SCHEMA["$defs"][name.removeprefix("#/$defs/")]


def holds(condition, value):
    """Whether an `if` of the schema holds: members that have to be there, each with one value."""
    return isinstance(value, dict) and all(
        key in value and value[key].value == condition["properties"][key]["const"] for key in condition["required"]
    )


def is_of(kind, value):
    if kind == "integer":
        return isinstance(value, int) and not isinstance(value, bool)
    types = {"string": str, "boolean": bool, "array": list, "object": dict, "null": type(None)}
    return isinstance(value, types[kind])


def kinds(schema):
    """The kinds that a schema takes, or none where it doesn't say."""
    for part in parts(schema, None):
        if "type" in part:
            return part["type"] if isinstance(part["type"], list) else [part["type"]]
        if "enum" in part or "const" in part:
            return ["string"]
        if "anyOf" in part:
            return [kind for it in part["anyOf"] for kind in kinds(it)]
    return []


def wanted(schema):
    """What a schema takes, in words."""
    for part in parts(schema, None):
        if "enum" in part:
            return " or ".join(f'"{it}"' for it in part["enum"])
        if part.get("type") == "integer" and "minimum" in part:
            return f"a whole number from {part['minimum']:,} to {part['maximum']:,}"
    them = list(dict.fromkeys(kinds(schema)))
    return " or ".join(KINDS[kind] for kind in them) if len(them) < 4 else described(schema)


def described(schema):
    """What the schema says of itself, as the middle of a sentence."""
    about = next((part["description"] for part in parts(schema, None) if "description" in part), "")
    return about if re.match("[A-Z]{2}", about) else about[:1].lower() + about[1:]


def in_bytes(text):
    """The number of bytes that a size with its unit says."""
    digits = text.strip().lower().rstrip("bikm")
    unit = text.strip().lower()[len(digits) :]
    return int(digits) * UNITS[unit] if digits.isdigit() and unit in UNITS else None


def other_kind(node, schema):
    """What to write in place of a value of another kind."""
    them, value = kinds(schema), node.value
    spelled = json.dumps(node.plain(), ensure_ascii=False)
    if value is None:
        return "take the key away, or give it a value"
    if isinstance(value, float) and "integer" in them:
        return "write it without a fraction and an exponent" + (", or as a text" if "string" in them else "")
    if "array" in them:
        return "write [ before it and ] behind it" if isinstance(value, dict) else f"write [{spelled}]"
    if isinstance(value, str) and without_quotes(value, them):
        return f"write {value} without quotes"
    if isinstance(value, str) and "integer" in them and in_bytes(value) is not None:
        return f"write the number of bytes, {in_bytes(value)}"
    if isinstance(value, (int, float)) and "string" in them:
        return f'write it in quotes, "{spelled}"'
    return f"write {wanted(schema)}"


def without_quotes(text, them):
    """Whether a text spells a value of one of these kinds."""
    return "boolean" in them and text in ("true", "false") or "integer" in them and re.fullmatch("-?[0-9]+", text) is not None


def is_named(value):
    """What kind a value is, in words."""
    return "a number with a fraction or an exponent" if isinstance(value, float) else next(
        words for kind, words in KINDS.items() if is_of(kind, value)
    )


def check(schema, node, name=""):
    """What is wrong in a value, and the texts in it that have to be read."""
    them = list(parts(schema, node.value))
    if not fits_kind(schema, node):
        what = f"{wanted(schema)} is wanted here, and this is {is_named(node.value)}"
        yield Finding(node.at, name, f"{what}: {other_kind(node, schema)}")
    elif isinstance(node.value, dict):
        yield from check_object(schema, them, node, name)
    elif isinstance(node.value, list):
        yield from check_list(them, node, name)
    else:
        yield from check_plain(schema, them, node, name)


def fits_kind(schema, node):
    them = kinds(schema)
    return not them or any(is_of(kind, node.value) for kind in them)


def alternative(schema, node):
    """The part of an `anyOf` that speaks of a value of this kind."""
    for part in parts(schema, node.value):
        for it in part.get("anyOf", ()):
            if fits_kind(it, node):
                return it
    return None


def check_object(schema, them, node, name):
    for key, at in node.repeated:
        yield Finding(at, within(name, key), "this key stands twice, and the last one counts: take one away")
    other = alternative(schema, node)
    if other:
        yield from check(other, node, name)
        return
    properties = {key: it for part in reversed(them) for key, it in part.get("properties", {}).items()}
    rest = next((part["additionalProperties"] for part in them if isinstance(part.get("additionalProperties"), dict)), None)
    is_closed = any(part.get("additionalProperties") is False or part.get("unevaluatedProperties") is False for part in them)
    names = next((part["propertyNames"]["pattern"] for part in them if "propertyNames" in part), None)
    has_type = "type" not in properties or wanted_type(properties, node)
    for key, it in node.value.items():
        if key in properties:
            yield from check_member(properties[key], it, within(name, key), key, node)
        elif names and not fits(names, key):
            yield Finding(node.keys[key], within(name, key), NO_SEVERITY)
        elif rest:
            yield from check(rest, it, within(name, key))
        elif is_closed and has_type:
            yield Finding(node.keys[key], within(name, key), unknown(key, properties, node.value))
    yield from check_presence(them, node, name)


def wanted_type(properties, node):
    """Whether an operator's type is known. What else it has isn't looked at before."""
    it = node.value.get("type")
    known = properties["type"].get("enum", [properties["type"].get("const")])
    return it is not None and it.value in known


def fits(pattern, text):
    return re.search(pattern, text) is not None


def unknown(key, properties, members):
    near = nearest(key, [it for it in properties if it not in members])
    if near:
        return f"there is no such key: write {near}"
    return f"there is no such key here, but {one_of(properties)}: docs/MIGRATION.md tells what stands for keys of other agents"


def check_member(schema, node, name, key, parent):
    kind = parent.value["layout_type"].value if key == "layout" and "layout_type" in parent.value else "strptime"
    is_epoch = kind == "epoch"
    if key in GRAMMAR_KEYS and isinstance(node.value, str) and not is_epoch:
        yield Reading("layout of Go's" if kind == "gotime" else GRAMMAR_KEYS[key], node.value, node.at, name)
        if not fits(schema.get("pattern", ""), node.value):
            yield Finding(node.at, name, NO_NAMES)
    elif is_epoch:
        yield from check(resolved("time")["then"]["properties"]["layout"], node, name)
    else:
        yield from check(schema, node, name)


def check_presence(them, node, name):
    for part in them:
        for key in part.get("required", ()):
            if key not in node.value:
                yield Finding(node.at, within(name, key), "this key has to be there: " + adding(key, them))
        exactly = list(part["properties"]) if "maxProperties" in part else [it["required"][0] for it in part.get("oneOf", ())]
        if exactly and sum(key in node.value for key in exactly) != 1:
            yield Finding(node.at, name, f"exactly one of {one_of(exactly)} is wanted here")


def adding(key, them):
    schema = next((part["properties"][key] for part in them if key in part.get("properties", {})), {})
    about = described(schema)
    return f"write \"{key}\" with {wanted(schema) or 'its value'}" + (f", {about}" if about not in ("", wanted(schema)) else "")


def check_list(them, node, name):
    alternatives = [it for part in them for it in part.get("anyOf", ()) if kinds(it) == ["array"]]
    for part in [*them, *alternatives]:
        if len(node.value) < part.get("minItems", 0):
            yield Finding(node.at, name, "the list is empty: at least one is wanted in it")
        if len(node.value) > part.get("maxItems", len(node.value)):
            yield Finding(node.at, name, f"the list has {len(node.value):,} items, and {part['maxItems']:,} can be had")
        for at, it in enumerate(node.value if "items" in part else ()):
            yield from check(part["items"], it, within(name, at))


def check_plain(schema, them, node, name):
    grammar = next((GRAMMARS[part["$ref"]] for part in them if part.get("$ref") in GRAMMARS), None)
    if grammar:
        yield Reading(grammar, node.value, node.at, name)
        return
    for part in them:
        if "enum" in part and node.value not in part["enum"]:
            near = nearest(str(node.value), part["enum"])
            known = f"write \"{near}\"" if near else f"write {wanted(part)}"
            yield Finding(node.at, name, f'"{node.value}" isn\'t known here: {known}')
        if isinstance(node.value, int) and not part.get("minimum", node.value) <= node.value <= part.get("maximum", node.value):
            yield Finding(node.at, name, f"{wanted(schema)} is wanted here, and this is {node.value:,}")
        if "pattern" in part and not fits(part["pattern"], node.value):
            form = described(part) or f"a text that fits {part['pattern']}"
            yield Finding(node.at, name, f'"{node.value}" is out of its range: {form} is wanted here')
