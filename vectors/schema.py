"""Holds values to a JSON Schema, as far as schema.json uses one."""

from __future__ import annotations

import re
from collections.abc import Callable, Iterator
from typing import Any

TYPES: dict[str, type | tuple[type, ...]] = {"object": dict, "array": list, "string": str, "integer": int, "boolean": bool, "null": type(None)}


def wrong(schema: dict[str, Any], whole: dict[str, Any], value: Any, place: str = "") -> Iterator[str]:
    """What a schema says against a value; what the schema has that isn't known here is said, too."""
    for key, rule in schema.items():
        if key not in RULES:
            if key not in ("$schema", "title", "$defs"):
                yield f"{place}: the schema's {key} isn't known"
        else:
            yield from RULES[key](rule, schema, whole, value, place)


Rule = Callable[[Any, dict[str, Any], dict[str, Any], Any, str], Iterator[str]]


def is_type(rule: Any, schema: dict[str, Any], whole: dict[str, Any], value: Any, place: str) -> Iterator[str]:
    if not isinstance(value, TYPES[rule]) or (rule == "integer" and isinstance(value, bool)):
        yield f"{place} is no {rule}"


def holds(test: Callable[[Any, Any], object], kind: type, said: str) -> Rule:
    """A rule on values of a type."""
    def tried(rule: Any, schema: dict[str, Any], whole: dict[str, Any], value: Any, place: str) -> Iterator[str]:
        if isinstance(value, kind) and not test(rule, value):
            yield f"{place} {said} {rule}"
    return tried


def properties(rule: Any, schema: dict[str, Any], whole: dict[str, Any], value: Any, place: str) -> Iterator[str]:
    if isinstance(value, dict):
        for key in rule:
            if key in value:
                yield from wrong(rule[key], whole, value[key], f"{place}/{key}")


def more_properties(rule: Any, schema: dict[str, Any], whole: dict[str, Any], value: Any, place: str) -> Iterator[str]:
    for key in set(value) - set(schema.get("properties", {})) if isinstance(value, dict) else ():
        if rule is False:
            yield f"{place} has {key}"
        else:
            yield from wrong(rule, whole, value[key], f"{place}/{key}")


def items(rule: Any, schema: dict[str, Any], whole: dict[str, Any], value: Any, place: str) -> Iterator[str]:
    for at, each in enumerate(value if isinstance(value, list) else ()):
        yield from wrong(rule, whole, each, f"{place}/{at}")


def refer(rule: Any, schema: dict[str, Any], whole: dict[str, Any], value: Any, place: str) -> Iterator[str]:
    yield from wrong(whole["$defs"][rule.removeprefix("#/$defs/")], whole, value, place)


def any_of(rule: Any, schema: dict[str, Any], whole: dict[str, Any], value: Any, place: str) -> Iterator[str]:
    if all(list(wrong(each, whole, value, place)) for each in rule):
        yield f"{place} has none of the {len(rule)} forms"


RULES: dict[str, Rule] = {
    "type": is_type, "properties": properties, "additionalProperties": more_properties, "items": items, "$ref": refer,
    "anyOf": any_of,
    "required": holds(lambda rule, value: set(rule) <= set(value), dict, "lacks some of"),
    "enum": holds(lambda rule, value: value in rule, object, "is none of"),
    "const": holds(lambda rule, value: value == rule, object, "isn't"),
    "pattern": holds(lambda rule, value: re.search(rule, value) is not None, str, "doesn't fit"),
    "minLength": holds(lambda rule, value: len(value) >= rule, str, "is shorter than"),
    "minItems": holds(lambda rule, value: len(value) >= rule, list, "has fewer than"),
    "maxItems": holds(lambda rule, value: len(value) <= rule, list, "has more than"),
    "minProperties": holds(lambda rule, value: len(value) >= rule, dict, "has fewer than"),
    "maxProperties": holds(lambda rule, value: len(value) <= rule, dict, "has more than"),
    "minimum": holds(lambda rule, value: value >= rule, int, "is below"),
}
