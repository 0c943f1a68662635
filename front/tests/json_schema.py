"""Checks a value by the part of JSON Schema that the schema of SARIF uses."""

from __future__ import annotations

import re
from typing import Any

TYPES: dict[str, Any] = {
    "object": dict,
    "array": list,
    "string": str,
    "integer": int,
    "number": (int, float),
    "boolean": bool,
}


def faults(value: Any, schema: dict[str, Any], root: dict[str, Any], at: str = "$") -> list[str]:
    """What of a value a schema does not allow."""
    if "$ref" in schema:
        return faults(value, root["definitions"][schema["$ref"].rsplit("/", 1)[1]], root, at)
    found = []
    kind = schema.get("type")
    if kind and (not isinstance(value, TYPES[kind]) or (kind != "boolean" and isinstance(value, bool))):
        return [f"{at} is no {kind}"]
    if "enum" in schema and value not in schema["enum"]:
        found.append(f"{at} is {value!r}")
    if "minimum" in schema and value < schema["minimum"]:
        found.append(f"{at} is below {schema['minimum']}")
    if "pattern" in schema and not re.search(schema["pattern"], value):
        found.append(f"{at} is {value!r}")
    if isinstance(value, dict):
        found += object_faults(value, schema, root, at)
    if isinstance(value, list):
        found += array_faults(value, schema, root, at)
    return found


def object_faults(value: dict[str, Any], schema: dict[str, Any], root: dict[str, Any], at: str) -> list[str]:
    found = [f"{at} lacks {name}" for name in schema.get("required", []) if name not in value]
    known, other = schema.get("properties", {}), schema.get("additionalProperties", True)
    for name, item in value.items():
        if name in known:
            found += faults(item, known[name], root, f"{at}.{name}")
        elif other is False:
            found.append(f"{at} has {name}")
        elif isinstance(other, dict):
            found += faults(item, other, root, f"{at}.{name}")
    return found


def array_faults(value: list[Any], schema: dict[str, Any], root: dict[str, Any], at: str) -> list[str]:
    found = []
    if len(value) < schema.get("minItems", 0):
        found.append(f"{at} is too short")
    if schema.get("uniqueItems") and len({repr(it) for it in value}) < len(value):
        found.append(f"{at} has an item twice")
    for number, item in enumerate(value):
        found += faults(item, schema.get("items", {}), root, f"{at}[{number}]")
    return found
