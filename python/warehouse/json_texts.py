"""JSON texts, and a validator of the part of JSON Schema that the schemas of this package use."""
from __future__ import annotations

import json
import re
from typing import Any

from .texts import Fault

Json = dict[str, Any]

KNOWN = {'$ref', '$defs', '$schema', '$comment', 'title', 'type', 'properties', 'required', 'items', 'enum', 'minimum', 'maximum',
         'minLength', 'maxLength', 'minItems', 'pattern'}
TYPES: dict[str, tuple[type, ...]] = {'object': (dict,), 'array': (list,), 'string': (str,), 'boolean': (bool,), 'integer': (int,),
                                      'number': (int, float), 'null': (type(None),)}


def has_type(value: object, name: str) -> bool:
    return isinstance(value, TYPES[name]) and (name == 'boolean' or not isinstance(value, bool))


def fault_in(rule: Json, value: Any, place: str = '', root: Json | None = None) -> str | None:
    """Where the value is not as the schema has it, with its place from the top, and why; None where it is."""
    root = rule if root is None else root
    assert KNOWN.issuperset(rule), sorted(set(rule) - KNOWN)
    if '$ref' in rule:
        return fault_in(root['$defs'][rule['$ref'].rsplit('/', 1)[1]], value, place, root)
    here = place or 'the text'
    if 'type' in rule and not has_type(value, rule['type']):
        return f'{here} is no {rule["type"]}'
    if 'enum' in rule and value not in rule['enum']:
        return f'{here} is none of {", ".join(map(str, rule["enum"]))}'
    match value:
        case dict():
            return fault_in_object(rule, value, place, root)
        case list():
            if len(value) < rule.get('minItems', 0):
                return f'{here} has {len(value)} elements, {rule["minItems"]} are wanted'
            inside = (fault_in(rule.get('items', {}), one, f'{place}/{number}', root) for number, one in enumerate(value))
            return next((fault for fault in inside if fault), None)
        case str():
            return fault_in_string(rule, value, here)
        case int() | float() if not rule.get('minimum', value) <= value <= rule.get('maximum', value):
            return f'{here} is {value:g}, out of its range'
    return None


def fault_in_object(rule: Json, value: Json, place: str, root: Json) -> str | None:
    for name in rule.get('required', ()):
        if name not in value:
            return f'{place}/{name} is missing'
    inside = (fault_in(part, value[name], f'{place}/{name}', root) for name, part in rule.get('properties', {}).items() if name in value)
    return next((fault for fault in inside if fault), None)


def fault_in_string(rule: Json, value: str, here: str) -> str | None:
    if not rule.get('minLength', 0) <= len(value) <= rule.get('maxLength', len(value)):
        return f'{here} has {len(value)} letters'
    if 'pattern' in rule and not re.search(rule['pattern'], value):
        return f'{here} is `{value[:40]}`, and not as {rule["pattern"]}'
    return None


def no_constant(word: str) -> None:
    raise ValueError(f'{word} is no number')


def read_json(name: str, data: bytes, rule: Json) -> Json:
    """The value of a text, as the schema has it. Raises Fault, with the name and the place in the value."""
    try:
        value: Json = json.loads(data.decode('utf-8'), parse_constant=no_constant)
    except (ValueError, RecursionError) as error:
        raise Fault(f'it is no JSON: {str(error)[:80]}', name) from None
    if fault := fault_in(rule, value):
        raise Fault(fault, name)
    return value
