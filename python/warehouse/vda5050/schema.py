"""The messages' JSON schemas.

They lie in `schemas/`, one for each topic, and are written from knowledge of VDA 5050, not checked against its text.
"""
from __future__ import annotations

import functools
import importlib.resources
import json

from ..json_texts import Json, fault_in, read_json
from ..texts import Fault

TOPICS = ('order', 'instantActions', 'state', 'connection', 'visualization', 'factsheet')
LONGEST = 1 << 20    # bytes of a message


@functools.lru_cache(maxsize=None)
def schema(topic: str) -> Json:
    """The schema of a topic's messages, or of `transport` and `command`, which are this adapter's own."""
    text = importlib.resources.files(__package__).joinpath('schemas', f'{topic}.json').read_text()
    found: Json = json.loads(text)
    return found


def read_message(topic: str, name: str, payload: bytes) -> Json:
    """The message of that kind that came at the topic `name`. Raises Fault, with the topic and the place in the message."""
    if len(payload) > LONGEST:
        raise Fault(f'the message has {len(payload)} bytes, at most {LONGEST} are read', name)
    return read_json(name, payload, schema(topic))


__all__ = ['Json', 'TOPICS', 'fault_in', 'read_message', 'schema']
