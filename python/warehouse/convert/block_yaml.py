"""The part of YAML that libMultiRobotPlanning's files use: blocks of `KEY: ..` and `- ..`, lists `[..]` and maps `{..}` on a line, numbers
and plain words. Anchors, quotes and texts of several lines are refused.
"""
from __future__ import annotations

import re
from typing import Any, NamedTuple

from ..texts import Fault, lines_of

TAG = re.compile(r'!!?[\w/]+ *')
KEY = re.compile(r'([\w .-]*\w):(?: +(.*)|)$')
REFUSED = ('&', '*', '"', "'", '|', '>', '?')


class Line(NamedTuple):
    number: int
    indent: int
    text: str


class Reader:
    """Reads the lines of one file."""

    def __init__(self, name: str, data: bytes):
        self.name, self.at = name, 0
        self.lines: list[Line] = []
        for number, line in enumerate(lines_of(data), 1):
            text = re.sub(r'(^|\s)#.*', '', line).rstrip()
            if text.strip() and text.strip() not in ('---', '...'):
                if '\t' in text[:len(text) - len(text.lstrip())]:
                    raise Fault('a tab indents it', name, number)
                self.lines.append(Line(number, len(text) - len(text.lstrip()), text.strip()))

    def fault(self, words: str, line: Line | None = None) -> Fault:
        line = line or (self.lines[min(self.at, len(self.lines) - 1)] if self.lines else Line(1, 0, ''))
        return Fault(words, self.name, line.number)

    def value(self) -> Any:
        """The whole file."""
        if not self.lines:
            raise self.fault('nothing is in it')
        value = self.block(self.lines[0].indent)
        if self.at < len(self.lines):
            raise self.fault(f'`{self.lines[self.at].text[:40]}` is indented as nothing before it')
        return value

    def block(self, indent: int) -> Any:
        """The lines of this indent, and those that are indented further behind each."""
        is_list = self.lines[self.at].text.startswith('-')
        found: Any = [] if is_list else {}
        while self.at < len(self.lines) and self.lines[self.at].indent == indent and self.lines[self.at].text.startswith('-') == is_list:
            line = self.lines[self.at]
            if is_list:
                found.append(self.element(line))
                continue
            key = KEY.match(line.text)
            if key is None or key[1] in found:
                raise self.fault(f'`{line.text[:40]}` is no `KEY: ..`' if key is None else f'{key[1]} stands twice', line)
            self.at += 1
            found[key[1]] = self.flow(TAG.sub('', key[2]), line) if key[2] else self.under(line)
        return found

    def under(self, line: Line) -> Any:
        """What is indented further than a key's line, or a list at its indent; None where nothing is."""
        if self.at == len(self.lines):
            return None
        after = self.lines[self.at]
        is_list = after.indent == line.indent and after.text.startswith('-') and not line.text.startswith('-')
        return self.block(after.indent) if after.indent > line.indent or is_list else None

    def element(self, line: Line) -> Any:
        """An element of a list: a value, or a block that begins on its line."""
        rest = TAG.sub('', line.text[1:].lstrip())
        if not rest:
            self.at += 1
            return self.under(line)
        if KEY.match(rest) and rest[0] not in '[{':
            indent = line.indent + len(line.text) - len(line.text[1:].lstrip())
            self.lines[self.at] = Line(line.number, indent, rest)
            return self.block(indent)
        self.at += 1
        return self.flow(rest, line)

    def flow(self, text: str, line: Line) -> Any:
        """A value on one line."""
        value, rest = self.flow_value(text, line)
        if rest.strip():
            raise self.fault(f'`{rest[:40]}` stands behind a value', line)
        return value

    def flow_value(self, text: str, line: Line) -> tuple[Any, str]:
        text = TAG.sub('', text.lstrip(), 1) if text.lstrip().startswith('!') else text.lstrip()
        if text.startswith(('[', '{')):
            return self.flow_list(text, line)
        word, rest = re.match(r'([^,\[\]{}]*)(.*)', text, re.S).groups()  # type: ignore[union-attr]
        if not word.strip() or word.startswith(REFUSED):
            raise self.fault(f'`{text[:40]}` is no value that is read here', line)
        return plain(word.strip()), rest

    def flow_list(self, text: str, line: Line) -> tuple[Any, str]:
        """A list or a map on one line."""
        is_list, end = text[0] == '[', ']' if text[0] == '[' else '}'
        found: Any = [] if is_list else {}
        text = text[1:].lstrip()
        while not text.startswith(end):
            if is_list:
                value, text = self.flow_value(text, line)
                found.append(value)
            else:
                key = re.match(r'([\w-]+): *', text)
                if key is None or key[1] in found:
                    raise self.fault(f'`{text[:40]}` is no `KEY: ..`, or its key stands twice', line)
                found[key[1]], text = self.flow_value(text[key.end():], line)
            text = text.lstrip()
            if text.startswith(','):
                text = text[1:].lstrip()
            elif not text.startswith(end):
                raise self.fault(f'`{end}` is missing', line)
        return found, text[1:]


def plain(word: str) -> Any:
    """A number, a boolean, null, or the word."""
    if re.fullmatch(r'[-+]?[0-9]{1,15}', word):
        return int(word)
    if re.fullmatch(r'[-+]?([0-9]+\.[0-9]*|\.[0-9]+)([eE][-+]?[0-9]+)?|[-+]?[0-9]+[eE][-+]?[0-9]+', word):
        return float(word)
    return {'true': True, 'false': False, 'null': None, '~': None}.get(word, word)


def read_yaml(name: str, data: bytes) -> Any:
    """The value of a file. Raises Fault, with its line."""
    try:
        return Reader(name, data).value()
    except RecursionError:
        raise Fault('its brackets stand too deep', name) from None
