"""Files, lines, words, numbers and sections of the program's texts, and the one kind of error that readers raise.

Texts are bytes; in Python they are `str` by latin-1, so that any byte stands for itself.
"""
from __future__ import annotations

import sys
from typing import NamedTuple

MOST_NUMBER = 10 ** 9    # no number in a text that is read here is greater


class Fault(Exception):
    """A text that cannot be used. Its sentence is meant for the user, and begins with the file and the line, from 1.

    `file` is '' and `line` is 0 where the fault belongs to none.
    """

    def __init__(self, words: str, file: str = '', line: int = 0):
        place = f'{file} line {line}: ' if line else f'{file}: ' if file else ''
        super().__init__(place + words)
        self.words, self.file, self.line = words, file, line


class Section(NamedTuple):
    """The lines of one section, without LF and without one CR at their ends, and the number of the first in the whole input."""
    first: int
    lines: list[str]

    def text(self) -> str:
        """Each line with its LF."""
        return ''.join(line + '\n' for line in self.lines)


def lines_of(text: bytes) -> list[str]:
    """Cut at each LF; what follows the last one is a line too, unless it is empty. One CR at a line's end is dropped."""
    lines = text.decode('latin-1').split('\n')
    if lines[-1] == '':
        lines.pop()
    return [line[:-1] if line.endswith('\r') else line for line in lines]


def sections_of(text: bytes) -> list[Section]:
    """The sections that lines `%%` separate. A text that ends with such a line has an empty section behind it."""
    cut = [Section(1, [])]
    for number, line in enumerate(lines_of(text), 1):
        if line == '%%':
            cut.append(Section(number + 1, []))
        else:
            cut[-1].lines.append(line)
    return cut


def words_of(line: str) -> list[str]:
    """The runs of bytes that are neither space nor tab."""
    return [word for word in line.replace('\t', ' ').split(' ') if word]


def is_skipped(line: str) -> bool:
    """Whether points and scripts skip the line: empty, blanks alone, or its first word begins with `#`."""
    words = words_of(line)
    return not words or words[0].startswith('#')


def number_of(word: str, most: int = MOST_NUMBER) -> int | None:
    """The value of decimal digits, None where the word is anything else or above the most."""
    if not (word.isascii() and word.isdigit() and len(word) <= 10):
        return None
    value = int(word)
    return value if value <= most else None


def read_file(name: str) -> bytes:
    """A file's bytes; `-` is the standard input. Raises Fault."""
    try:
        if name == '-':
            return sys.stdin.buffer.read()
        with open(name, 'rb') as file:
            return file.read()
    except OSError as error:
        raise Fault(error.strerror or str(error), name) from None
