"""Scripts: the orders in them, and when each is due."""
from __future__ import annotations

import re
from dataclasses import dataclass

from .lines import Fault, is_skipped, lines_of, read_file, sections_of, words_of

RELEASE = re.compile(r'[ \t]*#[ \t]*@([0-9]{1,9})[ \t]*$')
COMMAND = re.compile(r'submit( [\w-]{1,16}){3,9}|(token|replace) [0-9]{1,9}|tick|close', re.ASCII)
LONGEST = 256    # bytes of a command's line


@dataclass(frozen=True)
class Order:
    """An order: a line `submit ..`, and the clock from which it may be handed in."""
    release: int
    line: str     # as it stands, with one space between words: the program judges it

    @property
    def client(self) -> str:
        return self.line.split(' ')[1]

    @property
    def stops(self) -> list[str]:
        return self.line.split(' ')[2:]


def is_command(line: str) -> bool:
    """Whether a script's line is a command, or skipped."""
    return len(line) <= LONGEST and (is_skipped(line) or COMMAND.fullmatch(' '.join(words_of(line))) is not None)


def orders_of(lines: list[str]) -> list[Order]:
    """The orders of a script, by release, and among equals as they stand.

    An order is released at clock T where a line `# @T` stands before it, else at the clock at which it stands, which is
    the number of `tick` lines before it. All other lines are left out.
    """
    clock, told, found = 0, None, []
    for line in lines:
        if release := RELEASE.match(line):
            told = int(release[1])
        elif not is_skipped(line):
            words = words_of(line)
            clock += words == ['tick']
            if words[0] == 'submit':
                found.append(Order(clock if told is None else told, ' '.join(words)))
                told = None
    return sorted(found, key=lambda order: order.release)


def read_orders(name: str, data: bytes, script: str | None = None) -> list[Order]:
    """The orders of an instance's third section, or of a file of their own. Raises Fault."""
    if script is not None:
        return orders_of(lines_of(read_file(script)))
    sections = sections_of(data)
    if len(sections) < 3:
        raise Fault('it has no script behind a second line `%%`, and none is named', name)
    return orders_of(sections[2].lines)
