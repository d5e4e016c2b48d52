"""Says in a sentence what a refusal of the program means, and where in the input its line stands.

    explain 'refused P4 line 2'               the sentence
    explain 'refused P4 line 2' INSTANCE      and the line itself, and its place in the whole input
    explain 'bad 7' INPUT                     INPUT is what `verify` read: map, points, log
    explain 'refused L1 line 7' FILE          FILE is the log file of `replay --log`
    explain 'cut A B' INSTANCE                all points that cut others, and a drawing with them
    explain E6                                a code alone; --all prints every code
    explain --run PROGRAM WORD..              runs the program, and adds the sentence to a refusal on standard error; to `check` of a
                                              file also how many orders can be under way at once, or the points that cut others

The program counts lines from 1 in each section anew: M codes in the map, P codes in the points, C codes with a line in
the scripts of `live`. This adds what stands before. Replies have no line: `refused E1 NAME` is the answer to the command
at the same place as the reply, where comment lines, lines of blanks and empty lines are not counted.
"""
from __future__ import annotations

import argparse
import os
import re
import signal
import stat
import subprocess
import sys

from .cuts import explained as cuts_explained
from .refusals import SENTENCES
from .texts import Fault, Instance, Section, is_command, lines_of, orders_of, read_file, read_instance, sections_of, words_of

NAME = re.compile(r'[\w-]{1,16}', re.ASCII)
CONTROL = re.compile(r'[\x00-\x08\x0a-\x1f\x7f-\x9f]')    # all but the tab


def section_of(code: str, number: int, sections: list[Section]) -> Section | None:
    """The section in which the line of that code is counted."""
    if code[0] in 'MP':
        place = 0 if code[0] == 'M' else 1
        return sections[place] if place < len(sections) else None
    if code == 'L1':
        return sections[0]
    if code == 'bad':
        return sections[2] if len(sections) > 2 else None
    # the first client's script that has a line of this number which is no command
    for script in sections[2:]:
        if number <= len(script.lines) and not is_command(script.lines[number - 1]):
            return script
    return None


def hint(code: str, line: str, section: Section, sections: list[Section]) -> str:
    """What can be said of that line alone."""
    if code == 'M3':
        if line.endswith('%%'):
            return 'It ends with `%%`: the map had no last LF when files were put together. tools/join.py adds it.'
        widths = [words_of(head)[1] for head in section.lines[1:3] if words_of(head)[:1] == ['width']]
        return f'It has {len(line)} letters, and the head says width {widths[0]}.' if widths else ''
    if code == 'M4':
        odd = next((x for x, letter in enumerate(line) if letter not in '.GS@OTW'), None)
        return '' if odd is None else f'The byte is {line[odd]!r}, at x = {odd}.'
    if code in ('P3', 'P8') and len(words_of(line)) > 1:
        name = words_of(line)[1]
        at = [section.first + k for k, other in enumerate(section.lines)
              if words_of(other)[:1] in (['station'], ['parking']) and words_of(other)[1:2] == [name]]
        return f'`{name}` stands at line {at[0]} of the whole input.' if at else f'`{name}` stands nowhere.'
    if code == 'P4' and re.fullmatch(r'\w+ \S+ [0-9]+ [0-9]+', ' '.join(words_of(line))):
        x, y = (int(word) for word in words_of(line)[2:])
        rows = sections[0].lines[4:]
        if y < len(rows) and x < len(rows[y]):
            return f'The map has {rows[y][x]!r} at x = {x}, y = {y}.'
        return f'x = {x}, y = {y} is outside.'
    if code == 'C1' and words_of(line)[0] == 'submit':
        names = [word for word in words_of(line)[1:] if not NAME.fullmatch(word)]
        return f'`{names[0]}` is no name: it has {len(names[0])} bytes, and a name 1 to 16 letters, digits, _ or -.' if names else ''
    return ''


def place(code: str, number: int, sections: list[Section]) -> list[str]:
    """Where the line stands, the line, and what can be said of it."""
    section = section_of(code, number, sections)
    if section is None:
        return ['The input has no such line: is it the one that the program read?']
    whole = section.first + number - 1
    if number > len(section.lines):
        ends = f'The section ends before its line {number}; in the whole input it would be line {whole}.'
        return [f'The log file ends before its line {number}.' if code == 'L1' else ends]
    line = section.lines[number - 1]
    shown = line if len(line) <= 200 else line[:200] + ' ..'
    said = hint(code, line, section, sections)
    head = f'Line {number} of its section is line {whole} of the whole input:'
    return [f'Line {number} of the log file:' if code == 'L1' else head, f'    {shown}'] + [said] * bool(said)


def explained(words: list[str], instance: str | None) -> list[str]:
    """The sentence, and where a line is told also its place."""
    told = words[1:] if words and words[0] == 'refused' else words
    if not told or told[0] not in SENTENCES:
        raise Fault(f'no message of the program is known to me in: {" ".join(words)}')
    code = told[0]
    number = next((word for before, word in zip(told, told[1:]) if before in ('line', 'bad')), None)
    lines = [f'{code}: {SENTENCES[code]}']
    if number is not None and re.fullmatch('[1-9][0-9]{0,17}', number) and instance is not None:
        text = read_file(instance)
        sections = [Section(1, lines_of(text))] if code == 'L1' else sections_of(text)
        lines += place(code, int(number), sections)
    if code == 'cut' and instance is not None:
        lines += cuts_explained(instance, read_file(instance))
    return lines


def started(words: list[str]) -> subprocess.Popen[bytes]:
    """The program, whose standard error comes here, and to which this process hands on the signals that are to end it."""
    program: subprocess.Popen[bytes] | None = None
    waiting: list[int] = []

    def hand_on(number: int, _: object) -> None:
        if program is None:
            waiting.append(number)
        else:
            program.send_signal(number)

    # handlers stand before the program does, and are none of its own; what the launcher has it ignore stays ignored
    signal.signal(signal.SIGINT, lambda *_: None)    # a terminal sends it to the program too
    for ending in (signal.SIGTERM, signal.SIGHUP):
        signal.signal(ending, hand_on)
    program = subprocess.Popen(words, stderr=subprocess.PIPE, restore_signals=False)
    for number in waiting:
        program.send_signal(number)
    return program


def input_again() -> int | None:
    """From where standard input can be read once more; None where it is no file."""
    try:
        return os.lseek(0, 0, os.SEEK_CUR) if stat.S_ISREG(os.fstat(0).st_mode) else None
    except OSError:
        return None


def orders_at_once(site: Instance, text: bytes, homes: bool) -> str:
    """How many orders can be under way at once: each holds the station at which it ends, but where paths go on home."""
    if homes:
        return f'At most {len(site.starts)} orders can be under way at once, one for each agent.'
    agents, stations = len(site.starts), sum(point.kind == 'station' for point in site.points)
    scripts = sections_of(text)[2:3]
    ends = {order.stops[-1] for order in (orders_of(scripts[0].lines) if scripts else []) if order.stops and site.is_station(order.stops[-1])}
    said = f'{agents} agents, {stations} stations' + f', of which orders end at {len(ends)}' * bool(ends)
    most = min(agents, len(ends) or stations)
    return f'At most {most} orders can be under way at once: {said} (docs/MODELING.md says why).'


def beside_check(text: bytes, status: int, homes: bool) -> list[str]:
    """What is said of an instance beside the verdict of `check`."""
    site = read_instance('the input', text)
    if status == 0:
        return [f'formed: {SENTENCES["formed"]}', orders_at_once(site, text, homes)]
    if sum(point.kind == 'parking' for point in site.points) < len(site.starts):
        return [f'few: {SENTENCES["few"]}']
    return [f'cut: {SENTENCES["cut"]}', *cuts_explained('the input', text)]


def run_beside(words: list[str]) -> int:
    """Runs a program, hands on its standard error, and adds the sentence of a refusal that it ends with, or what is said beside
    a verdict of `check`; its status."""
    homes = words[2:] in (['--ends', 'homes'], ['--ends=homes'])
    begun = input_again() if words[1:2] == ['check'] and (homes or len(words) == 2) else None
    program, last = started(words), b''
    for last in program.stderr or ():
        sys.stderr.buffer.write(last)
        sys.stderr.buffer.flush()
    status = program.wait()
    said = last.decode('latin-1').split()
    if status > 0 and said[:1] == ['refused'] and said[1:2] and said[1] in SENTENCES:
        place = ' (tools/explain.py shows the line)' if 'line' in said else ''
        print(f'{said[1]}: {SENTENCES[said[1]]}{place}', file=sys.stderr)
    elif begun is not None and status in (0, 1):
        with open(0, 'rb', closefd=False) as given:
            given.seek(begun)
            try:
                print('\n'.join(beside_check(given.read(), status, homes)), file=sys.stderr)
            except Fault:
                pass    # the program read it otherwise than this does, and has said what it found
    if status < 0:    # it was ended by a signal, and so is this
        if -status != signal.SIGKILL:
            signal.signal(-status, signal.SIG_DFL)
        signal.raise_signal(-status)
    return status


# Behind this first word all others are a program's, and no options of this subcommand.
PROGRAM_BEHIND = {'--run': run_beside}


def add_options(parser: argparse.ArgumentParser) -> None:
    parser.add_argument('message', metavar='MESSAGE', nargs='?', default='')
    parser.add_argument('instance', metavar='INSTANCE', nargs='?')
    parser.add_argument('--all', action='store_true', help='print every code with its sentence')


def plain(line: str) -> str:
    """A line without bytes that a terminal takes for commands: each is written as Python writes it."""
    return CONTROL.sub(lambda found: repr(found[0])[1:-1], line)


def run(options: argparse.Namespace) -> int:
    if options.all:
        lines = [f'{code}: {sentence}' for code, sentence in SENTENCES.items()]
    else:
        lines = explained(options.message.split(), options.instance)
    sys.stdout.buffer.write(''.join(plain(line) + '\n' for line in lines).encode('latin-1', errors='replace'))
    return 0
