#!/usr/bin/env python3
"""Makes docs/CLI.md and the man page docs/warehouse.1 from the help texts of the program, as tools/help keeps them.

    tools/cli_page.py            writes both
    tools/cli_page.py --check    writes nothing; status 1 where one differs from what would be written

tests/launcher.sh compares tools/help with the program's own texts. What the help texts do not say stands below, in NOTES.
"""
from __future__ import annotations

import os
import re
import sys

ROOT = os.path.dirname(os.path.dirname(os.path.abspath(__file__)))
PAGE, MANUAL = 'docs/CLI.md', 'docs/warehouse.1'
SUBCOMMANDS = ('check', 'replay', 'verify', 'live', 'serve', 'state')

HEAD = '''# Command line

<!-- Made by tools/cli_page.py from tools/help. Change these, not this page. -->

`./warehouse SUBCOMMAND [options] < input`, from any folder. If the program is missing, or its sources changed since, it is proved and built first; help and `--version` do not wait for that. `tools/look` runs the same code, not proved. The input is [sections](FORMATS.md#lines-and-words) separated by lines `%%`.
'''

NOTES = {
    'check': ('''Prints `formed`, `few parkings HAVE NEED` or `cut A B` ([Modeling](MODELING.md#well-formed-floors)). Everything after the points is ignored. With `--ends homes` agents start at parkings (`refused H1 AGENT`), here and below.''',),
    'replay': (
        '''Reads commands, live through a pipe or from a file, and writes one reply for each ([Protocol](PROTOCOL.md)).''',
        '''`--vehicles` needs `rule nofollow` in the points (`refused V4`) and is given at each start (`V5`).''',
        '''`--deliver` ([Formats](FORMATS.md#what-is-delivered-behind-the-script)) does not go with `--vehicles`.''',
        '''`--slack N` ([Performance](PERFORMANCE.md#paths-that-may-be-late)) and `--effort N` ([Algorithm](ALGORITHM.md#the-search)) do not go with `--planner patient`, here and below.''',
        '''`--tail log` writes the log after the replies, `--tail ledger` one row for each client. `--slots` and `--bank` bound what planners may keep in memory; they change no reply.''',
    ),
    'verify': ('''Prints `run N`, N the number of entries, `run N unended`, or `bad L`, the first line with which no log of a run by these `--ends` continues.''',),
    'live': (
        '''Any interleaving of its threads is one history. The run ends whatever is open, and prints the log.''',
    ),
    'serve': (
        '''Serves programs over named pipes ([Operations](OPERATIONS.md#several-clients)). `--log` and at least one `--client` are needed, and nothing follows the points.''',
        '''`--every N`: a worker requests and ticks until the service ends; earlier only where its share or the journal is used, or memory runs out.''',
        '''`--board FILE` replaces FILE and FILE.new only if they are empty or [boards](FORMATS.md#the-board).''',
    ),
    'state': ('''Writes the [front](FORMATS.md#the-front-of-a-next-log) of a log that continues FILE, after a kill too. FILE stays as it is; while a run has it, `refused X5`.''',),
}

STATUSES = (
    ('0', 'done. Refused commands are no error'),
    ('1', 'the input is refused, not well-formed, or the log is no run'),
    ('2', 'the command line is wrong, or something follows the points of `serve` (`X7`)'),
    ('3', 'input, output, log file or board failed (`X1`, `X2`, `X3`, `X5`, `X6`, `X9`), or a thread (`E93`, `E95`)'),
    ('4', '`refused E90`: out of memory at the start, behind the script (`--deliver`), or for the log at the end'),
    ('125', 'from `./warehouse`: the program could not be built'),
)

TAIL = '''Each refusal is one line on standard error ([Formats](FORMATS.md#standard-error-and-exit-statuses)). On a terminal `./warehouse` adds a sentence, except for `serve`; `tools/explain.py 'refused P4 line 2' INSTANCE` explains one; `--all` prints all.

A value that begins with a hyphen is joined to its option, as in `--log=-x`. An option given twice, an abbreviation, and an argument that is not UTF-8 are refused.

## Tools

|To|Run|
|---|---|
|join files into one input|`tools/join.py my.map my.points my.orders > my`|
|make an instance|`tools/make_instance.py --columns 60 --rows 40 --agents 20 --tasks 200 > my`|
|import an instance of the AAMAS 2017 authors, a MovingAI scenario|`tools/import_mapd.py MAP TASK`, `tools/import_scen.py MAP SCEN --agents 20`|
|drive an instance to its end|`tools/drive.py my --save run.log`|
|play a run; see one clock|`tools/play.py my run.log > run.html`, `tools/play.py my run.log --check 137`|
|watch a floor while it runs|`tools/dashboard.py my run.log`|
|have figures as CSV|`tools/stats.py my run.log`|
|make the input of `verify`|`tools/log_input.py my run.log`|
|begin the next shift|`tools/next_shift.py run.log my > next`|
|be a client of a service|`tools/client.py FOLDER`|
'''


def read(path: str) -> str:
    with open(os.path.join(ROOT, path), encoding='utf-8') as text:
        return text.read()


def help_of(subcommand: str) -> str:
    return read(f'tools/help/{subcommand}.txt')


OPTION = re.compile(r' +(?:-\w, )?(--[\w-]+)')


def news_of(text: str, seen: set[str]) -> tuple[list[str], list[str]]:
    """The lines of a help text but for options that subcommands above have in the same words, and the names of these."""
    lines, same = [], []
    for line in text.rstrip().split('\n'):
        option, words = OPTION.match(line), ' '.join(line.split())
        if option is not None and words in seen:
            same += [option[1]] * (option[1] not in ('--help', '--version'))
        else:
            lines.append(line)
        seen.add(words)
    return lines, same


def page() -> str:
    parts, seen = [HEAD], set()
    for name in SUBCOMMANDS:
        lines, same = news_of(help_of(name), seen)
        notes = list(NOTES[name])
        if same:
            notes.insert(0, f'As above: {", ".join(f"`{option}`" for option in same)}.')
        text, told = '\n'.join(lines), '\n\n'.join(notes)
        parts.append(f'## {name}\n\n```\n{text}\n```\n\n{told}\n')
    rows = ''.join(f'|{status}|{text}|\n' for status, text in STATUSES)
    parts.append(f'## Exit statuses\n\n|Status|Means|\n|---|---|\n{rows}\n{TAIL}')
    return '\n'.join(parts)


def plain(text: str) -> str:
    """Markdown as plain words, escaped for roff."""
    text = re.sub(r'\[([^]]*)\]\(([^)#]*)[^)]*\)', r'\1 (docs/\2)', text)
    text = text.replace('`', '').replace('**', '').replace('\\', '\\e').replace('-', '\\-')
    return re.sub(r"^([.'])", r'\\&\1', text, flags=re.MULTILINE)


def option_rows(text: str) -> list[tuple[str, str]]:
    """The options of a help text: words and description."""
    rows = re.findall(r'^ +((?:-\w, )?--[\w-]+(?: <\w+>)?)  +(.*)$', text, re.MULTILINE)
    return [(words, said) for words, said in rows if not words.startswith(('-h', '-V'))]


def manual() -> str:
    version = read('tools/help/version.txt').split()[1]
    lines = [f'.TH WAREHOUSE 1 "" "warehouse {version}" "User commands"', '.SH NAME',
             'warehouse \\- proved control core for warehouse fleets', '.SH SYNOPSIS',
             '.B warehouse', '.I SUBCOMMAND', '[options] < input', '.SH DESCRIPTION',
             plain('Standard input holds map, points, and what the subcommand reads besides, separated by lines %%.')]
    for name in SUBCOMMANDS:
        text = help_of(name)
        lines += [f'.SH {name.upper()}', plain(text.split('\n', 1)[0]) + '.']
        for words, said in option_rows(text):
            lines += ['.TP', f'.B {plain(words)}', plain(said)]
        for note in NOTES[name]:
            lines += ['.PP', plain(note)]
    lines.append('.SH EXIT STATUS')
    for status, said in STATUSES:
        lines += ['.TP', f'.B {status}', plain(said)]
    lines += ['.SH SEE ALSO', plain('README.md, docs/PROTOCOL.md, docs/OPERATIONS.md, docs/FORMATS.md')]
    return '\n'.join(lines) + '\n'


def main() -> int:
    stale = []
    for path, made in ((PAGE, page()), (MANUAL, manual())):
        where = os.path.join(ROOT, path)
        if sys.argv[1:] == ['--check']:
            if not os.path.exists(where) or read(path) != made:
                stale.append(path)
        else:
            with open(where, 'w', encoding='utf-8') as text:
                text.write(made)
    if stale:
        print(f'{", ".join(stale)}: run tools/cli_page.py')
    return 1 if stale else 0


if __name__ == '__main__':
    sys.exit(main())
