#!/usr/bin/env python3
"""Makes the tables of docs/EXPERIMENTS.md, MODELING.md and PERFORMANCE.md from the figures that are kept in docs/*.csv.

    tools/figures_pages.py                the CSV files into the pages; `dev/experiments.py page` makes those of EXPERIMENTS.md before
    tools/figures_pages.py --check        status 1 where a page differs

A table of a page is between one of these and `<!-- end -->`:

    <!-- figures: FILE ROW COLUMN VALUE [NAME=WORD ..] -->    for each value of the column ROW a row, for each value of COLUMN a
                                                              column, VALUE in the cells, of the lines whose NAME is WORD
    <!-- rows: FILE NAME .. -->                               each line of docs/FILE.csv, by these columns

COLUMN may be several with + between. VALUE± is VALUE with VALUE_pm behind it.
"""
from __future__ import annotations

import csv
import os
import re
import sys

ROOT = os.path.dirname(os.path.dirname(os.path.abspath(__file__)))
PAGES = [os.path.join(ROOT, 'docs', name) for name in ('EXPERIMENTS.md', 'MODELING.md', 'PERFORMANCE.md')]
MARKED = re.compile(r'(<!-- (figures|rows): (.*?) -->\n\n)(?:\|.*\n)*\n?<!-- end -->')
HEADS = {'agents': 'Agents', 'speeds': 'Speeds', 'ahead': '`--ahead`',
         'instance': 'Instance', 'stations': 'Stations', 'subcommand': 'Subcommand', 'seconds': 'Seconds', 'mb': 'MB', 'this_program_millions': 'this program',
         'peer_millions': '`dev/peer`', 'floor': 'Floor', 'orders_taken': 'Orders taken', 'ms_mean': 'Mean ms a tick', 'ms_p95': 'p95',
         'ms_most': 'Most', 'ms_first_tick': 'First tick', 'mb_most': 'Most MB', 'clients': 'Clients',
         'median_ms': 'Median ms', 'worst_ms': 'Worst ms', 'peer_median_ms': '`dev/peer`: median', 'peer_worst_ms': 'worst',
         'peer_seconds': '`dev/peer`: seconds', 'ratio': 'Ratio', 'peer_mb': '`dev/peer`: MB',
         'expanded': 'Expanded', 'expanded_4': 'with 4', 'most': 'Most', 'most_4': 'with 4', 'service': 'Service',
         'service_4': 'with 4',
         'memory_line_by_line': 'log in memory, line by line', 'memory_all_in_one_write': 'in one write',
         'disk_line_by_line': 'on a disk, line by line', 'disk_all_in_one_write': 'in one write'}


def read(name: str) -> list[dict[str, str]]:
    """The lines of a CSV file."""
    with open(os.path.join(ROOT, 'docs', f'{name}.csv'), encoding='utf-8', newline='') as text:
        return list(csv.DictReader(text))


def value_of(line: dict[str, str], name: str) -> str:
    """A column of a line, or several together, or one with its interval, which one seed has not."""
    if name.endswith('±'):
        return line[name[:-1]] + ('' if line['seeds'] == '1' else '±' + line[name[:-1] + '_pm'])
    return ', '.join(line[part] for part in name.split('+'))


def rows(words: list[str]) -> str:
    lines = [[HEADS[name] for name in words[1:]], ['---'] * (len(words) - 1)]
    lines += [[line[name] for name in words[1:]] for line in read(words[0])]
    return ''.join('|' + '|'.join(parts) + '|\n' for parts in lines)


def table(words: list[str]) -> str:
    name, row, column, value = words[:4]
    wanted = [tuple(word.split('=')) for word in words[4:]]
    lines = [line for line in read(f'experiments-{name}') if all(line[key] == one for key, one in wanted)]
    across = list(dict.fromkeys(value_of(line, column) for line in lines))
    cells = {(line[row], value_of(line, column)): value_of(line, value) for line in lines}
    rows = [[HEADS.get(row, row), *across], ['---'] * (len(across) + 1)]
    rows += [[one, *(cells.get((one, other), '') for other in across)] for one in dict.fromkeys(line[row] for line in lines)]
    return ''.join('|' + '|'.join(parts) + '|\n' for parts in rows)


def main(words: list[str]) -> int:
    status = 0
    for page in PAGES:
        with open(page, encoding='utf-8') as text:
            old = text.read()
        made = MARKED.sub(lambda found: found[1] + (table if found[2] == 'figures' else rows)(found[3].split()) + '\n<!-- end -->', old)
        if words == ['--check'] and made != old:
            print(f'{os.path.relpath(page, ROOT)}: run tools/figures_pages.py')
            status = 1
        elif made != old:
            with open(page, 'w', encoding='utf-8') as text:
                text.write(made)
    return status


if __name__ == '__main__':
    sys.exit(main(sys.argv[1:]))
