#!/usr/bin/env python3
"""Tests of the documentation: its size, its links, its words, generated pages, and the commands and drawings that carry a marker.

    tests/docs.py                   all; the program that commands run is taken from WAREHOUSE, else the one that the gate built
    tests/docs.py --no-program      what needs no program
    tests/docs.py --words           how many words each page has, and its bound

A marker is a comment on the last line before a fenced block that is not empty:

    <!-- run -->            the block's commands end with status 0; `<!-- run 1 -->` with status 1
    <!-- output -->         the block is what the commands before it wrote; `<!-- output: 10 % -->` where numbers may
                            differ by so much
    <!-- floor: formed -->  the block is a drawing (`.` free, `@` blocked, small letters stations, capitals parkings with an
                            agent), and `check` says so of it
    <!-- not run: WHY -->   the block's commands are not run here

A block with commands of this repository has one of these. All commands of a page run in one folder, which has `tools`, `examples`
and `warehouse` in it; WAREHOUSE is the program. tests/docs_words has the words that pages do not use. The last line is
`N passed, M failed`, and the status is 1 where one failed.
"""
from __future__ import annotations

import argparse
import functools
import os
import re
import shutil
import subprocess
import sys
import tempfile
from concurrent.futures import ThreadPoolExecutor
from typing import Iterator, NamedTuple

ROOT = os.path.dirname(os.path.dirname(os.path.abspath(__file__)))
PROGRAM = os.path.abspath(os.environ.get('WAREHOUSE') or os.path.join(ROOT, 'crates/warehouse/out/warehouse'))
MOST_SECONDS = 30    # for one block

# The most words of each page (`wc -w`), and of all. A bound only ever falls.
CAPS = {
    'README.md': 850, 'CHANGELOG.md': 1000, 'examples/README.md': 520, 'deploy/README.md': 320,
    'docs/ALGORITHM.md': 1300, 'docs/ARCHITECTURE.md': 800, 'docs/CLI.md': 1400, 'docs/CONTRIBUTING.md': 2150, 'docs/CRATES.md': 1600,
    'docs/DECISIONS.md': 2400, 'docs/DEFINITIONS.md': 1850, 'docs/EMBEDDING.md': 800, 'docs/EXPERIMENTS.md': 1100, 'docs/FORMATS.md': 3250,
    'docs/GLOSSARY.md': 600, 'docs/GUARANTEES.md': 1500, 'docs/INTEGRATION.md': 1500, 'docs/LIMITS.md': 1000, 'docs/MODELING.md': 1500,
    'docs/OPERATIONS.md': 1600, 'docs/PERFORMANCE.md': 1050, 'docs/PROOFS.md': 1050, 'docs/PROTOCOL.md': 1900, 'docs/READING.md': 1700,
    'docs/START.md': 950, 'docs/STAYS.md': 1200, 'docs/TESTING.md': 850,
}
MOST_IN_ALL = 30_000
MOST_IN_A_PARAGRAPH, MOST_IN_A_CELL = 90, 40
# Dates, commits and loads stand in these pages alone, and why.
DATED = {'CHANGELOG.md': 'a list of what changed when'}
# The pages that a script makes, which is called with --check.
GENERATED = {'docs/CLI.md': 'tools/cli_page.py', 'docs/CRATES.md': 'tools/crates_page.py', 'docs/EXPERIMENTS.md': 'tools/figures_pages.py',
             'docs/PERFORMANCE.md': 'tools/figures_pages.py'}
# Terms of the field that the glossary has.
TERMS = ('SIPP, heuristic, admissible, prioritized, lifelong, livelock, reservation table, swap, write-ahead, fsync, crash, durable, '
         'group commit, linearizable, worker pool, AGV, AMR, WMS, VDA 5050, well-formed, endpoint, MAPD, makespan, throughput, acknowledged')

OF_A_DAY = re.compile(r'\b20[0-9]{2}-[01][0-9]-[0-3][0-9]\b|\bcommit (?=[0-9a-f]*[0-9])[0-9a-f]{7,}\b|\bload (?:of )?[0-9]'
                      r'|\bsince then\b|\bformerly\b|\bused to be\b|\bis gone\b(?! on)|\buntil now\b|\bas it was before\b', re.ASCII)
COMMAND = re.compile(r'^\$? ?(?:\./|\$WAREHOUSE|tools/|tests/|WAREHOUSE=|rt )', re.MULTILINE)
LINK = re.compile(r'\]\(([^()\s]+)\)')
MARKER = re.compile(r'<!-- (run|output|floor|not run)(?::? ([^>]*?))? -->')
NUMBER = re.compile(r'[0-9]+(?:\.[0-9]+)?')


class Block(NamedTuple):
    """A fenced block with a marker: the number of its first line, the marker's word and what follows it."""
    line: int
    kind: str
    said: str
    text: str


@functools.lru_cache(None)
def read(page: str) -> str:
    with open(os.path.join(ROOT, page), encoding='utf-8') as text:
        return text.read()


def pages() -> list[str]:
    """The pages that have a bound or should have one."""
    return ['README.md', 'CHANGELOG.md', 'examples/README.md', 'deploy/README.md'] + sorted(f'docs/{name}' for name in os.listdir(os.path.join(ROOT, 'docs')) if name.endswith('.md'))


@functools.lru_cache(None)
def prose(text: str) -> str:
    """The text with fenced blocks and code between backquotes left blank, line by line."""
    lines, within = [], False
    for line in text.split('\n'):
        fence = line.lstrip().startswith('```')
        lines.append('' if within or fence else re.sub(r'(`+).*?\1', ' ', line))
        within ^= fence
    return '\n'.join(lines)


def blocks(text: str) -> Iterator[Block]:
    """The fenced blocks: their markers' words, or none."""
    marker, first, inside = None, 0, None
    for number, line in enumerate(text.split('\n'), 1):
        if line.startswith('```'):
            if inside is None:
                inside, first = [], number + 1
            else:
                yield Block(first, marker[1] if marker else '', (marker[2] or '').strip() if marker else '', '\n'.join(inside) + '\n')
                inside, marker = None, None
        elif inside is not None:
            inside.append(line)
        elif line.strip():
            marker = MARKER.fullmatch(line.strip())


@functools.lru_cache(None)
def anchors(text: str) -> set[str]:
    """The anchors of a page, as GitHub makes them of headings, and those that are named."""
    found: set[str] = set(re.findall(r'<a id="([^"]+)"', text))
    plain, within = [], False
    for line in text.split('\n'):
        if line.startswith('```'):
            within = not within
        elif not within and re.match(r'#{1,6} ', line):
            plain.append(line.lstrip('#').strip())
    for heading in plain:
        heading = re.sub(r'\[([^]]*)\]\([^)]*\)', r'\1', heading)
        name = re.sub(r'[^\w\- ]', '', heading.lower()).replace(' ', '-')
        same = sum(other == name or re.fullmatch(re.escape(name) + r'-[0-9]+', other) is not None for other in found)
        found.add(f'{name}-{same}' if name in found else name)
    return found


def line_of(text: str, place: int) -> int:
    return text.count('\n', 0, place) + 1


def sizes() -> Iterator[tuple[str, str]]:
    """Each page is within its bound, and all together."""
    total = 0
    for page in pages():
        words, most = len(read(page).split()), CAPS.get(page)
        total += words
        yield page, '' if most and words <= most else f'{words} words, {most or "no bound"}: cut it, or give it a bound in tests/docs.py'
    yield 'all pages', '' if total <= MOST_IN_ALL else f'{total} words, {MOST_IN_ALL} at most'
    for page in sorted(set(CAPS) - set(pages())):
        yield page, 'it has a bound, and is not there'


def links() -> Iterator[tuple[str, str]]:
    """Each relative link leads to a file, and its anchor to a heading."""
    reached = {'README.md'}
    for page in pages():
        text = prose(read(page))
        for link in LINK.finditer(text):
            name, _, anchor = link[1].partition('#')
            if re.match(r'[a-z]+:', name):
                continue
            target = os.path.normpath(os.path.join(os.path.dirname(page), name)) if name else page
            wrong = ''
            if page == 'README.md':
                reached.add(target)
            if not os.path.exists(os.path.join(ROOT, target)):
                wrong = f'{link[1]}: there is no {target}'
            elif anchor and (not target.endswith('.md') or anchor not in anchors(read(target))):
                wrong = f'{link[1]}: {target} has no heading of this name'
            yield f'{page}:{line_of(text, link.start())}', wrong
    for page in pages():
        yield f'{page}: from README.md', '' if page in reached else 'README.md has no link to it'


def paragraphs(text: str) -> Iterator[tuple[int, str]]:
    """The paragraphs and items of a list, each with its first line's number: what is no table, heading, comment or fenced block."""
    first, kept, within = 0, [], False
    for number, line in enumerate([*text.split('\n'), ''], 1):
        fence = line.lstrip().startswith('```')
        within ^= fence
        plain = bool(line.strip()) and not (fence or within or line.startswith(('|', '#', '<!--')))
        if kept and (not plain or re.match(r'\s*(?:[-*]|[0-9]+\.) ', line)):
            yield first, ' '.join(kept)
            kept = []
        if plain:
            first, kept = (first, [*kept, line]) if kept else (number, [line])


def cells(text: str) -> Iterator[tuple[int, str]]:
    """The cells of tables, each with its line's number."""
    within = False
    for number, line in enumerate(text.split('\n'), 1):
        within ^= line.lstrip().startswith('```')
        if line.startswith('|') and not within:
            yield from ((number, cell) for cell in re.split(r'(?<!\\)\|', line)[1:-1])


def lengths() -> Iterator[tuple[str, str]]:
    """No paragraph and no cell is too long."""
    for page in pages():
        for kind, most, parts in (('paragraph', MOST_IN_A_PARAGRAPH, paragraphs), ('cell', MOST_IN_A_CELL, cells)):
            wrong = [f'line {line}: {len(part.split())}' for line, part in parts(read(page)) if len(part.split()) > most]
            yield f'{page}: {kind}s', f'{", ".join(wrong)} words, {most} at most' if wrong else ''


def markers() -> Iterator[tuple[str, str]]:
    """Each block with commands of this repository is run, or says why not."""
    for page in pages():
        wrong = [f'line {block.line}' for block in blocks(read(page))
                 if COMMAND.search(block.text) and not block.kind or block.kind == 'not run' and not block.said]
        yield f'{page}: blocks', f'{", ".join(wrong)}: commands with no marker, or none that says why they are not run' if wrong else ''


def generated() -> Iterator[tuple[str, str]]:
    """Each page that a script makes is what it makes, and the glossary has the terms of the field."""
    for page, script in GENERATED.items():
        if not os.path.exists(os.path.join(ROOT, script)):
            yield page, f'there is no {script}'
            continue
        done = subprocess.run([sys.executable, os.path.join(ROOT, script), '--check'], capture_output=True, text=True, timeout=MOST_SECONDS)
        yield page, (done.stdout + done.stderr).strip() if done.returncode else ''
    glossary = read('docs/GLOSSARY.md').lower() if 'docs/GLOSSARY.md' in pages() else ''
    missing = [term for term in TERMS.split(', ') if term.lower() not in glossary]
    yield 'docs/GLOSSARY.md: terms', f'it lacks {", ".join(missing)}' if missing else ''


def days() -> Iterator[tuple[str, str]]:
    """No date, commit or load but in the pages that are named."""
    for page in pages():
        if page in DATED:
            continue
        text = read(page)
        found = OF_A_DAY.search(text)
        yield f'{page}: dates', f'line {line_of(text, found.start())}: `{found[0]}`, and the page is none of those that tell dates' if found else ''


@functools.lru_cache(None)
def helps() -> dict[str, str]:
    """What each subcommand of the Python package prints for --help."""
    sys.path.insert(0, os.path.join(ROOT, 'python'))
    from warehouse.__main__ import COMMANDS, module
    found = {}
    for name in COMMANDS:
        parser = argparse.ArgumentParser(prog=name, description=module(name).__doc__, formatter_class=argparse.RawDescriptionHelpFormatter)
        module(name).add_options(parser)
        found[f'{name} --help'] = prose(parser.format_help())
    return found


def words() -> Iterator[tuple[str, str]]:
    """No page, and no help of a subcommand, uses a word of tests/docs_words where it is not allowed."""
    texts = {**{page: prose(read(page)) for page in pages()}, **helps()}
    for line in read('tests/docs_words').splitlines():
        if not line.strip() or line.startswith('#'):
            continue
        word, term, allowed = (part.strip() for part in line.split('|'))
        pattern, wrong = re.compile(rf'(?<![\w-]){re.escape(word)}(?![\w-])', re.IGNORECASE), []
        for page in sorted(set(texts) - set(allowed.split())):
            text = texts[page]
            wrong += [f'{page}:{line_of(text, found.start())}' for found in pattern.finditer(text)]
        yield f'the word `{word}`', f'{", ".join(wrong)}: write {term}' if wrong else ''


def instance_of(drawing: str) -> str:
    """The map and the points of a drawing."""
    rows = drawing.rstrip('\n').split('\n')
    points, agents = [], []
    for y, row in enumerate(rows):
        for x, letter in enumerate(row):
            if letter.isalpha():
                points.append(f'{"parking" if letter.isupper() else "station"} {letter} {x} {y}')
                agents += [f'agent {letter}'] * letter.isupper()
    cells = [re.sub('[A-Za-z]', '.', row) for row in rows]
    return '\n'.join(['type octile', f'height {len(rows)}', f'width {len(rows[0])}', 'map', *cells, '%%', *points, *agents]) + '\n'


def differs(found: str, wanted: str, percent: float) -> str:
    """What is wrong with an output whose numbers may differ by so many percent."""
    if percent and NUMBER.sub('N', found) == NUMBER.sub('N', wanted):
        pairs = zip(map(float, NUMBER.findall(found)), map(float, NUMBER.findall(wanted)))
        if all(abs(one - other) <= abs(other) * percent / 100 for one, other in pairs):
            return ''
    return '' if found == wanted else f'it wrote\n{found}in place of\n{wanted}'


def scratch() -> str:
    """A folder in which commands of a page run."""
    folder = tempfile.mkdtemp()
    for name in ('dev', 'tools', 'examples', 'docs'):
        os.symlink(os.path.join(ROOT, name), os.path.join(folder, name))
    os.symlink(PROGRAM, os.path.join(folder, 'warehouse'))
    return folder


def outcome(block: Block, folder: str, before: str) -> tuple[str, str]:
    """What the block wrote, and what is wrong with it."""
    if block.kind == 'output':
        tolerance = re.fullmatch(r'([0-9.]+) %', block.said)
        return before, differs(before, block.text, float(tolerance[1]) if tolerance else 0)
    if block.kind == 'floor':
        done = subprocess.run([PROGRAM, 'check'], input=instance_of(block.text), capture_output=True, text=True, timeout=MOST_SECONDS)
        said = (done.stdout + done.stderr).strip()
        return '', '' if said == block.said else f'`check` says {said}, not {block.said}'
    try:
        done = subprocess.run(['bash', '-e', '-c', block.text], cwd=folder, stdin=subprocess.DEVNULL, capture_output=True, text=True,
                              timeout=MOST_SECONDS, env={**os.environ, 'WAREHOUSE': PROGRAM})
    except subprocess.TimeoutExpired:
        return '', f'it takes more than {MOST_SECONDS} seconds'
    wrong = '' if done.returncode == int(block.said or 0) else f'status {done.returncode}, not {block.said or 0}: {done.stderr.strip()[-400:]}'
    return done.stdout, wrong


def tried(page: str) -> list[tuple[str, str]]:
    """What each marked block of a page came to, in one folder."""
    folder, before, found = scratch(), '', []
    try:
        for block in blocks(read(page)):
            if block.kind in ('', 'not run'):
                continue
            before, wrong = outcome(block, folder, before)
            found.append((f'{page}:{block.line}: {block.kind}', wrong))
    finally:
        shutil.rmtree(folder)
    return found


def commands() -> Iterator[tuple[str, str]]:
    """The marked blocks of all pages, a few pages at a time: most of it is waiting for replies."""
    with ThreadPoolExecutor(4) as pool:
        for found in pool.map(tried, pages()):
            yield from found


def itself() -> Iterator[tuple[str, str]]:
    """What this script finds in small texts, worked out by hand."""
    fence = '```'
    page = f'# A b: `c`\n## A\n## A\n[x](#a-1)\n<!-- run 1 -->\n\n{fence}\nfalse\n{fence}\n{fence}\nno marker [y](z)\n{fence}\n<!-- output: 10 % -->\n{fence}\n1\n{fence}\n'
    for name, found, wanted in (
            ('anchors', anchors(page), {'a-b-c', 'a', 'a-1'}),
            ('prose', LINK.findall(prose(page + '`[a](b)` [c](d)')), ['#a-1', 'd']),
            ('blocks', list(blocks(page)), [Block(8, 'run', '1', 'false\n'), Block(11, '', '', 'no marker [y](z)\n'), Block(15, 'output', '10 %', '1\n')]),
            ('paragraphs', list(paragraphs('# a\nb c\nd\n- e\n- f\n  g\n| h | i |\n```\nj\n```\nk')), [(2, 'b c d'), (4, '- e'), (5, '- f   g'), (11, 'k')]),
            ('cells', list(cells('a\n| b \\| c | d |\n```\n| e |\n```')), [(2, ' b \\| c '), (2, ' d ')]),
            ('commands', [bool(COMMAND.search(text)) for text in ('tools/x', 'a\n./test', '$ rt check', 'rtx', 'a tools/x')], [True, True, True, False, False]),
            ('numbers within', [bool(differs(f'a {n} b\n', 'a 100 b\n', 10)) for n in (90, 89, 110, 111)], [False, True, False, True]),
            ('numbers exact', [bool(differs(one, 'a 1\n', 0)) for one in ('a 1\n', 'a 2\n')], [False, True]),
            ('other words', bool(differs('b 1\n', 'a 1\n', 10)), True),
            ('drawing', instance_of('A.b\n@..\n'), 'type octile\nheight 2\nwidth 3\nmap\n...\n@..\n%%\nparking A 0 0\nstation b 2 0\nagent A\n'),
            ('days', [bool(OF_A_DAY.search(text)) for text in ('2026-11-29', 'commit 34fce11', 'load 11.9', 'load of 7', 'since then', 'it is gone', 'is gone on', 'commit of a load', 'a workload 3')],
             [True, True, True, True, True, True, False, False, False])):
        yield f'itself: {name}', '' if found == wanted else f'found {found!r}, wanted {wanted!r}'


def needs() -> str:
    """What is missing for the commands, or nothing."""
    if not os.access(PROGRAM, os.X_OK):
        return f'there is no program {PROGRAM}'
    return '' if shutil.which('bash') else 'there is no bash'


def main() -> int:
    parser = argparse.ArgumentParser(description=__doc__, formatter_class=argparse.RawDescriptionHelpFormatter)
    parser.add_argument('--no-program', action='store_true')
    parser.add_argument('--words', action='store_true')
    options = parser.parse_args()
    if options.words:
        for page in pages():
            print(f'{len(read(page).split()):6} of {CAPS.get(page, 0):6} {page}')
        return 0
    checks = [itself, sizes, links, lengths, markers, generated, days, words, commands]
    missing = 'it was not asked for' if options.no_program else needs()
    if missing:
        checks.remove(commands)
        print(f'skipped: the commands and drawings of the pages, since {missing}')
    passed = failed = 0
    for check in checks:
        for name, wrong in check():
            passed, failed = passed + (not wrong), failed + bool(wrong)
            if wrong:
                print(f'{name}: {wrong}')
    print(f'{passed} passed, {failed} failed')
    return 1 if failed else 0


if __name__ == '__main__':
    sys.exit(main())
