#!/usr/bin/env python3
"""Makes docs/CRATES.md, the index of the crates, from crates.txt and the `//!` of each crate's root file.

    tools/crates_page.py            writes it
    tools/crates_page.py --check    writes nothing; status 1 where it differs from what would be written

Of a `//!` the first sentence stands in the index; what a crate is and proves is told there at length. The layers are the
comments of crates.txt.
"""
from __future__ import annotations

import os
import re
import sys

ROOT = os.path.dirname(os.path.dirname(os.path.abspath(__file__)))
PAGE = os.path.join(ROOT, 'docs', 'CRATES.md')
MOST_WORDS = 26    # of one row, so that a cell stays short

HEAD = '''# The crates

<!-- Made by tools/crates_page.py from crates.txt and the crates' own first lines. Change these, not this page. -->

Layer by layer, as in `crates.txt`, which says what each crate uses. The rest of each `//!`, the contracts in `src/` and the definitions in `specs/` say more. [Architecture](ARCHITECTURE.md) draws how they hang together.
'''


def root_file(crate: str) -> str:
    for name in ('lib.rt', 'main.rt'):
        path = os.path.join(ROOT, 'crates', crate, 'src', name)
        if os.path.exists(path):
            return path
    raise SystemExit(f'crates_page.py: {crate} has no src/lib.rt or src/main.rt')


def about(crate: str) -> str:
    """The first sentence of the crate's `//!`."""
    lines = []
    with open(root_file(crate), encoding='utf-8') as text:
        for line in text:
            if not line.startswith('//!') or not line[3:].strip():
                break
            lines.append(line[3:].strip())
    whole = ' '.join(lines)
    if not whole:
        raise SystemExit(f'crates_page.py: {crate} has no //! in its first line')
    first = re.split(r'(?<=[.])\s+(?=[A-Z`])', whole)[0]
    words = first.replace('|', '\\|').split()
    if len(words) > MOST_WORDS:    # up to where a part of the sentence ends
        ends = [n for n in range(MOST_WORDS) if words[n][-1] in ':;' or words[n][-1] == ',' and words[n + 1] in ('and', 'in', 'or')]
        last = ends[-1] if ends else MOST_WORDS - 1
        words = [*words[:last], words[last].rstrip(':;,') + '.']
    return ' '.join(words)


def layers() -> list[tuple[str, list[str]]]:
    """Each layer with its crates."""
    found: list[tuple[str, list[str]]] = []
    with open(os.path.join(ROOT, 'crates.txt'), encoding='utf-8') as text:
        parts = re.split(r'\n\s*\n', text.read())
    for part in parts:
        heads = [line[1:].strip() for line in part.splitlines() if line.startswith('#')]
        crates = [re.split('[ :]', line)[0] for line in part.splitlines() if line and not line.startswith('#')]
        if crates:
            found.append((' '.join(heads), crates))
    return found


def page() -> str:
    parts = [HEAD]
    for head, crates in layers():
        name, _, rest = head.partition(':')
        rows = ''.join(f'|`{crate}`|{about(crate)}|\n' for crate in crates)
        parts.append(f'## {name.capitalize()}\n\n{rest.strip().capitalize()}.\n\n|Crate|What it is|\n|---|---|\n{rows}')
    return '\n'.join(parts)


def main() -> int:
    made = page()
    if sys.argv[1:] == ['--check']:
        kept = ''
        if os.path.exists(PAGE):
            with open(PAGE, encoding='utf-8') as text:
                kept = text.read()
        if kept != made:
            print('docs/CRATES.md: run tools/crates_page.py')
        return int(kept != made)
    with open(PAGE, 'w', encoding='utf-8') as text:
        text.write(made)
    return 0


if __name__ == '__main__':
    sys.exit(main())
