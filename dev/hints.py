#!/usr/bin/env python3
"""Writes the hints on inlining of the sources (`#[inline(always)]`, `#[cold]` and the like) into a module of LLVM.

    dev/hints.py MODULE.ll FOLDER.. > HINTED.ll

FOLDER holds crates, each with a folder src/. `rt try` leaves hints out of its module, and a build of proved crates has
them, so tools/unproved puts them back. A function is told by its crate, its module and its name; of two of one name in
one module both get the hint.
"""
import pathlib
import re
import sys

WORDS = {'inline(always)': 'alwaysinline', 'inline(never)': 'noinline', 'inline': 'inlinehint', 'cold': 'cold'}
HINT = re.compile(r'#\[(inline\(always\)|inline\(never\)|inline|cold)\]')
FUNCTION = re.compile(r'(?:pub(?:\([a-z]+\))? )?fn (\w+)')
DEFINED = re.compile(r'^define [^@]*@"?([^"(]*)')


def hints_of(source):
    """Each function of a source that has hints, with their words."""
    waiting = []
    for line in source.read_text().splitlines():
        line = line.strip()
        hint, function = HINT.match(line), FUNCTION.match(line)
        if hint:
            waiting.append(WORDS[hint.group(1)])
        elif function:
            if waiting:
                yield function.group(1), ' '.join(waiting)
            waiting = []
        elif line and not line.startswith(('#[', '//')):
            waiting = []


def rules_of(folders):
    """By crate and function name: the beginnings of the whole names that are meant, with the words."""
    rules = {}
    for folder in folders:
        for source in sorted(pathlib.Path(folder).glob('*/src/**/*.rt')):
            crate, _, *within = source.relative_to(folder).with_suffix('').parts
            front = '::'.join([crate, *within]) + '::' if within != ['lib'] else crate + '::'
            for name, words in hints_of(source):
                rules.setdefault((crate, name), []).append((front, words))
    return rules


def main():
    module, *folders = sys.argv[1:] or ['']
    if not folders or module.startswith('-'):
        sys.exit(__doc__)
    rules = rules_of(folders)
    hinted = 0
    with open(module) as lines:
        for line in lines:
            defined = DEFINED.match(line)
            if defined:
                whole = re.sub(r'::<.*$', '', defined.group(1))
                parts = whole.split('::')
                for front, words in rules.get((parts[0], parts[-1]), []):
                    if whole.startswith(front):
                        line = re.sub(r' (#\d+ \{)$', rf' {words} \1', line.rstrip('\n')) + '\n'
                        hinted += 1
                        break
            sys.stdout.write(line)
    print(f'{hinted} functions with hints', file=sys.stderr)


if __name__ == '__main__':
    main()
