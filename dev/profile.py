#!/usr/bin/env python3
"""Tells where the time of a crate's proof went, by function, from what `rt` keeps of it.

    cd crates/wh_points && rm -rf out && rt check --jobs 1     # one job, from nothing, on a quiet machine
    dev/profile.py wh_points --top 20
    dev/profile.py --all --top 100                           # every crate that has kept work

A check writes one file for each module that it has checked, into crates/CRATE/out/incremental, one after
the other where it has one job. So the gap between the times of two files is what the later one took, the
making of its text included. Modules of one function are added up: Lts (its body's meaning), Proof (the
goals that search closes), Answers (the proofs written by hand), and so on; a file of lemmas stands alone.

What it cannot tell: with more than one job the gaps mean nothing; work that was taken over from an earlier
check has no time; a gap above --longest is a pause between two runs, and is left out and counted. Wall
time is measured, so other work on the machine counts in.
"""
import argparse
import collections
import os
import sys

ROOT = os.path.dirname(os.path.dirname(os.path.abspath(__file__)))
# The names of the modules that rattle makes of a function, or of a group of them.
STAGES = frozenset('''Answers Code Given Goals Invariants Key Kinds Laws Layout Lts Met Mir Named Proof Reads Statement
Symbol TheConstants TheImpl TheInside TheLaws TheLink TheLinks TheReach TheSendSync TheVariants TheView Tie View'''.split())
Module = collections.namedtuple('Module', 'seconds crate place stage')


def newest_folder(crate_folder: str) -> str | None:
    """The kept work of the last build of rattle that checked the crate."""
    kept = os.path.join(crate_folder, 'out', 'incremental')
    if not os.path.isdir(kept):
        return None
    folders = [it.path for it in os.scandir(kept) if it.is_dir()]
    return max(folders, key=os.path.getmtime, default=None)


def place_and_stage(name: str, crate: str) -> tuple[str, str]:
    """What the module of this file is about, and which part of it."""
    stem = name.removesuffix('.oantt').removeprefix(f'Rattle-{crate}-')
    words = stem.split('.')
    if words[0] == 'specs':
        return stem, 'specs'
    words = words[1:] or words
    cut = next((at for at, word in enumerate(words) if word in STAGES), None)
    if cut is None:
        # a function's last module has its own name, and so has a file of lemmas
        return '.'.join(words), 'own'
    return '.'.join(words[:cut]) or 'crate', words[cut]


def modules_of(crate: str, folder: str, longest: float) -> tuple[list[Module], int]:
    """The crate's modules with their seconds, and how many gaps were too long to be one."""
    files = sorted((it.stat().st_mtime_ns, it.name) for it in os.scandir(folder) if it.name.endswith('.oantt'))
    found, pauses = [], 0
    for (before, _), (after, name) in zip(files, files[1:]):
        seconds = (after - before) / 1e9
        if seconds > longest:
            pauses += 1
        elif name.startswith(f'Rattle-{crate}-'):
            found.append(Module(seconds, crate, *place_and_stage(name, crate)))
    return found, pauses


def sums(modules: list[Module], key) -> list[tuple[object, float]]:
    found = collections.Counter()
    for it in modules:
        found[key(it)] += it.seconds
    return found.most_common()


def print_profile(modules: list[Module], pauses: int, top: int) -> None:
    total = sum(it.seconds for it in modules)
    crates = sums(modules, lambda it: it.crate)
    print(f'{total:.1f} s in {len(modules)} modules of {len(crates)} crates; {pauses} pauses left out')
    if len(crates) > 1:
        print('\nseconds  crate')
        for crate, seconds in crates:
            print(f'{seconds:7.1f}  {crate}')
    print('\nseconds  share  stage')
    for stage, seconds in sums(modules, lambda it: it.stage):
        print(f'{seconds:7.1f}  {100 * seconds / total:4.1f}%  {stage}')
    stages = collections.defaultdict(collections.Counter)
    for it in modules:
        stages[it.crate, it.place][it.stage] += it.seconds
    dearest = sorted(stages.items(), key=lambda it: -sum(it[1].values()))
    print(f'\nseconds  function or file ({min(top, len(dearest))} of {len(dearest)})')
    for (crate, place), parts in dearest[:top]:
        told = ', '.join(f'{stage} {seconds:.1f}' for stage, seconds in parts.most_common(3) if seconds >= 0.05)
        print(f'{sum(parts.values()):7.1f}  {crate} {place}: {told}')


def main() -> int:
    parser = argparse.ArgumentParser(description=__doc__, formatter_class=argparse.RawDescriptionHelpFormatter)
    parser.add_argument('crates', nargs='*', metavar='CRATE')
    parser.add_argument('--all', action='store_true', help='every crate that has kept work')
    parser.add_argument('--top', type=int, default=20, metavar='N', help='so many functions (20)')
    parser.add_argument('--longest', type=float, default=300, metavar='S', help='a gap above so many seconds is a pause (300)')
    parser.add_argument('--root', default=ROOT, metavar='DIR', help='another copy of the repository')
    options = parser.parse_args()
    folder = os.path.join(options.root, 'crates')
    crates = sorted(os.listdir(folder)) if options.all else options.crates
    if not crates:
        parser.error('name a crate, or --all')
    modules, pauses = [], 0
    for crate in crates:
        kept = newest_folder(os.path.join(folder, crate))
        if kept is None:
            if not options.all:
                print(f'{crate}: no kept work: run rt check --jobs 1 in crates/{crate}', file=sys.stderr)
            continue
        found, left_out = modules_of(crate, kept, options.longest)
        modules, pauses = modules + found, pauses + left_out
    if not modules:
        print('nothing to tell', file=sys.stderr)
        return 1
    print_profile(modules, pauses, options.top)
    return 0


if __name__ == '__main__':
    try:
        status = main()
        sys.stdout.flush()
    except BrokenPipeError:    # whoever reads has enough
        os.dup2(os.open(os.devnull, os.O_WRONLY), sys.stdout.fileno())
        status = 1
    sys.exit(status)
