#!/usr/bin/env python3
"""Feeds odd inputs to the built program and looks at how it ends.

    tests/hostile.py --runs 2000 --seed 1

Each run makes an input from a seed: a small site and script, with bytes changed, lines doubled, cut or moved, sections
left out, numbers made large; then it runs a subcommand on it. Whatever the input, the program must end within the time
allowed, with a status of 0 to 4; standard output must hold lines of the formats and nothing else, standard error one
line of the formats for the statuses 1, 3 and 4 and clap's text for 2, and nothing for 0. A log file (`kept`) that is odd as
well is as it was where the run is refused, and else what `verify` calls a run. A run that breaks this is printed with its
seed and kept in a file. The expected forms are those of docs/FORMATS.md.
"""
import argparse
import os
import random
import re
import subprocess
import sys
import tempfile

ROOT = os.path.dirname(os.path.dirname(os.path.abspath(__file__)))

NAME = r'[A-Za-z0-9_-]{1,16}'
NUMBER = r'(0|[1-9][0-9]*)'
REFUSAL = rf'refused (E1 {NAME}|E2 {NAME}|E3|E4 {NUMBER}|E5 {NUMBER}|E6|E7|E8|E9|E10|E90|C1|C2)'
REPLY = re.compile(
    rf'(accepted {NUMBER}|took {NUMBER} end {NUMBER}|rested|parked {NAME} end {NUMBER}'
    rf'|clock {NUMBER} picked {NUMBER} dropped {NUMBER}|replaced {NUMBER}|closed|{REFUSAL})')
LEDGER = re.compile(
    rf'{NAME} submitted {NUMBER} open {NUMBER} assigned {NUMBER} carried {NUMBER} done {NUMBER} time {NUMBER}')
PATH = rf'path {NUMBER},{NUMBER}( {NUMBER},{NUMBER})*'
EVENT = (rf'(submit {NAME}( {NAME}){{2,8}}|token {NUMBER}|tick|close'
         rf'|replace {NUMBER} (none|foreign|fits {NUMBER}))')
ANSWER = (rf'(accepted {NUMBER}|took {NUMBER} {PATH}|rested|parked {NAME} {PATH}'
          rf'|clock {NUMBER} picked {NUMBER} dropped {NUMBER}|replaced {NUMBER}|closed|{REFUSAL})')
FULL_REPLY = re.compile(ANSWER)
# behind its place and the clock; a line without an entry has neither
PLACED_REPLY = re.compile(rf'({NUMBER} {NUMBER} (?!refused (C1|C2|E90)){ANSWER}|refused (C1|C2|E90))')
LOG = re.compile(rf'(wlog 2|start {NUMBER} slots {NUMBER}( {NUMBER})*|{NUMBER} {EVENT} = {ANSWER}|end {NUMBER})')
VERDICT = re.compile(rf'(formed|few parkings {NUMBER} {NUMBER}|cut {NAME} {NAME})')
VERIFIED = re.compile(rf'(run {NUMBER}|bad {NUMBER})')
FAULT = re.compile(
    rf'refused (M[1-7] line {NUMBER}|P([1-9]|10) line {NUMBER}|C[12] line {NUMBER}|B1 free {NUMBER}|B2 seen {NUMBER}'
    rf'|L1 line {NUMBER}|X[1-5]|E90|E93|E94|E95)\n')
BEGUN = re.compile(rf'entries {NUMBER}\n')


def site(chance):
    """The lines of a small map and of its points."""
    width, height = chance.randint(1, 12), chance.randint(1, 8)
    blocked = chance.choice([0, 0.1, 0.4])
    cells = [[chance.choice('@OTW') if chance.random() < blocked else chance.choice('...GS') for _ in range(width)]
             for _ in range(height)]
    level = ['type octile', f'height {height}', f'width {width}', 'map'] + [''.join(row) for row in cells]
    free = [(x, y) for y in range(height) for x in range(width) if cells[y][x] in '.GS']
    chance.shuffle(free)
    points, names = [], []
    for number, (x, y) in enumerate(free[:chance.randint(1, 10)]):
        kind = 'parking' if number % 2 else 'station'
        names.append(f'{"P" if number % 2 else "S"}{number}')
        points.append(f'{kind} {names[-1]} {x} {y}')
    points += [f'agent {name}' for name in names[:chance.randint(1, 4)]]
    if chance.random() < 0.3:
        points.insert(chance.randint(0, len(points)), 'rule nofollow')
    return level, points, names or ['S0']


def script(chance, names):
    lines = []
    for _ in range(chance.randint(0, 60)):
        pick = chance.random()
        if pick < 0.3:
            stops = ' '.join(chance.choice(names) for _ in range(chance.choice([2, 2, 2, 3, 8, 1, 9])))
            lines.append(f'submit {chance.choice("xyz")} {stops}')
        elif pick < 0.6:
            lines.append(f'token {chance.choice([0, 0, 1, 2, 3, 7, 999999999])}')
        elif pick < 0.9:
            lines.append('tick')
        elif pick < 0.95:
            lines.append(f'replace {chance.randint(0, 4)}')
        else:
            lines.append(chance.choice(['close', '', '# note', ' tick ', 'go', '%% ', 'x' * 300]))
    return lines


def spoiled(chance, lines):
    """The bytes of the lines after some changes."""
    lines = list(lines)
    for _ in range(chance.choice([0, 0, 1, 1, 2, 5])):
        if not lines:
            break
        place = chance.randrange(len(lines))
        deed = chance.randrange(5)
        if deed == 0:
            lines.insert(place, lines[place])
        elif deed == 1:
            del lines[place]
        elif deed == 2:
            lines[place] = lines[place][:chance.randint(0, len(lines[place]))]
        elif deed == 3:
            lines[place] += chance.choice([' ', '\t', '\r', ' 7', ' x', '999999999999'])
        else:
            lines.insert(place, '%%')
    data = bytearray(('\n'.join(lines) + '\n').encode())
    for _ in range(chance.choice([0, 0, 0, 1, 3])):
        if data:
            data[chance.randrange(len(data))] = chance.randrange(256)
    if chance.random() < 0.15:
        del data[chance.randint(0, len(data)):]
    return bytes(data)


def log_text(program, level, points, commands, limit):
    """The log of a whole run, to be spoiled: so that most of its lines are steps."""
    text = '\n'.join(level + ['%%'] + points + ['%%'] + commands) + '\n'
    done = subprocess.run([program, 'replay', '--tail', 'log'], input=text.encode(), capture_output=True, timeout=limit)
    told = done.stdout.decode(errors='replace').split('\n%%\n')
    return told[1].split('\n')[:-1] if len(told) == 2 else []


def fleet_words(chance):
    words = []
    for name, values in [('planner', ['near', 'patient']), ('slots', ['2', '4', '64']), ('spares', ['0', '1', '16']),
                         ('bank', ['2', '7', '16', '1024', '65536'])]:
        if chance.random() < 0.4:
            words.append(f'--{name}={chance.choice(values)}')
    if '--planner=patient' not in words and chance.random() < 0.3:
        words.append(f'--slack={chance.choice([0, 1, 4, 1000])}')
    if '--planner=patient' not in words and chance.random() < 0.3:
        words.append(f'--effort={chance.choice([1000, 1001, 20000, 1000000000])}')
    return words


def wrong_words(chance):
    return chance.choice([[], ['go'], ['replay', '--slots', '1'], ['replay', '--slots=65'], ['replay', '--slack=1001'], ['replay', 'x'],
                          ['live', '--planner=patient', '--slack=4'], ['replay', '--effort=999'],
                          ['live', '--planner=patient', '--effort=1000'],
                          ['check', '--slots', '4'], ['replay', '--slots', '4', '--slots', '4'],
                          ['verify', '--tail', 'log'], ['live', '--turns', '0'], ['replay', '--bank', '-0'],
                          ['replay', '--replies', 'long'], ['live', '--replies=full'], ['replay', '--told', '0'],
                          ['serve'], ['serve', '--log', 'x'], ['serve', '--client', '0=x']])


def is_text_of(form, text):
    if text and not text.endswith('\n'):
        return False
    return all(form.fullmatch(line) for line in text.split('\n')[:-1])


def reply_form(words):
    """What a reply is, by the words of `replay`."""
    said = ' '.join(words).replace('=', ' ')
    return FULL_REPLY if '--replies full' in said else PLACED_REPLY if '--replies placed' in said else REPLY


def is_output(words, status, text):
    if status in (2,):
        return text == ''
    kind = words[0]
    if kind == 'check':
        return is_text_of(VERDICT, text)
    if kind == 'verify':
        return is_text_of(VERIFIED, text)
    if kind == 'live':
        return is_text_of(LOG, text)
    if any(word.startswith('--log=') for word in words):
        begun = BEGUN.match(text)
        if not begun:
            return text == '' and status != 0
        text = text[begun.end():]
    replies, mark, tail = text.partition('%%\n')
    return is_text_of(reply_form(words), replies) and is_text_of(LEDGER if '--tail=ledger' in words else LOG, tail)


def is_error(words, status, text):
    if status == 2:
        return text != ''
    if status == 0 or (status == 1 and words[0] in ('check', 'verify') and text == ''):
        return text == ''
    return FAULT.fullmatch(text) is not None


def site_of(text):
    """Map and points of an input, with their separators."""
    lines = text.split(b'\n')
    cuts = [place for place, line in enumerate(lines) if line.removesuffix(b'\r') == b'%%'] + [len(lines)]
    return b'\n'.join(lines[:cuts[min(1, len(cuts) - 1)]]) + b'\n%%\n'


def file_fault(program, text, file, before, status, limit):
    """What is wrong with the log file behind a run (None: nothing)."""
    with open(file, 'rb') as kept:
        after = kept.read()
    if status in (1, 2):
        return None if after == before else f'the log file was {before[-200:]!r}, and is {after[-200:]!r}'
    verdict = subprocess.run([program, 'verify', '--unended'], input=site_of(text) + after, capture_output=True, timeout=limit).stdout
    return None if verdict.startswith(b'run ') else f'{verdict!r} of the log file {after[-200:]!r}'


def one_run(program, seed, kinds, limit):
    """The words, the input, and what is wrong with how the program ended (None: nothing)."""
    chance = random.Random(seed)
    level, points, names = site(chance)
    commands = script(chance, names)
    kind = chance.choice(kinds)
    file = None
    if kind == 'wrong':
        words = wrong_words(chance)
    elif kind == 'verify':
        words = ['verify']
        commands = log_text(program, level, points, commands, limit)
    elif kind == 'live':
        words = ['live', f'--turns={chance.choice([1, 3, 8])}', f'--journal={chance.choice([1, 10, 10000])}']
        words += fleet_words(chance)
    elif kind == 'check':
        words = ['check']
    elif kind == 'kept':
        file = os.path.join(tempfile.gettempdir(), f'hostile-log-{os.getpid()}')
        log = log_text(program, level, points, commands, limit)
        before = spoiled(chance, log[:chance.choice([len(log), chance.randint(0, len(log))])])
        with open(file, 'wb') as kept:
            kept.write(before)
        words = ['replay', f'--log={file}'] + fleet_words(chance) + chance.choice([[], ['--tail=log'], ['--tail=ledger']])
    else:
        words = ['replay'] + fleet_words(chance) + chance.choice([[], [f'--tail={kind}'] if kind != 'replay' else []])
        words += chance.choice([[], ['--replies=full'], ['--replies', 'short'], ['--replies=placed']])
    parts = [level, points, commands]
    if chance.random() < 0.7:
        parts[chance.randrange(3)] = None    # this section alone is spoiled
        text = b'%%\n'.join(
            spoiled(chance, [level, points, commands][place]) if part is None else ('\n'.join(part) + '\n').encode()
            for place, part in enumerate(parts))
    else:
        text = spoiled(chance, level + ['%%'] + points + ['%%'] + commands)
    try:
        done = subprocess.run([program] + words, input=text, capture_output=True, timeout=limit)
        misfiled = file and file_fault(program, text, file, before, done.returncode, limit)
    except subprocess.TimeoutExpired:
        return words, text, 'no end', None
    finally:
        for name in (file, file + '.site') if file else ():
            if os.path.exists(name):
                os.remove(name)
    output, errors = done.stdout.decode(errors='replace'), done.stderr.decode(errors='replace')
    wrong = None
    if not 0 <= done.returncode <= 4:
        wrong = f'status {done.returncode}'
    elif not is_output(words or ['none'], done.returncode, output):
        wrong = f'standard output {output[-200:]!r}'
    elif not is_error(words or ['none'], done.returncode, errors):
        wrong = f'standard error {errors[:200]!r}'
    elif misfiled:
        wrong = misfiled
    return words, text, wrong, done.returncode


def main():
    parser = argparse.ArgumentParser(description=__doc__, formatter_class=argparse.RawDescriptionHelpFormatter)
    parser.add_argument('--program', default=os.environ.get('WAREHOUSE') or os.path.join(ROOT, 'crates/warehouse/out/warehouse'))
    parser.add_argument('--runs', type=int, default=2000)
    parser.add_argument('--seed', type=int, default=1)
    parser.add_argument('--seconds', type=float, default=20, help='the time allowed to a run')
    parser.add_argument('--kinds', default='replay,log,ledger,check,verify,live,kept,wrong')
    options = parser.parse_args()
    counts, failed = {}, 0
    for seed in range(options.seed, options.seed + options.runs):
        words, text, wrong, status = one_run(options.program, seed, options.kinds.split(','), options.seconds)
        counts[(words[0] if words else 'none', status)] = counts.get((words[0] if words else 'none', status), 0) + 1
        if wrong:
            failed += 1
            kept = os.path.join(tempfile.gettempdir(), f'hostile-{seed}')
            with open(kept, 'wb') as file:
                file.write(text)
            print(f'seed {seed}: {" ".join(words)} < {kept}: {wrong}')
    for (word, status), count in sorted(counts.items(), key=str):
        print(f'{word}, status {status}: {count}')
    print(f'{options.runs - failed} passed, {failed} failed')
    sys.exit(failed != 0)


if __name__ == '__main__':
    main()
