#!/usr/bin/env python3
"""Refuses each request for memory of the built program in turn, and looks at what it answers.

    tests/want_of_memory.py                    every case of tests/replay and tests/check
    tests/want_of_memory.py --case replay/one_delivery
    tests/want_of_memory.py --live             `live` with two clients
    tests/want_of_memory.py --kept             `replay --log FILE`, begun and gone on with

For a case that asks for memory n times, the program runs 2 n times: with the k-th request refused alone, and with all
from the k-th on refused. It must end with status 4, the line `refused E90` on standard error and a beginning of the
answer, or with the status of the case and its answer, but that a line may be `refused E90`: up to the first such line
the answer is the case's, and behind it each line is one of the formats. `live` must end with `refused E90`, status 4, or
`refused E93`, status 3, and nothing printed; or with a log that `verify` calls a run of at most its commands.

With `--kept` the run is that of examples/deliveries, begun, and gone on with from a log of five entries, of which some are told
again. It must end as a case does. Whatever was told before the first `refused E90` stands in FILE, which then is a front of the
log of the script at one go; and behind such a reply FILE is still the log of a run, with an entry for each other reply. Beside
it stands the site, or a beginning of it, and the run is gone on with from what is left.
"""
import argparse
import os
import subprocess
import sys
import tempfile

from hostile import FULL_REPLY, LEDGER, LOG, ROOT, is_text_of, reply_form
from lives import Whole, Wrong, demand, go_on, read_file, write_file

REFUSED = 'refused E90\n'


def run(program, words, text, shim, number, on, count):
    settings = dict(os.environ, LD_PRELOAD=shim)
    if number:
        settings['REFUSE'] = str(number)
    if on:
        settings['REFUSE_ON'] = '1'
    if count:
        settings['REFUSE_COUNT'] = count
    done = subprocess.run([program] + words, input=text, capture_output=True, env=settings, timeout=60)
    return done.returncode, done.stdout.decode(errors='replace'), done.stderr.decode(errors='replace')


def follows(answer, row, reply):
    """Up to the first line that found no memory the answer is the row; from there on its lines are of the formats."""
    before, mark, behind = answer.partition(REFUSED)
    if not mark:
        return answer == row
    replies, _, tail = behind.partition('%%\n')
    return row.startswith(before) and is_text_of(reply, replies) and (is_text_of(LOG, tail) or is_text_of(LEDGER, tail))


def fault(outcome, row, reply):
    """What is wrong with the outcome of a run in which memory was refused (None: nothing)."""
    (status, answer, errors), (due, whole, told) = outcome, row
    if status == 4 and due != 4:
        good = errors == REFUSED and (whole.startswith(answer) or REFUSED in answer and follows(answer, whole, reply))
    else:
        good = (status, errors) == (due, told) and follows(answer, whole, reply)
    return None if good else f'status {status}, {errors!r}, {answer!r}'


CLIENTS = b'submit x A B\nsubmit x B A\n%%\nsubmit y C D\n'
COMMANDS = 27    # of these clients, and 8 turns of each of two agents and the clock


def live_fault(outcome, site, program):
    """What is wrong with the outcome of a run of `live` in which memory was refused (None: nothing)."""
    if outcome in ((4, '', REFUSED), (3, '', 'refused E93\n')):
        return None
    status, log, errors = outcome
    judged = subprocess.run([program, 'verify'], input=site + log.encode(), capture_output=True).stdout.decode().split()
    good = (status, errors) == (0, '') and judged[0] == 'run' and int(judged[1]) <= COMMANDS and 'refused E6' not in log
    return None if good else f'status {status}, {errors!r}, {log!r}'


def live(program, folder, shim, count):
    """Refuses each request for memory of `live`: how many runs ended well, how many not."""
    text = open(os.path.join(folder, 'replay/one_delivery'), 'rb').read()
    site = b'%%\n'.join(text.split(b'%%\n')[:2]) + b'%%\n'
    words = ['live', '--turns', '8']
    open(count, 'wb').write(bytes(8))
    run(program, words, site + CLIENTS, shim, 0, False, count)
    requests = int.from_bytes(open(count, 'rb').read(), sys.byteorder)
    ends = {}
    for number in range(1, requests + 1):
        for on in (False, True):
            outcome = run(program, words, site + CLIENTS, shim, number, on, None)
            wrong = live_fault(outcome, site, program)
            kind = 'wrong' if wrong else f'status {outcome[0]}'
            ends[kind] = ends.get(kind, 0) + 1
            if wrong:
                print(f'live, request {number} of {requests}{" and all later" if on else ""}: {wrong}')
    print(f'live: {requests} requests; ' + ', '.join(f'{ends[kind]} times {kind}' for kind in sorted(ends)))
    return sum(ends.values()) - ends.get('wrong', 0), ends.get('wrong', 0)


KEPT = 5    # entries of the log that is gone on with, of which those from the third on are told again


def kept_fault(outcome, whole, file, before):
    """What is wrong with the outcome of a run over a file in which memory was refused (None: nothing)."""
    status, output, errors = outcome
    try:
        demand((status, errors) in ((0, ''), (4, REFUSED)), f'status {status}, {errors!r}')
        again = b''.join(entry + b'\n' for entry in whole.entries[2:before]).decode()
        head = f'entries {before}\n{again}'
        demand(output.startswith(head) or (status == 4 and output == ''), f'it told {output!r}')
        replies, mark, behind = output[len(head):].partition(REFUSED)
        told = replies.splitlines()
        demand(told == [reply.decode() for reply in whole.replies[before:before + len(told)]], f'it told {replies!r}')
        demand(is_text_of(FULL_REPLY, behind), f'it told {behind!r}')
        site = read_file(file + '.site') or b''
        demand(whole.beside().startswith(site), f'beside the file stands {site!r}')
        text = read_file(file)
        if not mark:
            kept = whole.kept(text, before * bool(text) + len(told))
            go_on(whole, file, kept)
            return None
        # the rest of the script was served without that line
        kept = len([line for line in text.split(b'\n')[2:] if line and not line.startswith(b'end ')])
        answered = [line for line in behind.splitlines() if line + '\n' != REFUSED]
        demand(kept >= before + len(told) + len(answered), f'{kept} entries, and told were {len(told) + len(answered)}')
        gone_on = whole.run('replay', '--log', file, text=whole.site)
        demand((gone_on.stdout, gone_on.stderr, gone_on.returncode) == (b'entries %d\n' % kept, b'', 0), f'going on: {gone_on}')
        verdicts = b'run %d\n' % kept, b'run %d unended\n' % kept    # closed, or not
        demand(whole.verify(read_file(file), '--unended') in verdicts, 'the file is no log of a run')
    except Wrong as wrong:
        return str(wrong)
    return None


def kept(program, folder, shim, count):
    """Refuses each request for memory of `replay --log`: how many runs ended well, how many not."""
    whole = Whole(open(os.path.join(ROOT, 'examples/deliveries'), 'rb').read(), (), program)
    file = os.path.join(folder, 'log')
    passed = failed = 0
    for before in (0, KEPT):
        words = ['replay', '--replies', 'full', '--log', file, '--told', str(min(2, before))]
        text = whole.site + b'\n'.join(whole.commands[before:]) + b'\n'

        def outcome(number, on, noted):
            for name, held in ((file, whole.text(before) if before else None), (file + '.site', whole.beside() if before else None)):
                if os.path.exists(name):
                    os.remove(name)
                if held is not None:
                    write_file(name, held)
            return run(program, words, text, shim, number, on, noted)

        open(count, 'wb').write(bytes(8))
        outcome(0, False, count)
        requests = int.from_bytes(open(count, 'rb').read(), sys.byteorder)
        for number in range(1, requests + 1):
            for on in (False, True):
                wrong = kept_fault(outcome(number, on, None), whole, file, before)
                passed, failed = passed + (wrong is None), failed + (wrong is not None)
                if wrong:
                    print(f'kept from {before} entries, request {number} of {requests}{" and all later" if on else ""}: {wrong[:300]}')
        print(f'kept from {before} entries: {requests} requests')
    return passed, failed


def main():
    parser = argparse.ArgumentParser(description=__doc__, formatter_class=argparse.RawDescriptionHelpFormatter)
    parser.add_argument('--program', default=os.environ.get('WAREHOUSE') or os.path.join(ROOT, 'crates/warehouse/out/warehouse'))
    parser.add_argument('--case', action='append')
    parser.add_argument('--live', action='store_true')
    parser.add_argument('--kept', action='store_true')
    options = parser.parse_args()
    folder = os.path.join(ROOT, 'tests')
    cases = [] if options.live or options.kept else options.case or sorted(
        os.path.join(kind, name[:-5])
        for kind in os.listdir(folder) if os.path.isdir(os.path.join(folder, kind))
        for name in os.listdir(os.path.join(folder, kind)) if name.endswith('.args'))
    passed = failed = 0
    with tempfile.TemporaryDirectory() as scratch:
        shim, count = os.path.join(scratch, 'refuse.so'), os.path.join(scratch, 'count')
        subprocess.run(['cc', '-O1', '-shared', '-fPIC', '-o', shim, os.path.join(ROOT, 'tests/refuse.c')], check=True)
        if options.live:
            passed, failed = live(options.program, folder, shim, count)
        if options.kept:
            passed, failed = kept(options.program, scratch, shim, count)
        for case in cases:
            words = open(os.path.join(folder, case + '.args')).read().split()
            text = open(os.path.join(folder, case), 'rb').read()
            open(count, 'wb').write(bytes(8))
            row = run(options.program, words, text, shim, 0, False, count)
            requests = int.from_bytes(open(count, 'rb').read(), sys.byteorder)
            for number in range(1, requests + 1):
                for on in (False, True):
                    wrong = fault(run(options.program, words, text, shim, number, on, None), row, reply_form(words))
                    if wrong:
                        failed += 1
                        print(f'{case}, request {number} of {requests}{" and all later" if on else ""}: {wrong}')
                    else:
                        passed += 1
            print(f'{case}: {requests} requests')
    print(f'{passed} passed, {failed} failed')
    sys.exit(failed != 0)


if __name__ == '__main__':
    main()
