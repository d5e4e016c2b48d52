"""Makes the input of `warehouse verify` from an instance and what a run of it printed.

    ./warehouse replay --tail log < INSTANCE > OUTPUT
    log-input INSTANCE OUTPUT | ./warehouse verify

INSTANCE gives map and points. OUTPUT is what `replay --tail log` printed (replies, a line `%%`, the log), or a log alone,
as `live` prints it; a log of version 3 is for `verify --wlog 3`. The log is passed on as it is: what is wrong in it is `verify`'s to say. A run that ended early has
printed no log; then, and where OUTPUT has a ledger, the message says so and the status is 2.
"""
from __future__ import annotations

import argparse
import sys

from ..texts import Fault, read_file, sections_of, site_text


def add_options(parser: argparse.ArgumentParser) -> None:
    parser.add_argument('instance', metavar='INSTANCE')
    parser.add_argument('output', metavar='OUTPUT')


def log_of(path: str) -> bytes:
    """The log in what a run printed."""
    text = read_file(path)
    if text.startswith(b'wlog '):
        return text
    start = 0 if text.startswith(b'%%\n') else text.find(b'\n%%\n') + 1
    if not text.startswith(b'%%\n', start):
        raise Fault('no log, neither at its start nor behind a line `%%`: was it printed by `replay --tail log`?', path)
    log = text[start + 3:]
    if not log.startswith(b'wlog '):
        raise Fault('what stands behind `%%` is no log: was it printed by `--tail ledger`?', path)
    return log


def run(options: argparse.Namespace) -> int:
    sections = sections_of(read_file(options.instance))
    if len(sections) < 2:
        raise Fault('no line `%%`: map and points are two sections', options.instance)
    sys.stdout.buffer.write(site_text(sections) + log_of(options.output))
    return 0
