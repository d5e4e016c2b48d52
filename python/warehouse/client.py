"""A client of a running service, over the two named pipes of its folder.

    client FOLDER                       sends the lines of standard input, and prints the replies
    client FOLDER --wait 10             the same, and ends with status 1 where it waits so many seconds for the service

The service is `serve --log FILE --client N=FOLDER`. The client opens FOLDER/out and reads to the line `entries N TAG`: so many
entries of the history are its own. Only then it opens FOLDER/in, and sends `begin TAG`. Each line is sent behind the reply to the one before; empty
lines and comments, which have no reply, are left out. It prints `entries N`, and each reply, and ends with its input, or
at the reply `closed` or `stopped`.

Where the connection breaks, because the service was killed, say, it comes again when the service does. The new N
then says whether the line without a reply was served: if it is one more, it was, and `lost: LINE` is printed in place of
its reply, which is in the service's log; else the line is sent again.

Status 0: all lines were answered; 1: the service did not come within --wait, or reports a number of entries that it cannot
have.
"""
from __future__ import annotations

import argparse
import sys

from .folder import Folder
from .replies import unplaced
from .texts import is_skipped

FAULT = 1


def add_options(parser: argparse.ArgumentParser) -> None:
    parser.add_argument('folder')
    parser.add_argument('--wait', type=float, default=0, metavar='SECONDS')


def tell(text: str) -> None:
    sys.stdout.buffer.write(text.encode('latin-1') + b'\n')
    sys.stdout.flush()


def run(options: argparse.Namespace) -> int:
    folder = Folder(options.folder, options.wait, lambda entries: tell(f'entries {entries}'))
    folder.begin()
    try:
        for data in sys.stdin.buffer:
            line = data.rstrip(b'\r\n').decode('latin-1')
            if not is_skipped(line):
                reply = folder.answer(line)
                tell(reply)
                if unplaced(reply)[2] in ('closed', 'stopped'):
                    break
    finally:
        folder.drop()
    return 0
