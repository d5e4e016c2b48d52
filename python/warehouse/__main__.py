"""What users run: `python3 -m warehouse SUBCOMMAND ..`, by `tools/py SUBCOMMAND ..`, or `tools/NAME.py ..` by its old name.

Each subcommand is a module with `add_options(parser)` and `run(options)`, which returns the exit status; its docstring is its
help. A Fault ends it with one line on standard error and the module's FAULT, else status 2.
"""
from __future__ import annotations

import argparse
import importlib
import os
import re
import sys
from types import ModuleType

from .process import SessionError
from .texts import Fault

PACKAGES = {'simulate.': 'demo drive make-instance', '': 'client explain', 'figures.': 'play stats', 'web.': 'dashboard',
            'convert.': 'join log-input next-shift import-mapd import-scen import-mrp import-lif export'}
COMMANDS = {name: '.' + package + name.replace('-', '_') for package, names in PACKAGES.items() for name in names.split()} | {
    'vda5050': '.vda5050.adapter', 'vda5050-vehicle': '.vda5050.simulated', 'vda5050-orders': '.vda5050.feed'}


SCRIPT = 'warehouse-py'    # the name of the installed package's command


def is_script() -> bool:
    return os.path.basename(sys.argv[0]) == SCRIPT


def module(name: str) -> ModuleType:
    return importlib.import_module(COMMANDS[name], __package__)


def usage() -> str:
    """Each subcommand with the beginning of its page."""
    rows = [f'    {name:16}{re.split("[.:,]", module(name).__doc__ or "", maxsplit=1)[0]}' for name in COMMANDS]
    return '\n'.join([f'usage: {SCRIPT if is_script() else "python3 -m warehouse"} SUBCOMMAND ..', '', *rows, '', 'SUBCOMMAND --help has more.', ''])


def parser_of(name: str, prog: str) -> argparse.ArgumentParser:
    """The parser of a subcommand's options."""
    command = module(name)
    parser = argparse.ArgumentParser(prog=prog, description=command.__doc__, formatter_class=argparse.RawDescriptionHelpFormatter)
    parser.set_defaults(prog=prog, refuse=parser.error)
    command.add_options(parser)
    return parser


def main(words: list[str], prog: str | None = None) -> int:
    """Runs a subcommand with its words; messages begin with `prog`. Returns the exit status."""
    if not words or words[0] in ('-h', '--help', 'help'):
        (sys.stdout if words else sys.stderr).write(usage())
        return 0 if words else 2
    if words[0] not in COMMANDS:
        sys.stderr.write(f'warehouse: there is no subcommand {words[0]}\n{usage()}')
        return 2
    prog = prog or f'{SCRIPT if is_script() else "warehouse"} {words[0]}'
    command = module(words[0])
    if words[2:] and words[1] in getattr(command, 'PROGRAM_BEHIND', {}):
        return int(command.PROGRAM_BEHIND[words[1]](words[2:]))
    parser = parser_of(words[0], prog)
    cut = words.index('--') if '--' in words else len(words)
    if getattr(command, 'PASSES_ON', False):
        parser.set_defaults(passed_on=words[cut + 1:])
        words = words[:cut]
    status: int = getattr(command, 'FAULT', 2)
    try:
        options = parser.parse_args(words[1:])
        status = command.run(options)
        sys.stdout.flush()
    except BrokenPipeError:
        # `| head` ends it quietly
        os.dup2(os.open(os.devnull, os.O_WRONLY), sys.stdout.fileno())
        status = 1
    except (Fault, SessionError) as fault:
        print(f'{prog}: {fault}', file=sys.stderr)
    except OSError as error:
        print(f'{prog}: {error.filename}: {error.strerror}' if error.filename else f'{prog}: {error.strerror}', file=sys.stderr)
    except KeyboardInterrupt:
        print(f'{prog}: interrupted', file=sys.stderr)
    return status


def entry() -> None:
    """The script of an installed package."""
    sys.exit(main(sys.argv[1:]))


if __name__ == '__main__':
    entry()
