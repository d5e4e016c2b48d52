#!/usr/bin/env python3
"""Tests of the Python package as a whole: types, form, subcommands, launcher, and the loop of docs/INTEGRATION.md.

The program is that of WAREHOUSE, else the one that the gate built. The last line is `N passed, M failed`, and `, K skipped` where a test needs what is
not here; status 1 where one failed.
"""
import ast
import contextlib
import io
import os
import re
import shutil
import subprocess
import sys

import counting
from tools_drive import ENVIRONMENT, ROOT, SCRATCH, file, has, same, text_of

PYTHON = os.path.join(ROOT, 'python')
sys.path.insert(0, PYTHON)
sys.dont_write_bytecode = True

from warehouse.__main__ import COMMANDS, main    # noqa: E402

MODULES = sorted(os.path.join(folder, name) for folder, _, names in os.walk(PYTHON) for name in names if name.endswith('.py'))
MOST_LINES, MOST_OF_A_FUNCTION = 600, 40


def run_here(*words: str) -> tuple[bytes, str, int]:
    """Standard output, standard error and status of a subcommand in this process."""
    out, said = io.TextIOWrapper(io.BytesIO()), io.StringIO()
    with contextlib.redirect_stdout(out), contextlib.redirect_stderr(said):
        try:
            status = main(list(words))
        except SystemExit as end:
            status = end.code
    out.flush()
    return out.buffer.getvalue(), said.getvalue(), status


# --------------------------------------------------------------------------------------------- the sources

def test_types() -> None:
    for python in (sys.executable, '/usr/bin/python3'):
        if os.path.exists(python) and subprocess.run([python, '-c', 'import mypy'], capture_output=True).returncode == 0:
            words = [python, '-m', 'mypy', '--cache-dir', os.path.join(SCRATCH.name, 'mypy')]
            done = subprocess.run(words, cwd=ROOT, capture_output=True, text=True)
            same((done.stdout.splitlines()[-1:], done.stderr), ([f'Success: no issues found in {len(MODULES)} source files'], ''))
            return
    raise counting.Skipped('no mypy (apt-get install mypy)')


def test_the_standard_library_alone() -> None:
    for path in MODULES:
        with open(path) as text:
            tree = ast.parse(text.read())
        for node in ast.walk(tree):
            names = [alias.name for alias in node.names] if isinstance(node, ast.Import) else []
            names += [node.module or ''] if isinstance(node, ast.ImportFrom) and node.level == 0 else []
            for name in names:
                assert name.split('.')[0] in sys.stdlib_module_names, (path, name)


def test_no_shell_is_given_a_name() -> None:
    for path in MODULES:
        with open(path) as text:
            tree = ast.parse(text.read())
        for node in ast.walk(tree):
            if isinstance(node, ast.Call):
                assert not any(word.arg == 'shell' for word in node.keywords), path
                assert not (isinstance(node.func, ast.Attribute) and node.func.attr in ('system', 'popen', 'getoutput', 'getstatusoutput')), path


def test_sizes() -> None:
    for path in MODULES:
        with open(path) as text:
            lines = text.read().splitlines()
        assert len(lines) < MOST_LINES, (path, len(lines))
        tree = ast.parse('\n'.join(lines))
        assert ast.get_docstring(tree), path
        for node in ast.walk(tree):
            if isinstance(node, (ast.FunctionDef, ast.AsyncFunctionDef)):
                assert node.end_lineno - node.lineno < MOST_OF_A_FUNCTION, (path, node.name, node.end_lineno - node.lineno)


# --------------------------------------------------------------------------------------------- subcommands

def test_every_subcommand_has_a_page_and_names_in_tools_are_theirs() -> None:
    out, said, status = run_here('--help')
    same((said, status), ('', 0))
    for name in COMMANDS:
        has(out.decode(), f'    {name} ')
        page, said, status = run_here(name, '--help')
        same((said, status, page.decode().split()[:3]), ('', 0, ['usage:', 'warehouse', name]))
    for script in os.listdir(os.path.join(ROOT, 'tools')):
        if script.endswith('.py') and 'from by_name import run' in text_of('tools', script):
            assert script.removesuffix('.py').replace('_', '-') in COMMANDS, script
    same(run_here()[2], 2)
    has(run_here('none')[1], 'there is no subcommand none')


def test_names_and_launcher_give_the_same() -> None:
    words = [os.path.join(ROOT, 'examples', 'deliveries'), os.path.join(ROOT, 'examples', 'deliveries.log')]
    wanted = run_here('stats', *words)[0]
    same(wanted.decode().split('\n')[1].split(',')[1:], '2,2,2,9,7.50,7.5,9,22.22,14,1,0,0,9,0'.split(','))
    for call in ([sys.executable, os.path.join(ROOT, 'tools', 'stats.py')], [os.path.join(ROOT, 'tools', 'py'), 'stats'],
                 [sys.executable, '-m', 'warehouse', 'stats']):
        done = subprocess.run([*call, *words], capture_output=True, env={**ENVIRONMENT, 'PYTHONPATH': PYTHON})
        same((done.stdout, done.stderr, done.returncode), (wanted, b'', 0))


def test_the_launcher_finds_no_python() -> None:
    old = file('python3', '#!/bin/bash\nexit 1\n')
    os.chmod(old, 0o700)
    folder = os.path.join(SCRATCH.name, 'bin')
    os.mkdir(folder)
    for name in ('bash', 'dirname', 'readlink'):
        os.symlink(shutil.which(name), os.path.join(folder, name))
    # a copy that knows no /usr/bin, with a Python on its PATH that is too old
    launcher = file('launcher', text_of('tools', 'py').replace('/usr/bin/python3', old))
    os.symlink(old, os.path.join(folder, 'python3'))
    done = subprocess.run([shutil.which('bash'), launcher, 'stats'], capture_output=True, text=True, env={'PATH': folder})
    same((done.stdout, done.returncode), ('', 125))
    has(done.stderr, 'it needs Python 3.10 or later, and found none')


def test_wrong_files_are_refused_in_words() -> None:
    """Each subcommand that reads files, with one that is not there, a folder, and bytes of no kind: a line, and never a traceback."""
    noise = file('noise', ''.join(chr(byte * 7 % 256) for byte in range(3000)))
    instance = os.path.join(ROOT, 'examples', 'deliveries')
    for bad in ('/none/such', SCRATCH.name, noise):
        for words in (['drive', bad], ['drive', instance, bad + '/x'], ['play', bad], ['play', instance, bad], ['stats', instance, bad],
                      ['stats', bad, instance], ['join', bad, bad + '/x'], ['log-input', instance, bad], ['log-input', bad, instance],
                      ['next-shift', bad, instance], ['import-mapd', bad, bad], ['import-scen', bad, bad, '--agents', '1'],
                      ['explain', 'refused M1 line 1', bad + '/x'], ['client', bad, '--wait', '0.1'], ['export', 'mrp', bad, bad], ['export', 'planviz', instance, bad],
                      ['export', 'lif', bad], ['import-mrp', bad], ['import-lif', bad], ['vda5050', bad, '--log', bad + '/x'], ['vda5050-orders', bad]):
            out, said, status = run_here(*words)
            # a row of names may stand before
            same((words, out.count(b'\n') <= 1, status in (1, 2), said.count('\n'), said.startswith(f'warehouse {words[0]}: ')), (words, True, True, 1, True))
    # a fault of a text has its line
    broken = file('broken', text_of('examples', 'deliveries').replace('station B', 'stadion B'))
    has(run_here('drive', broken)[1], f'{broken} line 12: `stadion B 3 0` is no point')


# ------------------------------------------------------------------------------------------------ the page

def test_the_loop_of_the_page() -> None:
    page = text_of('docs', 'INTEGRATION.md')
    loop = re.search(r'```python\n(.*?)```', page, re.S)[1]
    assert len(loop.splitlines()) <= 25
    room = os.path.join(SCRATCH.name, 'room')
    os.mkdir(room)
    os.symlink(os.path.join(ROOT, 'examples'), os.path.join(room, 'examples'))
    done = subprocess.run([sys.executable, '-c', loop], cwd=room, capture_output=True, text=True, env={**ENVIRONMENT, 'PYTHONPATH': PYTHON}, timeout=30)
    lines = done.stdout.splitlines()
    same((sorted(lines[:-1]), lines[-1], done.stderr), (sorted(f'vehicle {agent} is at stop {visit} of {client}' for agent, client in ((0, 'anna'), (1, 'bert'))
                                                              for visit in (0, 1)), "delivered ['WMS-17', 'WMS-18']", ''))
    same(done.returncode, 0)


if __name__ == '__main__':
    counting.main(globals(), ['test_the_loop_of_the_page'], SCRATCH)
