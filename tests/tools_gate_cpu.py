#!/usr/bin/env python3
"""tools/gate_cpu.py: its rows of a command that starts what looks like provers, that command's output and status, and the tables."""
import os
import subprocess
import sys
import tempfile

import counting

ROOT = os.path.dirname(os.path.dirname(os.path.abspath(__file__)))
SCRATCH = tempfile.TemporaryDirectory()
BUSY = "import time\nend = time.process_time() + 2\nwhile time.process_time() < end: pass"
SCRIPT = 'python3 -c "$BUSY" --crate-name low & python3 -c "$BUSY" --crate-name high --test; wait; echo said; exit 3'
ROWS = """proof low 40 500
proof middle 20.4 900
proof high 7 1900
tests high 30 2500
edits low 9 700
proof apart 250 800
proof warehouse 190 800
step rt 120 0
step scripts 33 0
script run.sh 12 20
script live.sh 30 6
"""
USES = {"low": ["std"], "middle": ["low"], "high": ["low", "middle"], "apart": [], "warehouse": ["middle"]}


def gate_cpu(*words):
    env = {**os.environ, "BUSY": BUSY}
    return subprocess.run([f"{ROOT}/tools/gate_cpu.py", *words], capture_output=True, text=True, check=False, env=env)


def test_rows_of_a_command():
    rows = f"{SCRATCH.name}/rows"
    ran = gate_cpu("run", rows, "bash", "-c", SCRIPT)
    assert (ran.stdout, ran.returncode) == ("said\n", 3), ran
    with open(rows, encoding="utf-8") as it:
        found = {tuple(line.split()[:2]): [float(word) for word in line.split()[2:]] for line in it}
    assert {*found} == {("proof", "low"), ("tests", "high"), ("step", "bash")}, found
    for key in (("proof", "low"), ("tests", "high")):
        assert 0.5 <= found[key][0] <= 3 and found[key][1] > 1, found


def test_its_page():
    asked, wrong = gate_cpu("--help"), gate_cpu("tables")
    assert asked.stdout.startswith("What the test command costs") and (asked.stderr, asked.returncode) == ("", 0), asked
    assert (wrong.stdout, wrong.returncode) == ("", 1) and wrong.stderr.startswith("What the test command costs"), wrong


def test_tables():
    sys.path.insert(0, f"{ROOT}/tools")
    sys.dont_write_bytecode = True
    import gate_cpu as tool

    path = f"{SCRATCH.name}/made"
    with open(path, "w", encoding="utf-8") as it:
        it.write(ROWS)
    lines = "\n".join(tool.tables(tool.read(path), USES)).split("\n")
    wanted = [
        "| `apart` | 250 | 0 | 0 | 0.8 |",
        "| `high` | 7 | 30 | 0 | 2.5 |",
        "| all | 507 | 30 | 9 | 2.5 |",
        "The longest chain of proofs, 250 s: `low`, `middle`, `warehouse`.",
        "| `rt` | 2.0 min | |",
        "| `live.sh` | 30 s | 6 s |",
        "| all scripts, side by side | 33 s | 26 s |",
        "| `./test` from nothing in 50 minutes on four processors, in 100 on two | 3 min |",
        "| the program's proofs in 25 minutes on four processors | no less than 4 min: 250 s of work, of which the longest chain is 250 |",
        "| the longest chain of proofs below 2000 s | 250 s |",
        "| two proofs above 180 s, no more | 2: `apart`, `warehouse` |",
    ]
    assert not [it for it in wanted if it not in lines], lines
    assert lines.index(wanted[0]) < lines.index("| `low` | 40 | 0 | 9 | 0.7 |") < lines.index(wanted[1])
    count, memory = tool.machine()
    assert f"| Aim | Measured, on {count} processors with {memory:.0f} GB |" in lines and 1 <= count and memory > 0.1


def test_no_rows():
    assert gate_cpu("run").returncode == 1 and gate_cpu("table").returncode == 1


if __name__ == "__main__":
    counting.main(globals(), (), SCRATCH)
