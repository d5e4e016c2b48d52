#!/usr/bin/env python3
"""What the test command costs: processor seconds and memory of each crate's proof, tests and edits, and the time of each script.

    tools/gate_cpu.py run ROWS COMMAND..   runs the command, and adds to the file ROWS what its provers took
    tools/gate_cpu.py table ROWS           prints the rows as tables, the dearest crates first, and the aims beside what was measured

The processes are looked at each second, so what one took in its last second is left out. It reads /proc, so it wants Linux. A row is
`KIND NAME SECONDS MB`: of a crate its `proof`, `tests` or `edits`, with the most memory of one of its provers; of a `step` (a
command, or all `scripts`) its time by the clock; of a `script` the time by the clock, beside others, and its processor seconds in the
last place.
"""
import collections
import os
import re
import subprocess
import sys
import time

import edit_rounds

TICKS = os.sysconf("SC_CLK_TCK")
KINDS = ("proof", "tests", "edits")
SHOWN = 20  # crates that have a line of their own
LONG = 180  # seconds above which a crate's proof is named
ROOT = os.path.dirname(os.path.dirname(os.path.abspath(__file__)))


def text_of(path):
    with open(path, encoding="utf-8", errors="replace") as it:
        return it.read()


def state_of(pid):
    """The parent, the start and the processor seconds of a process."""
    fields = text_of(f"/proc/{pid}/stat").rpartition(")")[2].split()
    return int(fields[1]), fields[19], (int(fields[11]) + int(fields[12])) / TICKS


def is_below(pid, top):
    """Whether the process stands under another."""
    while pid > 1:
        if pid == top:
            return True
        pid = state_of(pid)[0]
    return False


def kind_of(words, folder):
    if "/rt-edit-" in folder or "/rt-edits-" in folder:
        return "edits"
    return "tests" if "--test" in words else "proof"


def look(top, seen):
    """Notes what each prover under the process has taken so far."""
    for name in filter(str.isdigit, os.listdir("/proc")):
        try:
            words = text_of(f"/proc/{name}/cmdline").split("\0")
            if "--crate-name" not in words or not is_below(int(name), top):
                continue
            crate = words[words.index("--crate-name") + 1]
            _, start, seconds = state_of(name)
            most = re.search(r"VmHWM:\s+(\d+)", text_of(f"/proc/{name}/status"))
            seen[name, start] = kind_of(words, os.readlink(f"/proc/{name}/cwd")), crate, seconds, int(most[1]) // 1000
        except (OSError, ValueError, IndexError, TypeError):
            continue  # it has ended


def run(rows, command):
    """Runs the command, and returns its status."""
    begun, seen = time.time(), {}
    with subprocess.Popen(command) as running:
        while running.poll() is None:
            look(running.pid, seen)
            time.sleep(1)
    with open(rows, "a", encoding="utf-8") as it:
        it.writelines(f"{kind} {crate} {seconds:.1f} {most}\n" for kind, crate, seconds, most in seen.values())
        it.write(f"step {os.path.basename(command[0])} {time.time() - begun:.0f} 0\n")
    return running.returncode


def read(path):
    """The rows of a file."""
    found = [line.split() for line in text_of(path).splitlines()]
    return [(kind, name, float(seconds), float(last)) for kind, name, seconds, last in found]


def of_crates(rows):
    """By crate: the seconds of each kind, and the most memory of one prover in GB."""
    found = collections.defaultdict(lambda: {**dict.fromkeys(KINDS, 0.0), "GB": 0.0})
    for kind, name, seconds, last in rows:
        if kind in KINDS:
            found[name][kind] += seconds
            found[name]["GB"] = max(found[name]["GB"], last / 1000)
    return found


def longest_chain(uses, seconds):
    """The crates of the longest chain of proofs, each on the one before it, and its seconds."""
    best = {}

    def way(name):
        if name not in best:
            under = max((way(it) for it in uses[name] if it in uses), key=lambda it: it[1], default=([], 0))
            best[name] = [*under[0], name], under[1] + seconds.get(name, 0)
        return best[name]

    return max((way(it) for it in uses), key=lambda it: it[1], default=([], 0))


def machine():
    """The processors, and the memory in GB."""
    return len(os.sched_getaffinity(0)), int(re.search(r"MemTotal:\s+(\d+)", text_of("/proc/meminfo"))[1]) / 1e6


def aims(rows, uses):
    """The lines of the aims: what is to hold, and what was measured."""
    processors, memory = machine()
    proofs = {name: it["proof"] for name, it in of_crates(rows).items()}
    needed = {"warehouse", *edit_rounds.below(uses, "warehouse")} if "warehouse" in uses else set()
    work, chain = sum(proofs.get(it, 0) for it in needed), longest_chain({it: uses[it] for it in needed}, proofs)[1]
    long = sorted((it for it in proofs if proofs[it] > LONG), key=proofs.get, reverse=True)
    clock = sum(seconds for kind, _, seconds, _ in rows if kind == "step") / 60
    yield f"| Aim | Measured, on {processors} processors with {memory:.0f} GB |\n|---|---|"
    yield f"| `./test` from nothing in 50 minutes on four processors, in 100 on two | {clock:.0f} min |"
    yield (f"| the program's proofs in 25 minutes on four processors | no less than {max(work / 4, chain) / 60:.0f} min: "
           f"{work:.0f} s of work, of which the longest chain is {chain:.0f} |")
    yield f"| the longest chain of proofs below 2000 s | {longest_chain(uses, proofs)[1]:.0f} s |"
    yield f"| two proofs above {LONG} s, no more | {len(long)}{': ' if long else ''}{', '.join(f'`{it}`' for it in long)} |"


def tables(rows, uses):
    """The lines of the tables."""
    crates = of_crates(rows)
    total = lambda name: sum(crates[name][kind] for kind in KINDS)
    names = sorted(crates, key=total, reverse=True)
    sums = lambda some: [sum(crates[it][kind] for it in some) for kind in KINDS] + [max((crates[it]["GB"] for it in some), default=0)]
    line = lambda name, values: f"| {name} | " + " | ".join([*(f"{it:.0f}" for it in values[:-1]), f"{values[-1]:.1f}"]) + " |"
    yield "| Crate | Proof, s | Tests, s | Edits, s | Most memory of one check, GB |\n|---|---|---|---|---|"
    for name in names[:SHOWN]:
        yield line(f"`{name}`", [*crates[name].values()])
    if names[SHOWN:]:
        yield line(f"{len(names) - SHOWN} others", sums(names[SHOWN:]))
    yield line("all", sums(names))
    chain, seconds = longest_chain(uses, {it: crates[it]["proof"] for it in crates})
    yield f"\nThe longest chain of proofs, {seconds:.0f} s: {', '.join(f'`{it}`' for it in chain)}.\n"
    yield "| Step | By the clock | Of processors |\n|---|---|---|"
    for kind, name, taken, last in rows:
        if kind == "step":
            yield f"| `{name}` | {taken / 60:.1f} min | |"
    for kind, name, taken, last in rows:
        if kind == "script":
            yield f"| `{name}` | {taken:.0f} s | {last:.0f} s |"
    beside = sum(taken for kind, name, taken, _ in rows if (kind, name) == ("step", "scripts"))
    yield f"| all scripts, side by side | {beside:.0f} s | {sum(last for kind, _, _, last in rows if kind == 'script'):.0f} s |\n"
    yield from aims(rows, uses)


def main():
    words = sys.argv[1:]
    if words in (["--help"], ["-h"]):
        print(__doc__)
        return
    if words[:1] == ["run"] and len(words) > 2:
        sys.exit(run(words[1], words[2:]))
    if words[:1] == ["table"] and len(words) == 2:
        print("\n".join(tables(read(words[1]), edit_rounds.uses_of(text_of(f"{ROOT}/crates.txt")))))
        return
    sys.exit(__doc__)


if __name__ == "__main__":
    main()
