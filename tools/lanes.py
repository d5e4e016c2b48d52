#!/usr/bin/env python3
"""Prints how many checks may run side by side, for RT_JOBS; standard error says from what.

RT_JOBS stands as it is where it is set. Else it is the processors, but no more than the free memory holds checks of 3.5 GB, and
at least 1. With RT_JOBS the toolchain asks for no memory of its own: its estimates are twice what checks take, and leave processors idle.
"""
import os
import re
import sys

EACH = 3_500_000_000  # bytes that a check may take
GROUP = "/sys/fs/cgroup"


def number_in(path, pattern):
    """The number that the pattern finds in a file, or None."""
    try:
        with open(path, encoding="utf-8") as it:
            found = re.search(pattern, it.read())
    except OSError:
        return None
    return int(found[1]) if found else None


def processors(group=GROUP):
    """The processors that this process may use, fewer by the quota of its control group."""
    count = len(os.sched_getaffinity(0))
    quota, period = number_in(f"{group}/cpu.max", r"^(\d+)"), number_in(f"{group}/cpu.max", r" (\d+)")
    return min(count, max(quota // period, 1)) if quota and period else count


def free_memory(group=GROUP, system="/proc/meminfo"):
    """The free bytes, no more than the control group's limit leaves."""
    free = 1024 * (number_in(system, r"MemAvailable:\s+(\d+)") or 0)
    limit, held = number_in(f"{group}/memory.max", r"^(\d+)"), number_in(f"{group}/memory.stat", r"(?m)^anon (\d+)")
    return min(free, limit - held) if limit and held is not None else free


def given():
    """The number in RT_JOBS, or 0."""
    text = os.environ.get("RT_JOBS", "")
    return int(text) if text.isdigit() else 0


def lanes():
    """How many checks may run side by side."""
    return given() or max(1, min(processors(), free_memory() // EACH))


def main():
    why = "RT_JOBS is set" if given() else "one a processor, where memory lasts"
    print(f"checks side by side: {lanes()} ({why}; {processors()} processors, {free_memory() / 1e9:.1f} GB of memory free)", file=sys.stderr)
    print(lanes())


if __name__ == "__main__":
    main()
