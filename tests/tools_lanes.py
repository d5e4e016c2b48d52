#!/usr/bin/env python3
"""tools/lanes.py: how many checks run side by side, by processors, memory, a control group's limits and RT_JOBS."""
import os
import subprocess
import sys
import tempfile

import counting

ROOT = os.path.dirname(os.path.dirname(os.path.abspath(__file__)))
SCRATCH = tempfile.TemporaryDirectory()
sys.path.insert(0, f"{ROOT}/tools")
sys.dont_write_bytecode = True
import lanes as tool


def group(name, **files):
    """A control group's folder with these files."""
    folder = f"{SCRATCH.name}/{name}"
    os.makedirs(folder, exist_ok=True)
    for file, text in files.items():
        with open(f"{folder}/{file.replace('_', '.')}", "w", encoding="utf-8") as it:
            it.write(text)
    return folder


def printed(jobs):
    env = {key: value for key, value in os.environ.items() if key != "RT_JOBS"}
    env.update({"RT_JOBS": jobs} if jobs else {})
    return subprocess.run([f"{ROOT}/tools/lanes.py"], capture_output=True, text=True, check=True, env=env)


def test_what_is_set_stands():
    ran = printed("7")
    assert ran.stdout == "7\n" and "RT_JOBS is set" in ran.stderr, ran


def test_no_number_counts_as_not_set():
    plain = printed("").stdout
    assert 1 <= int(plain) <= len(os.sched_getaffinity(0)) and printed("0").stdout == plain == printed("many").stdout


def test_processors_and_memory_are_told():
    said = printed("").stderr
    assert f"{tool.processors()} processors" in said and "GB of memory free" in said, said


def test_quota_of_processors():
    count = len(os.sched_getaffinity(0))
    assert tool.processors(group("none")) == count
    assert tool.processors(group("all", cpu_max="max 100000\n")) == count
    assert tool.processors(group("half", cpu_max="50000 100000\n")) == 1
    assert tool.processors(group("many", cpu_max="100000000 100000\n")) == count


def test_memory_that_is_free():
    system = group("system", meminfo="MemTotal: 9000 kB\nMemAvailable:    8000 kB\n") + "/meminfo"
    assert tool.free_memory(group("none"), system) == 8192000
    assert tool.free_memory(group("limited", memory_max="5000000\n", memory_stat="file 7\nanon 2000000\n"), system) == 3000000
    assert tool.free_memory(group("large", memory_max="max\n", memory_stat="anon 2000000\n"), system) == 8192000


def test_as_many_as_memory_holds():
    kept = tool.processors, tool.free_memory, os.environ.pop("RT_JOBS", None)
    try:
        for processors, free, wanted in ((4, 14.1e9, 4), (4, 13.9e9, 3), (2, 30e9, 2), (4, 1e9, 1)):
            tool.processors, tool.free_memory = lambda it=processors: it, lambda it=free: int(it)
            assert tool.lanes() == wanted, (processors, free)
    finally:
        tool.processors, tool.free_memory = kept[:2]
        os.environ.update({"RT_JOBS": kept[2]} if kept[2] else {})


if __name__ == "__main__":
    counting.main(globals(), (), SCRATCH)
