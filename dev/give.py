#!/usr/bin/env python3
"""Gives a checkout the libraries that runs of `rt ci` on this machine kept of the same sources, so that `rt check` in a crate
begins at once.

    dev/give.py [FOLDER]     the checkout, else this one

A crate whose sources, or whose libraries below, nobody has proved here stays as it is. The last line tells how many were given.
"""
import importlib.machinery
import importlib.util
import os
import shutil
import sys

sys.dont_write_bytecode = True


def toolchain():
    """The command `rt`, as a module."""
    loader = importlib.machinery.SourceFileLoader("rt", shutil.which("rt"))
    module = importlib.util.module_from_spec(importlib.util.spec_from_loader("rt", loader))
    loader.exec_module(module)
    return module


def main():
    root = os.path.realpath(sys.argv[1] if len(sys.argv) > 1 else os.path.join(os.path.dirname(os.path.realpath(__file__)), ".."))
    os.chdir(root)
    rt = toolchain()
    rt.Crate.allowed = rt.handles_of(root)
    crates = rt.crates_of(root)
    kept = rt.Kept(crates)
    given, lacking = set(), []
    for crate in crates:
        if crate.is_program or any(it.name not in given for it in crate.below()):
            lacking.append(crate.name)
            continue
        stamp = crate.stamp()
        place = f"{crate.folder}/out/rlib/stamp"
        key = kept.key(crate)
        is_here = rt.rtlib.text_of(place) == stamp
        if not is_here:
            # (beside files of an older library what is given counts as damaged, and the entry is dropped)
            shutil.rmtree(os.path.dirname(place), ignore_errors=True)
        if is_here or kept.give(crate, False, key):
            kept.is_built(crate)
            given.add(crate.name)
            os.makedirs(os.path.dirname(place), exist_ok=True)
            with open(place, "w", encoding="utf-8") as it:
                it.write(stamp)
        else:
            lacking.append(crate.name)
    if lacking:
        print("not given: " + " ".join(lacking))
    print(f"{len(given)} given")


main()
