"""Judges what simulated vehicles did, by their traces alone (`vda5050-vehicle` writes them): no plan, no log, no message is looked at."""
from __future__ import annotations

import collections
import glob
import os

Stay = tuple[float, float, str]    # from, to, which vehicle


class Judge:
    """Whether two vehicles ever were in one cell, and each load was picked up and put down once. `wrong` says where not."""

    def __init__(self, folder: str):
        self.stays = 0                    # cells that were left again
        self.wrong: list[str] = []
        self.loads: collections.Counter[tuple[str, str]] = collections.Counter()
        cells: dict[str, list[Stay]] = collections.defaultdict(list)
        for path in sorted(glob.glob(os.path.join(glob.escape(folder), '*.trace'))):
            self.read(path, cells)
        for cell, stays in cells.items():
            self.judge(cell, sorted(stays))
        self.wrong += [f'{what} of {load} {count} times' for (what, load), count in self.loads.items() if count > 1]

    def judge(self, cell: str, stays: list[Stay]) -> None:
        until, who = float('-inf'), ''
        for since, to, vehicle in stays:
            if since < until and vehicle != who:
                self.wrong.append(f'{cell}: {who} until {until:.3f}, {vehicle} from {since:.3f}')
            if to > until:
                until, who = to, vehicle

    def read(self, path: str, cells: dict[str, list[Stay]]) -> None:
        vehicle = os.path.basename(path)[:-6]
        inside: dict[str, float] = {}
        with open(path) as trace:
            for line in trace:
                second, what, of = line.split()
                if what in ('pick', 'drop'):
                    self.loads[what, of] += 1
                elif what == 'in':
                    inside.setdefault(of, float(second))
                elif what == 'here':
                    # a kill came between its arrival and that line, and it told nobody before this one
                    for cell in set(inside) - set(of.split(',')):
                        cells[cell].append((inside.pop(cell), float(second), vehicle))
                else:
                    cells[of].append((inside.pop(of), float(second), vehicle))
                    self.stays += 1
        for cell, since in inside.items():
            cells[cell].append((since, float('inf'), vehicle))

    def dropped(self) -> set[str]:
        return {load for what, load in self.loads if what == 'drop'}
