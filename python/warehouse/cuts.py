"""Which points of an instance cut others, for `explain`: no subcommand of its own.

Two points are joined where a walk leads from one to the other and meets no third point. A point *cuts* where two others that
are not joined would be, if its cell were one without a point. So where two points of a map in one piece are not joined, some point cuts.
"""
from __future__ import annotations

from .texts import PASSABLE, Cell, Fault, Instance, read_instance

MARGIN = 2            # cells drawn around the points that cut
MOST_DRAWN = (150, 60)


def neighbours(cell: Cell) -> tuple[Cell, ...]:
    x, y = cell
    return (x + 1, y), (x - 1, y), (x, y + 1), (x, y - 1)


class Floor:
    """The regions of cells without a point, and what is beside each point: regions, and other points."""

    def __init__(self, site: Instance):
        self.site = site
        self.at = {point.cell: number for number, point in enumerate(site.points)}
        region, count = self.regions()
        around = [[cell for cell in neighbours(point.cell) if cell[0] >= 0 and cell[1] >= 0] for point in site.points]
        self.regions_of = [frozenset(region[cell] for cell in cells if cell in region) for cells in around]
        self.points_of = [frozenset(self.at[cell] for cell in cells if cell in self.at) for cells in around]
        self.inside: list[list[int]] = [[] for _ in range(count)]    # of each region, the points beside it
        for number, regions in enumerate(self.regions_of):
            for one in regions:
                self.inside[one].append(number)

    def regions(self) -> tuple[dict[Cell, int], int]:
        """The region of each passable cell without a point, and how many regions there are."""
        region: dict[Cell, int] = {}
        count = 0
        for point in self.site.points:
            for first in neighbours(point.cell):
                if first in region or not self.is_plain(first):
                    continue
                region[first], waiting = count, [first]
                while waiting:
                    for cell in neighbours(waiting.pop()):
                        if cell not in region and self.is_plain(cell):
                            region[cell] = count
                            waiting.append(cell)
                count += 1
        return region, count

    def is_plain(self, cell: Cell) -> bool:
        return cell[0] >= 0 and cell[1] >= 0 and cell not in self.at and self.site.is_passable(cell)

    def joined(self, one: int, other: int) -> bool:
        return other in self.points_of[one] or not self.regions_of[one].isdisjoint(self.regions_of[other])

    def cut_pair(self, among: list[int]) -> tuple[int, int] | None:
        """Two of these points that are not joined."""
        alike: dict[frozenset[int], list[int]] = {}
        for number in among:
            alike.setdefault(self.regions_of[number], []).append(number)
        kinds = list(alike)
        for i, kind in enumerate(kinds):
            for other in kinds[i:]:
                if kind.isdisjoint(other):
                    # a point has four neighbours at most, so six of each kind are enough
                    for a in alike[kind][:6]:
                        for b in alike[other][:6]:
                            if a != b and not self.joined(a, b):
                                return min(a, b), max(a, b)
        return None

    def cuts(self, number: int) -> tuple[int, int] | None:
        """Two points that this one cuts."""
        beside = set(self.points_of[number])
        for region in self.regions_of[number]:
            beside |= set(self.inside[region])
        return self.cut_pair(sorted(beside - {number}))


def cutting(site: Instance) -> list[tuple[int, tuple[int, int]]]:
    """Each point that cuts, with two that it cuts."""
    floor = Floor(site)
    found = ((number, floor.cuts(number)) for number in range(len(site.points)))
    return [(number, pair) for number, pair in found if pair]


def drawing(site: Instance, marked: set[int]) -> list[str]:
    """The floor around the marked points: X a marked point, o another one."""
    cells = [site.points[number].cell for number in marked]
    left, top = (max(min(cell[axis] for cell in cells) - MARGIN, 0) for axis in (0, 1))
    right = min(max(x for x, _ in cells) + MARGIN + 1, site.width, left + MOST_DRAWN[0])
    low = min(max(y for _, y in cells) + MARGIN + 1, site.height, top + MOST_DRAWN[1])
    rows = [['.' if letter in PASSABLE else '@' for letter in row[left:right]] for row in site.rows[top:low]]
    for number, point in enumerate(site.points):
        x, y = point.cell
        if left <= x < right and top <= y < low:
            rows[y - top][x - left] = 'X' if number in marked else 'o'
    return [f'Columns {left} to {right - 1}, rows {top} to {low - 1}:'] + ['    ' + ''.join(row) for row in rows]


def explained(name: str, text: bytes) -> list[str]:
    """All points of an instance that cut others, and where they are."""
    try:
        site = read_instance(name, text)
    except Fault as fault:
        return [str(fault)]
    found = cutting(site)
    if not found:
        return ['No point of this instance cuts others: either all are joined, or the map is in pieces.']
    names = [point.name for point in site.points]
    lines = [f'{names[number]} (x = {site.points[number].cell[0]}, y = {site.points[number].cell[1]}) cuts {names[a]} from {names[b]}.'
             for number, (a, b) in found]
    return ['Points that cut others (X below; o are the others):', *lines, *drawing(site, {number for number, _ in found}),
            'Move them off the only way, or widen it (docs/MODELING.md).']
