"""Maps and points: one reader of each.

They take what the program takes, and a little more: `warehouse check` judges an instance, as names of more than 16 bytes.
"""
from __future__ import annotations

from dataclasses import dataclass, field, replace

from .lines import Fault, Section, number_of, sections_of, words_of

Cell = tuple[int, int]
"""x, the column from the left, and y, the row from the top, both from 0."""

MOST_AGENTS, MOST_POINTS, MOST_SIDE, MOST_TASKS = 256, 4096, 4096, 1_000_000
PASSABLE, BLOCKED = '.GS', '@OTW'
RULE = 'rule nofollow'


@dataclass(frozen=True)
class Point:
    """A named cell: a station, where tasks may stop, or a parking."""
    kind: str    # station or parking
    name: str
    cell: Cell


@dataclass
class Instance:
    """A map with its points."""
    rows: list[str]
    points: list[Point]
    starts: list[int]    # of each agent, the number of its point
    nofollow: bool
    text: bytes          # the sections map and points with their separators, as the program wants them first
    by_name: dict[str, int] = field(default_factory=dict)

    @property
    def width(self) -> int:
        return len(self.rows[0])

    @property
    def height(self) -> int:
        return len(self.rows)

    def is_passable(self, cell: Cell) -> bool:
        x, y = cell
        return 0 <= x < self.width and 0 <= y < self.height and self.rows[y][x] in PASSABLE

    def cell_of(self, name: str) -> Cell:
        """The cell of the point of that name."""
        return self.points[self.by_name[name]].cell

    def is_station(self, name: str) -> bool:
        """Whether a task may stop there."""
        point = self.by_name.get(name)
        return point is not None and self.points[point].kind == 'station'

    def with_nofollow(self) -> Instance:
        """The same with `rule nofollow`, which vehicles that are late need."""
        if self.nofollow:
            return self
        return replace(self, nofollow=True, text=self.text[:-len(b'%%\n')] + f'{RULE}\n%%\n'.encode())


def site_text(sections: list[Section]) -> bytes:
    """The sections map and points, each with a line `%%` behind it, as the program wants them before script or log."""
    return ''.join(section.text() + '%%\n' for section in sections[:2]).encode('latin-1')


def read_instance(name: str, data: bytes) -> Instance:
    """Map and points of an instance; what stands behind a second `%%` is not looked at. Raises Fault."""
    sections = sections_of(data)
    if len(sections) < 2:
        raise Fault('no line `%%` stands between a map and points', name, len(sections[0].lines))
    rows = read_map(name, sections[0].lines)
    points, starts, nofollow = read_points(name, rows, sections[1])
    return Instance(rows, points, starts, nofollow, site_text(sections), {point.name: i for i, point in enumerate(points)})


def read_map(name: str, lines: list[str]) -> list[str]:
    """The rows of a map, from the north, all of one length. Raises Fault."""
    height, width = read_sides(name, lines)
    if len(lines) < 4 + height:
        raise Fault('a row of the map is missing', name, len(lines) + 1)
    rows = lines[4:4 + height]
    for number, row in enumerate(rows, 5):
        if len(row) != width:
            raise Fault(f'the row has {len(row)} cells, the map is {width} wide', name, number)
        if row.strip(PASSABLE + BLOCKED):
            raise Fault(f'cells are {" ".join(PASSABLE)} (passable) and {" ".join(BLOCKED)} (blocked)', name, number)
    for number, line in enumerate(lines[4 + height:], 5 + height):
        if words_of(line):
            raise Fault('the map has a further row', name, number)
    return rows


def read_sides(name: str, lines: list[str]) -> tuple[int, int]:
    """Height and width, by a map's first four lines."""
    sides: dict[str, int] = {}
    for i, wanted in enumerate((('type',), ('height', 'width'), ('height', 'width'), ('map',))):
        words = words_of(lines[i]) if i < len(lines) else []
        if not words or words[0] not in wanted or len(words) != (1 if i == 3 else 2):
            raise Fault(f'a map has `{"` or `".join(wanted)}` here', name, i + 1)
        if i in (1, 2):
            value = number_of(words[1], MOST_SIDE)
            if not value or words[0] in sides:
                raise Fault(f'height and width stand once each, from 1 to {MOST_SIDE}', name, i + 1)
            sides[words[0]] = value
    return sides['height'], sides['width']


def read_points(name: str, rows: list[str], section: Section) -> tuple[list[Point], list[int], bool]:
    """The points, of each agent the number of its start, and whether `rule nofollow` stands there. Raises Fault."""
    points: list[Point] = []
    numbers: dict[str, int] = {}
    starts: list[int] = []
    nofollow = False
    for number, line in enumerate(section.lines, section.first):
        match words_of(line):
            case []:
                pass
            case [word, *_] if word.startswith('#'):
                pass
            case ['rule', 'nofollow']:
                nofollow = True
            case ['agent', start] if start in numbers:
                starts.append(numbers[start])
            case ['station' | 'parking' as kind, point, x, y]:
                if point in numbers:
                    raise Fault(f'a point {point} stands earlier', name, number)
                numbers[point] = len(points)
                points.append(Point(kind, point, read_cell(name, number, rows, point, x, y)))
            case _:
                raise Fault(f'`{line[:60]}` is no point, rule, or agent at a point named before', name, number)
    if not 1 <= len(starts) <= MOST_AGENTS or len(points) > MOST_POINTS:
        raise Fault(f'{len(starts)} agents and {len(points)} points; 1 to {MOST_AGENTS} and at most {MOST_POINTS} can be', name)
    return points, starts, nofollow


def read_cell(name: str, line: int, rows: list[str], point: str, left: str, top: str) -> Cell:
    """The passable cell that a point's two words name."""
    x, y = number_of(left), number_of(top)
    if x is None or y is None or y >= len(rows) or x >= len(rows[0]) or rows[y][x] not in PASSABLE:
        raise Fault(f'{point} stands on no passable cell of the map', name, line)
    return x, y
