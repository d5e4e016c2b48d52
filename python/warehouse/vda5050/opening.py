"""The instance of a run that begins where vehicles stand."""
from __future__ import annotations

from ..texts import Cell, Instance, read_instance
from .book import Opening


def instance_of(base: Instance, opening: Opening) -> Instance:
    """The base's floor without the blocked cells, each agent at its cell: at a point of it, or at a station that is made for it, as
    where it carries something. The first run is the base itself."""
    if opening.number == 1:
        return base
    blocked = set(opening.blocked)
    carriers = {opening.cells[agent] for agent in opening.carried.values() if agent not in opening.out}
    rows = [''.join('@' if (x, y) in blocked else letter for x, letter in enumerate(row)) for y, row in enumerate(base.rows)]
    points = [('station' if point.cell in carriers else point.kind, point.name, point.cell) for point in base.points if point.cell not in blocked]
    names: dict[Cell, str] = {cell: name for _, name, cell in points}
    for agent, cell in enumerate(opening.cells):
        if cell not in names:
            names[cell] = made_name(base, agent)
            points.append(('station', names[cell], cell))
    lines = ['type octile', f'height {base.height}', f'width {base.width}', 'map', *rows, '%%', 'rule nofollow']
    lines += [f'{kind} {name} {x} {y}' for kind, name, (x, y) in points] + [f'agent {names[cell]}' for cell in opening.cells] + ['%%', '']
    return read_instance(f'the opening of run {opening.number}', '\n'.join(lines).encode('latin-1'))


def made_name(base: Instance, agent: int) -> str:
    """A name that no point of the base has."""
    name = f'at-{agent}'
    while name in base.by_name:
        name = '-' + name
    return name
