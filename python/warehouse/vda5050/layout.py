"""The floor in metres, names of nodes, and whether a vehicle fits into a cell.

A node is a cell, `X_Y`. VDA 5050 has metres and y upwards; a map has rows from the top, so the cell 0,0 of a map of 40 rows lies at
y = 39.5 cells.
"""
from __future__ import annotations

import math
import re
from dataclasses import dataclass

from ..texts import Cell, number_of
from .schema import Json

NEEDED = ('pick', 'drop')
CALLS = ('cancelOrder', 'startPause', 'stopPause', 'factsheetRequest', 'stateRequest')


@dataclass(frozen=True)
class Layout:
    """Rows of a map, the side of a cell in metres, and how far a vehicle may be off a node's middle."""
    height: int
    side: float = 1.0
    deviation: float = 0.05
    name: str = 'floor'

    def metres(self, cell: Cell) -> tuple[float, float]:
        """The middle of a cell."""
        return round((cell[0] + 0.5) * self.side, 3), round((self.height - cell[1] - 0.5) * self.side, 3)

    def position(self, cell: Cell) -> Json:
        x, y = self.metres(cell)
        return {'x': x, 'y': y, 'mapId': self.name, 'allowedDeviationXY': self.deviation}

    def off(self, cell: Cell, position: Json) -> float:
        """How many metres a position is off the middle of a cell."""
        x, y = self.metres(cell)
        return math.hypot(position['x'] - x, position['y'] - y)

    @property
    def tolerance(self) -> float:
        """Metres from a node's middle within which a vehicle stands at the node, and not on its way to another."""
        return max(self.deviation, self.side / 4)

    def misfits(self, sheet: Json) -> str:
        """Why a vehicle of this factsheet cannot be told into cells, with numbers; '' where it can.

        It occupies a cell alone only where its length, its width and, if it turns, its diagonal lie within the cell, with the deviation
        on both sides.
        """
        sizes = sheet['physicalParameters']
        length, width = sizes['length'], sizes['width']
        turns = sheet['typeSpecification']['agvKinematic'] != 'OMNI'
        needs = (math.hypot(length, width) if turns else max(length, width)) + 2 * self.deviation
        if needs > self.side:
            how = 'turning on the spot it' if turns else 'it'
            return (f'its factsheet says {length:g} m long and {width:g} m wide: {how} takes {needs:.2f} m, with {self.deviation:g} m of '
                    f'deviation on each side, and a cell has {self.side:g} m')
        known = {action['actionType'] for action in sheet['protocolFeatures']['agvActions']}
        missing = [kind for kind in NEEDED if kind not in known]
        return f'its factsheet has no action {" or ".join(missing)}' if missing else ''


def node_name(cell: Cell) -> str:
    return f'{cell[0]}_{cell[1]}'


def cell_of(node: str) -> Cell | None:
    """The cell of a node's name; None where that is no cell."""
    found = re.fullmatch('([0-9]{1,4})_([0-9]{1,4})', node)
    return (number_of(found[1]) or 0, number_of(found[2]) or 0) if found else None


def longest_order(sheet: Json | None) -> int | None:
    """How many nodes an order may have by the factsheet; None where it does not say."""
    limits = sheet['protocolLimits']['maxArrayLens'] if sheet else {}
    most = limits.get('order.nodes')
    return most if isinstance(most, int) and most > 0 else None
