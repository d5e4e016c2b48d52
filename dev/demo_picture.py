#!/usr/bin/env python3
"""Makes the README's picture: a demo that was kept, as an SVG that moves, by its vehicles' own traces.

    tools/py demo --keep FOLDER && dev/demo_picture.py FOLDER > docs/demo.svg

A vehicle is drawn in the cells of its trace at the seconds that stand there, four times as fast; a square on it is its load, from `pick` to `drop`,
and a frame is where that is brought. A ring is about one of which nothing is heard: it was killed, up to its line `here`.
"""
from __future__ import annotations

import csv
import os
import sys
from dataclasses import dataclass, field

ROOT = os.path.dirname(os.path.dirname(os.path.abspath(__file__)))
sys.path.insert(0, os.path.join(ROOT, 'python'))

from warehouse.figures.picture import CELL, body_of, frame, load, mark, middle    # noqa: E402
from warehouse.texts import Cell, read_file, read_instance    # noqa: E402

FASTER, HOLD = 4.0, 2.0    # the film's seconds are so many of the demo's; and it holds so long at its end


@dataclass
class Trace:
    """What a vehicle did: where it is from which second on, its loads, and when nothing was heard of it."""
    places: list[tuple[float, Cell]] = field(default_factory=list)
    loads: list[tuple[float, float, str]] = field(default_factory=list)
    gone: list[tuple[float, float]] = field(default_factory=list)


def cell_of(word: str) -> Cell:
    x, y = word.split('_')
    return int(x), int(y)


def read_trace(path: str) -> Trace:
    """It sets out for a cell at its line `in`, and is there when it has left the one before, at `out`."""
    trace, toward, before, picked = Trace(), (0, 0), 0.0, {}
    with open(path) as lines:
        for line in lines:
            second, what, of = float(line.split()[0]), *line.split()[1:]
            if what == 'pick':
                picked[of] = second
            elif what == 'drop':
                trace.loads.append((picked.pop(of), second, of))
            elif what == 'here':
                trace.gone.append((before, second))
                trace.places.append((second, trace.places[-1][1]))
            elif what == 'in':
                toward = cell_of(of)
                trace.places.append((second, trace.places[-1][1] if trace.places else toward))
            else:
                trace.places.append((second, toward))
            before = second
    trace.loads += [(second, before, of) for of, second in picked.items()]
    return trace


class Film:
    def __init__(self, traces: list[Trace]):
        self.first = min(second for trace in traces for second, _ in trace.places[1:])
        self.last = max(second for trace in traces for second in (trace.places[-1][0], *(end for _, end, _ in trace.loads)))
        self.length = (self.last - self.first) / FASTER + HOLD

    def at(self, second: float) -> str:
        return f'{max(0.0, second - self.first) / FASTER / self.length:.4f}'.rstrip('0').rstrip('.') or '0'

    def animate(self, head: str, values: list[str], keys: list[str]) -> str:
        return f'{head} values="{";".join(values)}" keyTimes="{";".join(keys)}" dur="{self.length:.1f}s" repeatCount="indefinite"/>'

    def shown(self, begin: float, end: float) -> str:
        return self.animate('<animate attributeName="opacity" calcMode="discrete"', ['0', '1', '0'], ['0', self.at(begin), self.at(end)])

    def moves(self, trace: Trace) -> tuple[str, str]:
        """Where it begins, and its way; of lines that tell one moment, and of places in one line between which it goes evenly, the last counts."""
        kept = [(self.at(second), cell) for second, cell in trace.places]
        kept = [one for one, after in zip(kept, [*kept[1:], ('', None)]) if one != after]
        kept = [kept[0], *(one for before, one, after in zip(kept, kept[1:], kept[2:]) if not before[1] == one[1] == after[1]), kept[-1]]
        places = ['%g,%g' % middle(cell) for _, cell in kept]
        head = '<animateTransform attributeName="transform" type="translate"'
        return places[0], self.animate(head, [places[0], *places, places[-1]], ['0', *(key for key, _ in kept), '1'])


def picture(folder: str) -> str:
    instance = read_instance('floor', read_file(os.path.join(folder, 'floor')))
    with open(os.path.join(folder, 'orders.csv'), newline='') as table:
        ends = {row['key']: instance.points[instance.by_name[row['stops'].split()[-1]]].cell for row in csv.DictReader(table)}
    traces = [read_trace(os.path.join(folder, f'v{agent}.trace')) for agent in range(len(instance.starts))]
    film, body = Film(traces), []
    for begin, end, key in (one for trace in traces for one in trace.loads):
        body.append(f'<g opacity="0">{mark("carried", *middle(ends[key]))}{film.shown(begin, end)}</g>')
    ring = f'<circle r="{CELL * .6:g}" fill="none" stroke="#d1242f" stroke-width="5" opacity="0">'
    for agent, trace in enumerate(traces):
        place, motion = film.moves(trace)
        more = ''.join(load(film.shown(begin, end), 0) for begin, end, _ in trace.loads)
        more += ''.join(f'{ring}{film.shown(begin, end)}</circle>' for begin, end in trace.gone)
        body.append(f'<g transform="translate({place})">{motion}{body_of(agent, more)}</g>')
    y = instance.height * CELL + 21
    below = [f'<text class="t" x="6" y="{y}" opacity="0">second {second}{film.shown(film.first + second, film.first + second + 1)}</text>'
             for second in range(int(film.last - film.first) + 1)]
    below.append(f'<g transform="translate(110,{y - 4}) scale(.4)">{mark("carried", 0, 0)}</g><text class="t" x="122" y="{y}">where a load is brought</text>')
    below.append(f'<circle cx="290" cy="{y - 4}" r="7" fill="none" stroke="#d1242f" stroke-width="3"/><text class="t" x="304" y="{y}">a vehicle that was '
                 'killed, until it is back</text>')
    return frame(instance, body, below, ())


if __name__ == '__main__':
    if len(sys.argv) != 2:
        sys.exit(__doc__)
    print(picture(sys.argv[1]))
