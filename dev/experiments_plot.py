"""Line plots as SVG, light and dark as the reader's system is, for dev/experiments.py."""
from __future__ import annotations

import math
from dataclasses import dataclass
from html import escape

WIDTH, HEIGHT = 640, 360
LEFT, TOP, BOTTOM = 64, 40, 52
# Colours that can be told apart on white and on near black, also by most who see fewer; marks differ too.
LIGHT = ('#0072b2', '#d55e00', '#007a5a', '#a0527a', '#6b5b00', '#444444')
DARK = ('#56b4e9', '#f0883e', '#2bc498', '#e49ac0', '#e0c94a', '#cccccc')
MARKS = ('<circle r="3.5"/>', '<rect x="-3.2" y="-3.2" width="6.4" height="6.4"/>', '<path d="M0-4.4 4.2 3.2H-4.2Z"/>',
         '<path d="M0-4.6 4.6 0 0 4.6-4.6 0Z"/>', '<path d="M0 4.4 4.2-3.2H-4.2Z"/>', '<rect x="-4.2" y="-1.6" width="8.4" height="3.2"/>')


@dataclass
class Plot:
    """Lines by name; the y axis begins at 0."""
    title: str
    x_label: str
    y_label: str
    lines: dict[str, list[tuple[float, float]]]
    log_x: bool = False

    @property
    def right(self) -> float:
        """Where the axes end, and the names of the lines begin."""
        return WIDTH - 44 - 6.6 * max(len(name) for name in self.lines)


def steps(most: float) -> list[float]:
    """Round numbers from 0 to the first that is no less than the most: 4 to 6 of them, where the most is above 0."""
    if most <= 0:
        return [0, 1]
    size = 10 ** math.floor(math.log10(most / 4))
    step = next(factor * size for factor in (1, 2, 2.5, 5, 10) if factor * size * 5 >= most)
    return [i * step for i in range(math.ceil(most / step - 1e-9) + 1)]


def style() -> str:
    """Classes for text, grid and lines, in both schemes."""
    def colours(ink: str, faint: str, paper: str, lines: tuple[str, ...]) -> str:
        return (f'.paper{{fill:{paper}}}text{{fill:{ink}}}.grid{{stroke:{faint}}}'
                + ''.join(f'.l{i}{{stroke:{colour};fill:none}}.m{i}{{fill:{colour}}}' for i, colour in enumerate(lines)))
    return ('<style>text{font:12px system-ui,sans-serif}.title{font-size:14px;font-weight:600}' + colours('#222', '#ddd', '#fff', LIGHT)
            + '@media (prefers-color-scheme:dark){' + colours('#ddd', '#444', '#16181c', DARK) + '}</style>')


def text(x: float, y: float, words: str, anchor: str = 'start', more: str = '') -> str:
    return f'<text x="{x:.1f}" y="{y:.1f}" text-anchor="{anchor}"{more}>{escape(words)}</text>'


class Scale:
    """Where a value of the plot lies on the picture."""

    def __init__(self, plot: Plot):
        points = [point for line in plot.lines.values() for point in line]
        self.at = math.log10 if plot.log_x else float
        self.xs = sorted({x for x, _ in points})
        self.ys = steps(max(y for _, y in points))
        self.right = plot.right
        self.low, self.high = self.at(self.xs[0]), self.at(self.xs[-1])

    def x(self, value: float) -> float:
        wide = (self.high - self.low) or 1
        return LEFT + 14 + (self.at(value) - self.low) / wide * (self.right - LEFT - 28)

    def y(self, value: float) -> float:
        return HEIGHT - BOTTOM - value / self.ys[-1] * (HEIGHT - TOP - BOTTOM)


def axes(plot: Plot, scale: Scale) -> list[str]:
    made = [text(LEFT, 22, plot.title, more=' class="title"')]
    for value in scale.ys:
        y = scale.y(value)
        made.append(f'<path class="grid" d="M{LEFT} {y:.1f}H{plot.right:.1f}"/>')
        made.append(text(LEFT - 8, y + 4, f'{value:g}', 'end'))
    for value in scale.xs:
        x = scale.x(value)
        made.append(f'<path class="grid" d="M{x:.1f} {HEIGHT - BOTTOM}v5"/>')
        made.append(text(x, HEIGHT - BOTTOM + 19, f'{value:g}', 'middle'))
    made.append(text((LEFT + plot.right) / 2, HEIGHT - 12, plot.x_label + (' (logarithmic)' if plot.log_x else ''), 'middle'))
    middle = (TOP + HEIGHT - BOTTOM) / 2
    made.append(text(16, middle, plot.y_label, 'middle', f' transform="rotate(-90 16 {middle:.1f})"'))
    return made


def line(number: int, name: str, points: list[tuple[float, float]], scale: Scale) -> list[str]:
    colour = number % len(LIGHT)
    places = [(scale.x(x), scale.y(y)) for x, y in points]
    path = 'L'.join(f'{x:.1f} {y:.1f}' for x, y in places)
    made = [f'<path class="l{colour}" stroke-width="2" d="M{path}"/>']
    legend = (scale.right + 16, TOP + 10 + 20 * number)
    made += [f'<g class="m{colour}" transform="translate({x:.1f} {y:.1f})">{MARKS[colour]}</g>' for x, y in [*places, legend]]
    return made + [text(legend[0] + 12, legend[1] + 4, name)]


def svg(plot: Plot) -> str:
    scale = Scale(plot)
    drawn = axes(plot, scale)
    for number, (name, points) in enumerate(plot.lines.items()):
        drawn += line(number, name, points, scale)
    label = f'{plot.title}, {plot.y_label}, by {plot.x_label}'
    return (f'<svg xmlns="http://www.w3.org/2000/svg" viewBox="0 0 {WIDTH} {HEIGHT}" width="{WIDTH}" height="{HEIGHT}" role="img" '
            f'aria-label="{escape(label, quote=True)}">{style()}<rect class="paper" width="{WIDTH}" height="{HEIGHT}" rx="6"/>\n'
            + '\n'.join(drawn) + '\n</svg>\n')


def write(path: str, plot: Plot) -> None:
    with open(path, 'w', encoding='utf-8') as file:
        file.write(svg(plot))
