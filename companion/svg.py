"""Small pictures as SVG: panels with axes, lines, dots and marks."""
from __future__ import annotations

from dataclasses import dataclass, field
from math import ceil, floor, log10

WIDE, HIGH, LEFT, RIGHT, TOP, BOTTOM = 860, 250, 86, 150, 34, 40
COLOURS = ["#1f5fa8", "#c2571a", "#2d7d46", "#7a4b9e"]


@dataclass
class Panel:
    """A panel: lines and dots as lists of points, marks as heights with a label."""
    title: str
    across: str
    up: str
    lines: list = field(default_factory=list)
    dots: list = field(default_factory=list)
    marks: list = field(default_factory=list)
    log_x: bool = False

    def all_points(self):
        return [point for _, points in [*self.lines, *self.dots] for point in points]


def ticks(low: float, high: float, count: int = 5) -> list:
    """Returns round numbers between two."""
    if high <= low:
        return [low]
    step = 10 ** floor(log10((high - low) / count))
    step *= next(k for k in (1, 2, 5, 10) if (high - low) / (step * k) <= count)
    return [k * step for k in range(ceil(low / step - 1e-9), floor(high / step + 1e-9) + 1)]


def label(value: float) -> str:
    return f"{value:.4g}"


def escaped(text: str) -> str:
    return text.replace("&", "&amp;").replace("<", "&lt;").replace(">", "&gt;")


def panel_text(panel: Panel, top: int) -> list:
    """Returns the SVG of a panel that begins at a height."""
    points = panel.all_points()
    xs, ys = [x for x, _ in points] or [0], [y for _, y in points] + [y for y, _ in panel.marks] or [0]
    low_x, high_x, low_y, high_y = min(xs), max(xs), min(ys), max(ys)
    high_x, room = (high_x if high_x > low_x else low_x + 1), (high_y - low_y or abs(high_y) or 1) * 0.06
    low_y, high_y = low_y - room, high_y + room
    wide, high = WIDE - LEFT - RIGHT, HIGH - TOP - BOTTOM

    def x_of(x):
        part = ((log10(x) - log10(low_x)) / (log10(high_x) - log10(low_x)) if panel.log_x
                else (x - low_x) / (high_x - low_x))
        return LEFT + part * wide

    def y_of(y):
        return top + TOP + (high_y - y) / (high_y - low_y) * high

    out = [f'<text x="{LEFT}" y="{top + 20}" font-weight="bold">{escaped(panel.title)}</text>',
           f'<rect x="{LEFT}" y="{top + TOP}" width="{wide}" height="{high}" fill="none" stroke="#888"/>',
           f'<text x="{LEFT + wide / 2}" y="{top + HIGH - 6}" text-anchor="middle">{escaped(panel.across)}</text>',
           f'<text x="14" y="{top + TOP + high / 2}" text-anchor="middle" transform="rotate(-90 14 '
           f'{top + TOP + high / 2})">{escaped(panel.up)}</text>']
    for y in ticks(low_y, high_y):
        out.append(f'<line x1="{LEFT}" x2="{LEFT + wide}" y1="{y_of(y):.1f}" y2="{y_of(y):.1f}" stroke="#e4e4e4"/>'
                   f'<text x="{LEFT - 6}" y="{y_of(y) + 4:.1f}" text-anchor="end">{label(y)}</text>')
    places = [10 ** k for k in range(ceil(log10(low_x) - 1e-9),
                                     floor(log10(high_x) + 1e-9) + 1)] if panel.log_x else ticks(low_x, high_x, 8)
    for x in places:
        out.append(f'<text x="{x_of(x):.1f}" y="{top + TOP + high + 16}" text-anchor="middle">{label(x)}</text>')
    for k, (name, points) in enumerate(panel.lines):
        path = " ".join(f"{x_of(x):.1f},{y_of(y):.1f}" for x, y in points)
        out.append(f'<polyline points="{path}" fill="none" stroke="{COLOURS[k % 4]}" '
                   f'stroke-width="{2.2 if k == 0 else 1.1}"/>')
    for k, (name, points) in enumerate(panel.dots):
        colour = COLOURS[(k + len(panel.lines)) % 4]
        out += [f'<circle cx="{x_of(x):.1f}" cy="{y_of(y):.1f}" r="1.3" fill="{colour}"/>' for x, y in points]
    for y, name in panel.marks:
        out.append(f'<line x1="{LEFT}" x2="{LEFT + wide}" y1="{y_of(y):.1f}" y2="{y_of(y):.1f}" stroke="#b00020" '
                   'stroke-width="1.4"/>'
                   f'<text x="{LEFT + wide + 6}" y="{y_of(y) + 4:.1f}" fill="#b00020">{escaped(name)}</text>')
    for k, (name, _) in enumerate([*panel.lines, *panel.dots]):
        out.append(f'<text x="{LEFT + wide + 6}" y="{top + TOP + high / 2 - 8 + 16 * k}" '
                   f'fill="{COLOURS[k % 4]}">{escaped(name)}</text>')
    return out


def picture(panels: list) -> str:
    """Returns panels one below the other as an SVG."""
    tall = HIGH * len(panels)
    body = [line for k, panel in enumerate(panels) for line in panel_text(panel, HIGH * k)]
    return (f'<svg xmlns="http://www.w3.org/2000/svg" width="{WIDE}" height="{tall}" viewBox="0 0 {WIDE} {tall}" '
            'font-family="sans-serif" font-size="12">\n'
            f'<rect width="{WIDE}" height="{tall}" fill="white"/>\n' + "\n".join(body) + "\n</svg>\n")
