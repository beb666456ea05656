"""Plots in SVG, in light and in dark as the reader's screen asks for: lines over a scale, and rows of dots. No number of a table is known here.

A value is a number, or a median with the quartiles below and above it, which are drawn as a thin line.
"""

import math
from html import escape
from typing import NamedTuple

WIDTH, HEIGHT, LEFT, RIGHT, BOTTOM, EDGE, LETTER, DODGE = 540, 330, 80, 24, 46, 22, 6.3, 3
# Ink, what stands back, the lines at the back of a plot, and the ground: in light, and in dark.
COMMON = {"ink": ("#1f2328", "#e6edf3"), "back": ("#59636e", "#9aa4af"), "scale": ("#d8dee4", "#343b44"), "ground": ("#ffffff", "#14181d")}
COLOURS = (("#1f6fc4", "#6cb2ff"), ("#c4570a", "#f0964b"), ("#1a7f4b", "#4cc38a"), ("#8250df", "#b995ff"), ("#59636e", "#9aa4af"))


class Value(NamedTuple):
    """A median with its quartiles; all three are equal where one number is known. And how the median is written."""

    middle: float
    low: float
    high: float
    written: str


class Series(NamedTuple):
    """What one line or one kind of dot shows: points of a place on the axis below and a value."""

    name: str
    points: list


class Scale:
    """Where numbers stand between two ends, by their logarithm or straight; and the numbers that are written beside it."""

    def __init__(self, values: list, start: float, end: float, by_logarithm: bool):
        self.start, self.end, self.by_logarithm = start, end, by_logarithm
        low, high = min(values), max(values)
        if by_logarithm:
            self.low, self.high = math.floor(math.log10(low) + 1e-9), max(math.ceil(math.log10(high) - 1e-9), math.floor(math.log10(low)) + 1)
            self.ticks = [10.0**power for power in range(self.low, self.high + 1)]
            if len(self.ticks) < 4:
                self.ticks = [part * tick for tick in self.ticks for part in (1, 2, 5) if part * tick <= self.ticks[-1]]
        else:
            step = self.step(high)
            self.low, self.high = 0.0, step * math.ceil(high / step)
            self.ticks = [step * number for number in range(round(self.high / step) + 1)]

    @staticmethod
    def step(high: float) -> float:
        """A round step of which four to eight reach the greatest number."""
        power = 10.0 ** math.floor(math.log10(high))
        return next(part * power for part in (0.1, 0.2, 0.25, 0.5, 1, 2) if high / (part * power) <= 8)

    def at(self, value: float) -> float:
        place = math.log10(value) if self.by_logarithm else value
        return self.start + (self.end - self.start) * (place - self.low) / (self.high - self.low)


def number(value: float) -> str:
    return f"{value / 1e6:,.10g} million" if value >= 1e6 and value % 1e5 == 0 else f"{value:,.10g}"


def text(x: float, y: float, words: str, kind: str = "back", anchor: str = "start", size: int = 11, weight: str = "normal") -> str:
    return (f'<text class="f-{kind}" x="{x:.1f}" y="{y:.1f}" font-size="{size}" font-weight="{weight}" text-anchor="{anchor}">'
            f"{escape(words.replace('`', ''))}</text>")


def path(kind: str, steps: str, thick: float = 1.0, more: str = "") -> str:
    return f'<path class="s-{kind}" d="{steps}" fill="none" stroke-width="{thick}" {more}/>'


def mark(which: int, x: float, y: float, size: float = 4.0) -> str:
    """A shape of its own for each series, so that none is told by its colour alone."""
    shapes = {
        0: f'<circle cx="{x:.1f}" cy="{y:.1f}" r="{size}"',
        1: f'<rect x="{x - size:.1f}" y="{y - size:.1f}" width="{2 * size}" height="{2 * size}"',
        2: f'<path d="M {x:.1f} {y - size - 1:.1f} L {x + size + 1:.1f} {y + size:.1f} H {x - size - 1:.1f} z"',
        3: f'<path d="M {x:.1f} {y - size - 1:.1f} L {x + size + 1:.1f} {y:.1f} L {x:.1f} {y + size + 1:.1f} L {x - size - 1:.1f} {y:.1f} z"',
        4: f'<path d="M {x - size:.1f} {y - size:.1f} h {2 * size} l {-size} {2 * size} z"',
    }
    return f'{shapes[which]} class="f-{which}"/>'


def legend(names: list, left: float, top: float, width: float) -> tuple:
    """The marks and their names, in as many rows as they need; and where what follows begins."""
    out, x, y = [], left, top
    for which, name in enumerate(names):
        wide = 20 + LETTER * len(name)
        if x > left and x + wide > left + width:
            x, y = left, y + 18
        out += [mark(which, x + 6, y - 4), text(x + 16, y, name, "ink")]
        x += wide + 12
    return out, y + 14


def lines(title: str, below: str, unit: str, series: list, by_logarithm: bool = True, each: bool = False) -> list:
    """A plot of lines in a box of its own. The axis below is by logarithm, or has each of its places as far from the next."""
    out, top = legend([one.name for one in series], EDGE, 50, WIDTH - EDGE)
    out.insert(0, text(EDGE, 26, title, "ink", size=14, weight="bold"))
    out.append(text(EDGE, top + 8, unit))
    top += 20
    places = list(dict.fromkeys(place for one in series for place, _ in one.points))
    values = [end for one in series for _, value in one.points for end in value[:3]]
    right, bottom = WIDTH - RIGHT, HEIGHT + top - BOTTOM
    rise = Scale(values, bottom, top, by_logarithm)
    along = {place: LEFT + 14 + (right - LEFT - 28) * at / max(1, len(places) - 1) for at, place in enumerate(places)}
    if not each:
        scale = Scale(places, LEFT + 14, right - 14, True)
        scale.low, scale.high = math.log10(min(places)), math.log10(max(places))
        along = {place: scale.at(place) for place in places}
    for tick in rise.ticks:
        out.append(path("scale", f"M {LEFT} {rise.at(tick):.1f} H {right}"))
        out.append(text(LEFT - 7, rise.at(tick) + 4, number(tick), anchor="end"))
    out.append(path("back", f"M {LEFT} {bottom:.1f} H {right}"))
    free = WIDTH
    for place, x in reversed(along.items()):
        out.append(path("back", f"M {x:.1f} {bottom:.1f} v 4"))
        # A number that would run into the next one is left out.
        if x + LETTER * len(number(place)) / 2 < free:
            out.append(text(x, bottom + 17, number(place), anchor="middle"))
            free = x - LETTER * len(number(place)) / 2 - 6
    out.append(text((LEFT + right) / 2, bottom + 36, below, anchor="middle"))
    # Where there are quartiles the series stand side by side, so that none hides others.
    aside = DODGE if any(value.low < value.high for one in series for _, value in one.points) else 0
    for which, one in enumerate(series):
        points = [(along[place] + aside * (which - (len(series) - 1) / 2), value) for place, value in one.points]
        steps = " L ".join(f"{x:.1f} {rise.at(value.middle):.1f}" for x, value in points)
        out.append(path(str(which), "M " + steps, 2.0, 'stroke-linejoin="round"'))
        for x, value in points:
            if value.low < value.high:
                out.append(path(str(which), f"M {x:.1f} {rise.at(value.low):.1f} V {rise.at(value.high):.1f}", 1.2))
            out.append(mark(which, x, rise.at(value.middle)))
    return [out, WIDTH, bottom + BOTTOM]


def dots(title: str, below: str, names: list, rows: list, longest: int) -> list:
    """Rows of dots by logarithm: each row has its words, this many letters at most, and a value for each name; it is written beside its dot."""
    wide = EDGE + LETTER * longest
    left, right = wide + 14, wide + 440
    out, top = legend(names, EDGE, 50, right - EDGE) if len(names) > 1 else ([], 40)
    out.insert(0, text(EDGE, 26, title, "ink", size=14, weight="bold"))
    scale = Scale([end for _, values in rows for value in values for end in value[:3]], left, right, True)
    high = 26 if len(names) == 1 else 16 * len(names) + 12
    bottom = top + high * len(rows) + 6
    for tick in scale.ticks:
        out += [path("scale", f"M {scale.at(tick):.1f} {top} V {bottom}"), text(scale.at(tick), bottom + 17, number(tick), anchor="middle")]
    for at, (words, values) in enumerate(rows):
        middle = top + high * at + high / 2
        out.append(text(wide, middle + 4, words, "ink", "end"))
        for which, value in enumerate(values):
            y = middle + 16 * (which - (len(values) - 1) / 2)
            out.append(path(str(which), f"M {scale.at(value.low):.1f} {y:.1f} H {scale.at(value.high):.1f}", 1.6))
            out.append(mark(which, scale.at(value.middle), y))
            out.append(text(max(scale.at(value.high), scale.at(value.middle) + 4) + 7, y + 4, value.written, "ink"))
    out.append(text((left + right) / 2, bottom + 36, below, anchor="middle"))
    return [out, right + 70, bottom + BOTTOM]


def style() -> str:
    """The colours, as they are in light, and as they are where the reader's screen is dark."""
    def rules(at: int) -> str:
        named = {**COMMON, **{str(which): both for which, both in enumerate(COLOURS)}}
        return "".join(f".f-{name}{{fill:{both[at]}}}.s-{name}{{stroke:{both[at]}}}" for name, both in named.items())

    return f"<style>{rules(0)}@media (prefers-color-scheme:dark){{{rules(1)}}}</style>"


def picture(panels: list, across: int = 2) -> str:
    """The text of a picture: its plots, this many beside one another."""
    out, top, wide = [], 0.0, 0.0
    for at in range(0, len(panels), across):
        left, row = 0.0, panels[at : at + across]
        for drawn, width, _ in row:
            out += [f'<g transform="translate({left:.0f} {top:.0f})">', *drawn, "</g>"]
            left += width
        top, wide = top + max(height for _, _, height in row), max(wide, left)
    head = (f'<svg xmlns="http://www.w3.org/2000/svg" width="{wide:.0f}" height="{top:.0f}" viewBox="0 0 {wide:.0f} {top:.0f}" '
            'font-family="sans-serif">')
    return "\n".join([head, style(), f'<rect class="f-ground" width="{wide:.0f}" height="{top:.0f}"/>', *out, "</svg>", ""])
