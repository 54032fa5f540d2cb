#!/usr/bin/env python3
"""Draws how the time of a judgement grows: docs/performance.svg from docs/performance.tsv, with states, nodes and nesting, and for
the judge of regular rules docs/regular.svg from docs/regular.tsv, with states, steps and nesting."""
import csv
import math
from pathlib import Path
from typing import NamedTuple
from xml.sax.saxutils import escape

HERE = Path(__file__).resolve().parent
WIDTH, HEIGHT = 420, 300
LEFT, TOP, GAP_X, GAP_Y = 70, 50, 190, 90
UNITS = {2: "100 ns", 3: "1 µs", 4: "10 µs", 5: "100 µs", 6: "1 ms", 7: "10 ms", 8: "100 ms", 9: "1 s", 10: "10 s", 11: "100 s"}
COLOURS = ["#0b6e99", "#c2410c", "#15803d", "#7c3aed", "#a16207", "#be185d"]


class Panel(NamedTuple):
    title: str
    name: str  # what x is
    marks: list  # on the x axis, the first and the last at its ends
    log_x: bool
    powers: tuple  # of ten, in nanoseconds: the ends of the y axis
    curves: list  # of (label, points)

    def across(self, value):
        scale = math.log if self.log_x else float
        first, last = scale(self.marks[0]), scale(self.marks[-1])
        return 12 + (WIDTH - 24) * (scale(value) - first) / (last - first)

    def down(self, nanoseconds):
        low, high = self.powers
        return HEIGHT * (high - math.log10(nanoseconds)) / (high - low)


def rows(name):
    with open(HERE / name, encoding="utf-8") as table:
        for row in csv.DictReader(table, delimiter="\t"):
            yield {key: value if key == "series" else int(value) for key, value in row.items()}


def selected(table, label, series, x, **where):
    """A curve: its label, and a point for each row of the series."""
    chosen = [r for r in table if r["series"] == series and all(r[k] == v for k, v in where.items())]
    return label, [(r[x], r["nanoseconds"]) for r in chosen]


def panels(table):
    def by_states(series):
        counts = sorted({r["n"] for r in table if r["series"] == series})
        return [selected(table, f"n = {n}", series, "nesting", n=n) for n in counts]

    states = [
        selected(table, "m = 64, no binder", "64 nodes, no binder", "n"),
        selected(table, "m = 8, one binder", "8 nodes, one binder", "n"),
    ]
    nodes = [
        selected(table, "one binder", "12 states, one binder", "m"),
        selected(table, "no binder", "12 states, no binder", "m"),
    ]
    levels = list(range(1, 9))
    return [
        Panel("With states", "states n", list(range(1, 17)), False, (3, 8), states),
        Panel("With nodes, at 12 states", "nodes m", [6, 8, 12, 16, 24, 32, 48, 64], True, (4, 7), nodes),
        Panel("With nesting, binders of one kind", "levels", levels, False, (3, 11), by_states("binders of one kind")),
        Panel("With nesting, μ and ν alternating", "levels", levels, False, (3, 11), by_states("alternating binders")),
    ]


def regular_panels(table):
    for row in table:
        row["states a level"] = row["n"] // max(row["nesting"], 1)

    def by_rounds(series):
        rounds = sorted({r["states a level"] for r in table if r["series"] == series})
        return [selected(table, f"{r} rounds", series, "nesting", **{"states a level": r}) for r in rounds]

    states = [
        selected(table, "first judge", "first judge, a step a state", "n"),
        selected(table, "one step a state", "one binder, a step a state", "n"),
        selected(table, "84 steps a state", "one binder, many steps a state", "n"),
        selected(table, "no binder, 84", "no binder, many steps a state", "n"),
    ]
    steps = [
        selected(table, "one binder", "one binder", "steps"),
        selected(table, "no binder", "no binder", "steps"),
    ]
    levels = list(range(1, 9))
    counts = [255, 511, 1023, 2047, 4095, 8191, 21690]
    return [
        Panel("With states", "states n", [2, 4, 8, 16, 32, 64, 128, 256], True, (2, 7), states),
        Panel("With steps, at 256 states", "steps", counts, True, (4, 7), steps),
        Panel("With nesting, binders of one kind", "levels", levels, False, (3, 11), by_rounds("binders of one kind")),
        Panel("With nesting, μ and ν alternating", "levels", levels, False, (3, 11), by_rounds("alternating binders")),
    ]


def text(x, y, words, anchor="middle", style=""):
    return f'<text x="{x:.1f}" y="{y:.1f}" text-anchor="{anchor}" {style}>{escape(words)}</text>'


def line(x1, y1, x2, y2, style):
    return f'<line x1="{x1:.1f}" y1="{y1:.1f}" x2="{x2:.1f}" y2="{y2:.1f}" {style}/>'


def frame(panel):
    """The grid with its labels."""
    yield text(0, -16, panel.title, "start", 'font-size="15" font-weight="bold"')
    low, high = panel.powers
    for power in range(low, high + 1):
        y = panel.down(10**power)
        yield line(0, y, WIDTH, y, 'stroke="#dddddd"')
        yield text(-8, y + 4, UNITS[power], "end")
    if high > 10:
        minute = panel.down(60e9)
        yield line(0, minute, WIDTH, minute, 'stroke="#888888" stroke-dasharray="5 4"')
        yield text(6, minute + 14, "a minute", "start", 'fill="#666666"')
    for value in panel.marks:
        x = panel.across(value)
        yield line(x, HEIGHT, x, HEIGHT + 5, 'stroke="#444444"')
        yield text(x, HEIGHT + 19, str(value))
    yield line(0, HEIGHT, WIDTH, HEIGHT, 'stroke="#444444"')
    yield text(WIDTH / 2, HEIGHT + 38, panel.name)


def curve(panel, colour, label, points):
    """A curve with its label beside the last point; where others go on to the right, above it, or below the lowest."""
    places = [(panel.across(x), panel.down(time)) for x, time in points]
    path = " ".join(f"{x:.1f},{y:.1f}" for x, y in places)
    yield f'<polyline points="{path}" fill="none" stroke="{colour}" stroke-width="2"/>'
    yield from (f'<circle cx="{x:.1f}" cy="{y:.1f}" r="3" fill="{colour}"/>' for x, y in places)
    x, y = places[-1]
    if points[-1][0] == panel.marks[-1]:
        yield text(x + 10, y + 4, label, "start", f'fill="{colour}"')
    else:
        beyond = 19 if label == panel.curves[0][0] else -9
        yield text(x, y + beyond, label, "middle", f'fill="{colour}"')


def draw(drawn):
    full = (2 * (WIDTH + GAP_X), 2 * (HEIGHT + GAP_Y) + TOP / 2)
    yield f'<svg xmlns="http://www.w3.org/2000/svg" viewBox="0 0 {full[0]} {full[1]}" font-family="sans-serif" font-size="12">'
    yield f'<rect width="{full[0]}" height="{full[1]}" fill="white"/>'
    for place, panel in enumerate(drawn):
        x = LEFT + place % 2 * (WIDTH + GAP_X)
        y = TOP + place // 2 * (HEIGHT + GAP_Y)
        yield f'<g transform="translate({x} {y})">'
        yield from frame(panel)
        for colour, (label, points) in zip(COLOURS, panel.curves):
            yield from curve(panel, colour, label, points)
        yield "</g>"
    yield "</svg>"


def main():
    for name, chosen in [("performance", panels), ("regular", regular_panels)]:
        picture = "\n".join(draw(chosen(list(rows(f"{name}.tsv"))))) + "\n"
        (HERE / f"{name}.svg").write_text(picture, encoding="utf-8")


if __name__ == "__main__":
    main()
