#!/usr/bin/env python3
"""Draws growth.svg, rates.svg and plain-rates.svg from the table that `benches/bench.py --table FILE` wrote.

    benches/plots.py FILE [FOLDER]

The first shows a replay's time against its number of requests, the others how many requests a second whole runs serve against
their number of guests: with a proposal in 16, and of stores and loads alone. All axes are by logarithms. FOLDER is docs/ where
none is given. Standard library only.
"""
from __future__ import annotations

import argparse
import math
import os
import re
from collections.abc import Sequence

from charts import BLUE, DASHED, RED, SOLID, Chart, Point

DOCS = os.path.join(os.path.dirname(os.path.dirname(os.path.abspath(__file__))), "docs")
MIXES = {
    "a proposal in 16": ("rates.svg", "Requests served by whole runs, a proposal in 16"),
    "stores and loads": ("plain-rates.svg", "Requests served by whole runs, stores and loads"),
}
# Each side has a line of its own kind.
SIDES = [("proved", BLUE, SOLID), ("plain Rust", RED, DASHED)]


def steps(low: float, high: float) -> list[float]:
    """1, 2 and 5 times each power of ten from low to high, and one below and above."""
    numbers = [part * 10.0**power for power in range(-1, 13) for part in (1, 2, 5)]
    below = max(number for number in numbers if number <= low)
    above = min(number for number in numbers if number >= high)
    return [number for number in numbers if below <= number <= above]


def plot(path: str, title: str, across: str, up: str, lines: Sequence[Sequence[Point]]) -> None:
    """lines: for each side its points, all numbers above 0."""
    points = [point for line in lines for point in line]
    if not points:
        return
    chart = Chart(title, 90, 20, 64, 50)
    columns = sorted({point[0] for point in points})
    ticks = steps(min(point[1] for point in points), max(point[1] for point in points))

    def at(value: float, low: float, high: float, begin: float, end: float) -> float:
        share = (math.log(value) - math.log(low)) / ((math.log(high) - math.log(low)) or 1)
        return begin + share * (end - begin)

    def place(point: Point) -> Point:
        across = at(point[0], columns[0], columns[-1], chart.left + 20, chart.right - 20)
        return across, at(point[1], ticks[0], ticks[-1], chart.bottom, chart.top)

    chart.text(8, chart.top - 14, up)
    for tick in ticks:
        chart.row(place((columns[0], tick))[1], f"{tick:,.10g}", 6)
    chart.axes()
    for column in columns:
        chart.column(place((column, ticks[0]))[0], chart.bottom + 16, f"{column:,.0f}")
    chart.column((chart.left + chart.right) / 2, chart.height - 10, across)
    for (name, colour, dashes), line, row in zip(SIDES, lines, (0, 1)):
        where = [place(point) for point in line]
        if where:
            left = chart.right - 220 + 110 * row
            chart.put("path", d=f"M{left} {chart.top - 18}h24", stroke=colour, stroke_width=2, **dashes)
            chart.text(left + 30, chart.top - 14, name)
            chart.curve(where, colour, **dashes)
            for x, y in where:
                chart.put("circle", cx=x, cy=y, r=3.5, fill=colour)
    chart.save(path)


def main() -> None:
    options = argparse.ArgumentParser(description=__doc__.splitlines()[0])
    options.add_argument("table", metavar="FILE")
    options.add_argument("folder", metavar="FOLDER", nargs="?", default=DOCS)
    given = options.parse_args()
    folder = given.folder
    with open(given.table, encoding="utf-8") as file:
        rows = [line.rstrip("\n").split("\t") for line in file]
    growth: list[list[Point]] = [[], []]
    rates: dict[str, list[list[Point]]] = {mix: [[], []] for mix in MIXES}
    for name, _, *sides in rows:
        requests = re.fullmatch(r"replay: ([\d,]+) requests", name)
        guests = re.fullmatch(r"run: (\d+) guests, ([^,]+)", name)
        for side, figure in enumerate(sides):
            if requests and figure != "-":
                growth[side].append((float(requests[1].replace(",", "")), float(figure)))
            if guests and figure != "-":
                rates[guests[2]][side].append((float(guests[1]), 1e9 / float(figure)))
    plot(os.path.join(folder, "growth.svg"), "A replay's time", "requests", "milliseconds", growth)
    for mix, (name, title) in MIXES.items():
        plot(os.path.join(folder, name), title, "guests", "requests a second", rates[mix])


if __name__ == "__main__":
    main()
