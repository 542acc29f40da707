"""The picture of what equal guests share, against their number."""
from __future__ import annotations

import pathlib
from collections.abc import Sequence

from charts import BLUE, DASHED, RED, SOLID, Chart

# Of some guests: their work, how many they are, and which parts are shared, reclaimed and zeros, in percent.
Row = tuple[str, int, float, float, float]
LINES = [("idle", 0, "shared, idle", BLUE, SOLID), ("idle", 1, "reclaimed, idle", BLUE, DASHED),
         ("busy", 0, "shared, at work", RED, SOLID), ("busy", 1, "reclaimed, at work", RED, DASHED)]


def draw(rows: Sequence[Row], path: pathlib.Path) -> None:
    chart = Chart("Memory of equal Linux guests that the host shares and reclaims", 60, 150, 50, 50)
    most = max(row[1] for row in rows)

    def place(count: float, percent: float) -> tuple[float, float]:
        across = chart.left + (chart.right - chart.left) * (count - 1) / max(1, most - 1)
        return across, chart.bottom - (chart.bottom - chart.top) * percent / 100

    for percent in range(0, 101, 20):
        chart.row(place(1, percent)[1], f"{percent} %", 8)
    for count in range(1, most + 1):
        chart.column(place(count, 0)[0], chart.bottom + 18, str(count))
    chart.column((chart.left + chart.right) / 2, chart.height - 12, "guests of 128 MiB")
    ends = []
    for work, column, label, colour, dashes in LINES:
        points = [place(row[1], row[2:][column]) for row in rows if row[0] == work]
        if points:
            chart.curve(points, colour, **dashes)
            ends.append((points[-1][1] + 4, points[-1][0] + 8, label, colour))
    lowest = 0.0
    for y, x, label, colour in sorted(ends):
        lowest = max(y, lowest + 14)
        chart.text(x, lowest, label, fill=colour)
    chart.save(path)
