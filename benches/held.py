#!/usr/bin/env python3
"""Draws how much memory a fleet of monitor/ held for its guests' pages, from what `out/monitor/fleet --json FILE` wrote.

    benches/held.py FILE [PICTURE]

The picture, by default FILE with the ending .svg, has the seconds of the run across. A dashed line shows how much the distinct pages
take that the guests had at the end. Standard library only.
"""
from __future__ import annotations

import argparse
import json
import pathlib
from collections.abc import Iterator
from typing import Any

from charts import BLUE, DASHED, RED, Chart

PAGES_IN_MIB = 256


def steps(most: float, parts: int) -> Iterator[int]:
    """The multiples, up to `most`, of the least of 1, 2, 5, 10, 20 .. that makes at most so many parts."""
    step = next(digit * 10**power for power in range(20) for digit in (1, 2, 5) if most / (digit * 10**power) <= parts)
    yield from range(0, int(most) + 1, step)


def chart_of(run: dict[str, Any]) -> Chart:
    chart = Chart(f"MiB held for the guests' pages ({run['way']})", 60, 16, 40, 40, (640, 320))
    seconds, most = run["samples"][-1][0] or 1, max(held for _, held in run["samples"]) or 1

    def place(at: float, held: float) -> tuple[float, float]:
        across = chart.left + (chart.right - chart.left) * at / seconds
        return across, chart.bottom - (chart.bottom - chart.top) * held / most

    for mib in steps(most, 6):
        chart.row(place(0, mib)[1], str(mib), 6)
    for second in steps(seconds, 8):
        chart.column(place(second, 0)[0], chart.bottom + 18, str(second))
    chart.text(chart.right, chart.height - 6, "seconds", text_anchor="end")
    distinct = run["distinct"] / PAGES_IN_MIB
    bound = place(0, distinct)[1]
    chart.put("path", d=f"M{chart.left} {bound:.1f}H{chart.right}", stroke=RED, **DASHED)
    chart.text(chart.right, bound + 16, f"distinct pages at the end: {distinct:.1f} MiB", text_anchor="end", fill=RED)
    chart.curve([place(at, held) for at, held in run["samples"]], BLUE)
    return chart


def main() -> None:
    options = argparse.ArgumentParser(description=__doc__.splitlines()[0])
    options.add_argument("figures", metavar="FILE", type=pathlib.Path)
    options.add_argument("picture", metavar="PICTURE", type=pathlib.Path, nargs="?")
    given = options.parse_args()
    run = json.loads(given.figures.read_text(encoding="utf-8"))
    chart_of(run).save(given.picture or given.figures.with_suffix(".svg"))


if __name__ == "__main__":
    main()
