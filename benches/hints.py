#!/usr/bin/env python3
"""Looks that the time of a replay grows with the number of its hints and no faster.

    benches/hints.py [--program FILE] [--few N] [--times N] [--turns N]

A journal of --few hints (by default 10,000) stores to as many pages, each with a content of its own, and proposes each once;
another has --times as many (4). Both are replayed --turns times (9), in turns, by out/pageshare (`make build`) or another
program that takes the word `replay`. The machine has a frame for each page, so the table is as full as it gets. Each report
must count all the hints, and the least time of the longer journal may be 1.2 times --times that of the shorter: a table that
is searched from its front takes about --times squared. Prints both times (status 0, or 1 where it takes longer). Nothing else
may run on the computer meanwhile.
"""
from __future__ import annotations

import argparse
import pathlib
import sys

import checks_path  # noqa: F401
from common.benches import ROOM, different, journal, output, scanned, seconds
from harness import PROGRAM

SLACK = 1.2


def hinted(program: str, count: int) -> pathlib.Path:
    """The journal of so many hints, once its report has counted them all."""
    path = journal(f"hints-{count}", count, count, scanned(count, different))
    report = output(program, ["replay"], path).decode("ascii").splitlines()[-1]
    wanted = f"report entries {2 * count} mapped {count} shared 0 frames {count} reclaimed 0 hints {count}"
    if report != wanted:
        sys.exit(f"wrong report: {report}, and {wanted} is wanted")
    return path


def main() -> None:
    parser = argparse.ArgumentParser(description="Looks that a replay's time grows with its hints and no faster.")
    parser.add_argument("--program", default=PROGRAM)
    parser.add_argument("--few", type=int, default=10_000)
    parser.add_argument("--times", type=int, default=4)
    parser.add_argument("--turns", type=int, default=9)
    asked = parser.parse_args()
    ROOM.mkdir(parents=True, exist_ok=True)
    counts = [asked.few, asked.few * asked.times]
    paths = [hinted(asked.program, count) for count in counts]
    turns = [[seconds(asked.program, ["replay"], path) for path in paths] for _ in range(asked.turns)]
    few, many = (min(times) for times in zip(*turns))
    ratio = many / few / asked.times
    print(f"{counts[0]:,} hints: {1e3 * few:.1f} ms; {counts[1]:,} hints: {1e3 * many:.1f} ms, {ratio:.2f} of {asked.times} times as long")
    sys.exit(0 if ratio <= SLACK else 1)


if __name__ == "__main__":
    main()
