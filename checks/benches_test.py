#!/usr/bin/env python3
"""Looks at what benches/host/beside.py computes of what it measured, by series and settings that were made up.

    checks/benches_test.py

What is due was worked out by hand. The last line is `N passed, M failed`.
"""
from __future__ import annotations

import argparse
import pathlib
import sys

from harness import TOP, Tally, new_folder

sys.path[:0] = [str(TOP / it) for it in ("benches", "benches/host", "checks/host")]

import beside  # noqa: E402

PAGE = 4096
# Seconds, bytes saved, processor seconds: 10 pages a second up to 100, then one more in ten seconds.
GROWS = [(float(second), float(min(10 * second, 100) * PAGE), second / 2) for second in range(1, 21)]


def bounds(tally: Tally) -> None:
    for name, words, due in [("three programs", (3, 10, 4), 32), ("one has nothing to share but zeros", (1, 10, 4), 4), ("no zeros", (2, 7, 0), 7)]:
        tally.equal(f"the bound: {name}", beside.bound_of(*words), due * PAGE)


def series(tally: Tally) -> None:
    tally.equal("half is reached", beside.reached(GROWS, 50 * PAGE), (5.0, 2.5))
    tally.equal("a page more than half", beside.reached(GROWS, 51 * PAGE), (6.0, 3.0))
    tally.equal("never reached", beside.reached(GROWS, 101 * PAGE), None)
    tally.equal("it grows", beside.is_still(GROWS[:15], 100 * PAGE), False)
    tally.equal("it grows no more", beside.is_still(GROWS, 100 * PAGE), True)
    tally.equal("it hasn't begun", beside.is_still([(float(second), 0.0, 0.0) for second in range(30)], 100 * PAGE), False)
    tally.equal("too little was seen", beside.is_still(GROWS[9:12], 100 * PAGE), False)
    tally.equal("half a processor", beside.settled_percent(GROWS), 50.0)
    tally.equal("one sample", beside.settled_percent(GROWS[:1]), 0.0)


def waits(tally: Tally) -> None:
    tally.equal("the second longest of 10,000", beside.wait_below([[9, 8], [7, 5]], [6000, 4000], 0.9999), 8)
    tally.equal("half of four", beside.wait_below([[3, 1], [4, 2]], [2, 2], 0.5), 2)
    tally.equal("too few were kept", beside.wait_below([[9, 8]], [100000], 0.9999), 0)
    tally.equal("one program's may lie beyond what it kept", beside.wait_below([[9, 8], [2, 1]], [20000, 20000], 0.9999), 0)


def settings(tally: Tally) -> None:
    for text, due in [("[none] scan-time\n", "none"), ("none [scan-time]\n", "scan-time"), ("100\n", "100"), ("", "")]:
        tally.equal(f"the value of {text!r}", beside.chosen(text), due)


def tables(tally: Tally, folder: pathlib.Path) -> None:
    path = folder / "table.tsv"
    beside.write_table([{"way": "KSM", "s": 1.0}, {"way": "pageshare", "s": ""}], path)
    tally.equal("a table", path.read_text(encoding="utf-8"), "way\ts\nKSM\t1.00\npageshare\t\n")
    picture = path.with_name("picture.svg")
    beside.draw({"pageshare": GROWS, "KSM": GROWS}, 100.0 * PAGE, "saved", picture)
    text = picture.read_text(encoding="utf-8")
    tally.holds("a picture has its lines and names", text.count("polyline") + text.count("<path") >= 2 and ">pageshare<" in text and ">KSM<" in text, text)


def kept(tally: Tally, folder: pathlib.Path) -> None:
    """KSM's settings by a folder that stands in for the system's: as they were afterwards, also where something went wrong."""
    before = {"run": "1", "pages_to_scan": "77", "sleep_millisecs": "5", "advisor_mode": "[none] scan-time"}
    beside.KSM = folder
    for name, value in before.items():
        (folder / name).write_text(value)
    for error in (None, KeyboardInterrupt, SystemExit):
        try:
            with beside.ksm_kept():
                beside.set_ksm({**beside.PACED, "run": "2"})
                if error:
                    raise error()
        except (KeyboardInterrupt, SystemExit):
            pass
        after = {name: beside.chosen((folder / name).read_text()) for name in before}
        tally.equal(f"settings after {error}", after, {**before, "advisor_mode": "none"})


def main() -> int:
    argparse.ArgumentParser(description=__doc__.splitlines()[0]).parse_args()
    tally = Tally()
    for part in (bounds, series, waits, settings):
        part(tally)
    for write in (tables, kept):
        with new_folder() as folder:
            write(tally, folder)
    return tally.close()


if __name__ == "__main__":
    sys.exit(main())
