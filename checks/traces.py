#!/usr/bin/env python3
"""Plays small traces of windows, right and wrong ones, by the proved program.

    checks/traces.py [PROGRAM]

PROGRAM is by default out/window_trace. Each trace must get its line and its status: right traces of each event, traces in which one
line isn't possible or says something else of a page, and texts that aren't traces, each refused at its line. And traces of events as chance
has it, of which plain rules (common/plain_windows.py) say what is possible, and what each page shows. The last line is `N passed, M failed`,
with status 0 where all passed, else 1.
"""
from __future__ import annotations

import argparse
import pathlib
import random
import sys
from collections.abc import Iterable, Iterator

from common.plain_windows import Event, Windows
from harness import OUT, Tally, run

HEAD = ["pageshare trace 1", "pages 3 frames 4"]
# Page 0 is lent to a frame, which is mapped in its place.
LENT = ["write 0 7", "guard 0", "copy 0", "lend 0 1", "map 0"]
# Page 1 has the same content, and comes to show the same frame.
JOINED = [*LENT, "write 1 7", "guard 1", "copy 1", "lend 1 1", "map 1"]
MOST = 2**64 - 1
# Traces by chance, and how many events each has at most.
CHANCES, EVENTS = 200, 120

# What is played after the head, and how many events and looks it has.
RIGHT: dict[str, tuple[list[str], int, int]] = {
    "nothing": ([], 0, 0),
    "a look before any event": (["shows 2 0"], 0, 1),
    "a page that is lent": ([*LENT, "shows 0 7"], 5, 1),
    "two pages that share a frame": ([*JOINED, "shows 0 7", "shows 1 7"], 10, 2),
    "a write to a page that shares": ([*JOINED, "write 1 9", "shows 0 7", "shows 1 9", "release 1"], 12, 2),
    "a copy that is given up": ([*LENT[:3], "unguard 0", "write 0 8", "shows 0 8"], 5, 1),
    "a frame that is trimmed": ([*LENT, "write 0 8", "release 0", "trim 1 0", "shows 0 8"], 8, 1),
    "a frame that was filled early": (["trim 3 5", "write 2 5", "guard 2", "copy 2", "lend 2 3", "map 2", "shows 2 5"], 6, 1),
    "a page that is discarded": ([*LENT, "discard 0", "shows 0 0", "release 0"], 7, 1),
    "the greatest content": ([f"write 0 {MOST}", f"shows 0 {MOST}"], 1, 1),
    "a thousand writes": ([f"write {n % 3} {n}" for n in range(1200)], 1200, 0),
}

# The sizes of larger traces, what is played, and how many events and looks it has. There is memory for these, so it isn't refused.
LARGE = {
    "the most pages": (1048576, 4, ["write 1048575 9", "shows 1048575 9", "shows 0 0"], 1, 2),
    "the most frames": (2, 67108864, ["trim 67108863 5", "write 1 5", "guard 1", "copy 1", "lend 1 67108863", "map 1", "shows 1 5"], 6, 1),
}

# What is played after the head; the last line is the one that isn't possible.
IMPOSSIBLE = {
    "a write to a guarded page": ["guard 0", "write 0 1"],
    "a copy without a guard": ["copy 0"],
    "a lend without a copy": ["guard 0", "lend 0 1"],
    "a lend of a page that holds a frame": [*LENT, "guard 0", "copy 0", "lend 0 2"],
    "a lend to a frame that another page holds": [*LENT, "write 1 8", "guard 1", "copy 1", "lend 1 1"],
    "a lend to a frame that isn't there": ["guard 0", "copy 0", "lend 0 4"],
    "a mapping after the guard was lifted": [*LENT[:4], "unguard 0", "guard 0", "map 0"],
    "a second mapping": [*LENT, "map 0"],
    "a mapping without a frame": ["guard 0", "copy 0", "map 0"],
    "a release of a frame that is shown": [*LENT, "release 0"],
    "a trim of a frame that a page holds": [*LENT, "trim 1 0"],
    "a trim of a frame that isn't there": ["trim 4 0"],
    "a page that isn't there": ["discard 3"],
}

# What is played after the head, and what is printed of its last line.
OTHER: dict[str, tuple[list[str], str]] = {
    "another content": ([*LENT, "shows 0 8"], "page 0 shows 7, not 8"),
    "a content of before": ([*JOINED, "write 1 9", "shows 1 7"], "page 1 shows 9, not 7"),
    "a page that isn't there": (["shows 3 0"], "no page 3"),
}

# Whole texts, and the fault of each.
FAULTS = {
    "the empty text": ("", "truncated line 1"),
    "another header": ("pageshare trace 2\n", "line 1: header"),
    "a header alone": ("pageshare trace 1\n", "truncated line 2"),
    "no page": ("pageshare trace 1\npages 0 frames 1\n", "line 2: pages"),
    "too many pages": ("pageshare trace 1\npages 1048577 frames 1\n", "line 2: pages"),
    "no frame": ("pageshare trace 1\npages 1 frames 0\n", "line 2: frames"),
    "too many frames": ("pageshare trace 1\npages 1 frames 67108865\n", "line 2: frames"),
    "frames before pages": ("pageshare trace 1\nframes 1 pages 1\n", "line 2: form"),
    "an event of no name": ("\n".join([*HEAD, "copy 0", "copies 0", ""]), "line 4: form"),
    "a content that is too great": ("\n".join([*HEAD, f"write 0 {MOST + 1}", ""]), "line 3: form"),
    "a page that is too great": ("\n".join([*HEAD, "guard 4294967296", ""]), "line 3: form"),
    "a word too many": ("\n".join([*HEAD, "guard 0 0", ""]), "line 3: form"),
    "a word too few": ("\n".join([*HEAD, "write 0", ""]), "line 3: form"),
    "two spaces": ("\n".join([*HEAD, "guard  0", ""]), "line 3: form"),
    "a carriage return": ("\n".join([*HEAD, "guard 0\r", ""]), "line 3: form"),
    "an empty line": ("\n".join([*HEAD, "", ""]), "line 3: form"),
    "a line without its line feed": ("\n".join([*HEAD, "guard 0", "copy 0"]), "truncated line 4"),
    "a fault behind 1,200 lines": ("\n".join([*HEAD, *["shows 0 0"] * 1200, "copy", ""]), "line 1203: form"),
    "an end within the line behind 1,200": ("\n".join([*HEAD, *["shows 0 0"] * 1200, "copy 0"]), "truncated line 1203"),
    # Nothing is played of a text with a fault.
    "a fault behind an event that isn't possible": ("\n".join([*HEAD, "copy 0", "copies 0", ""]), "line 4: form"),
}


def text_of(lines: Iterable[str]) -> str:
    return "\n".join([*HEAD, *lines, ""])


def cases() -> Iterator[tuple[str, str, str, int]]:
    """Each case's name, text, line and status."""
    for name, (lines, events, looks) in RIGHT.items():
        yield name, text_of(lines), f"{events} events, each possible; {looks} pages shown right", 0
    for name, (pages, frames, lines, events, looks) in LARGE.items():
        text = "\n".join([HEAD[0], f"pages {pages} frames {frames}", *lines, ""])
        yield name, text, f"{events} events, each possible; {looks} pages shown right", 0
    for name, lines in IMPOSSIBLE.items():
        yield name, text_of([*lines, "shows 0 99"]), f"line {len(HEAD) + len(lines)}: not possible", 1
    for name, (lines, outcome) in OTHER.items():
        yield name, text_of([*lines, "copy 2"]), f"line {len(HEAD) + len(lines)}: {outcome}", 1
    for name, (text, fault) in FAULTS.items():
        yield name, text, f"fault {fault}", 2


def some_event(chance: random.Random) -> Event:
    """An event of three pages and four frames. Those that lead to a frame come in a row more often than else."""
    page, frame, content = chance.randrange(3), chance.randrange(4), chance.randrange(3)
    events: list[Event] = [
        ("write", page, content), ("write", page, content), ("guard", page), ("guard", page), ("unguard", page), ("copy", page), ("copy", page),
        ("lend", page, frame), ("lend", page, frame), ("map", page), ("map", page), ("release", page), ("trim", frame, content),
        ("discard", page),
    ]
    return chance.choice(events)


def by_chance(chance: random.Random) -> tuple[str, str, int]:
    """A trace of events of which all but the last are possible, and what the pages show after each; with its line and its status."""
    windows, lines, events, looks = Windows([0] * 3, [0] * 4), list[str](), 0, 0
    length = chance.randrange(1, EVENTS)
    while events < length:
        event = some_event(chance)
        if windows.apply(event):
            lines.append(" ".join(map(str, event)))
            events += 1
            page = chance.randrange(3)
            lines.append(f"shows {page} {windows.shown(page)}")
            looks += 1
        elif chance.random() < 0.01:
            lines.append(" ".join(map(str, event)))
            return text_of([*lines, "copy 9"]), f"line {len(HEAD) + len(lines)}: not possible", 1
    return text_of(lines), f"{events} events, each possible; {looks} pages shown right", 0


def main() -> int:
    options = argparse.ArgumentParser(description=__doc__.splitlines()[0])
    options.add_argument("program", metavar="PROGRAM", nargs="?", default=str(OUT / "window_trace"))
    program, tally = options.parse_args().program, Tally()
    if not pathlib.Path(program).is_file():
        tally.case(program, ["it isn't there: `make traces` builds out/window_trace"])
        return tally.close()
    for name, text, line, status in cases():
        tally.ends(name, run([program], text), status, f"{line}\n")
    chance = random.Random(7)
    for number in range(CHANCES):
        text, line, status = by_chance(chance)
        tally.ends(f"chance {number}", run([program], text), status, f"{line}\n")
    tally.ends("a file that isn't there", run([program, "/nowhere/to/be/read"]), 2, "fault read\n", None)
    return tally.close()


if __name__ == "__main__":
    sys.exit(main())
