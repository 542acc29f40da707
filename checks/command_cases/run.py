"""`run --progress`: the line that shows how far a run is, and what it shares meanwhile."""
from __future__ import annotations

import re
import time
from collections.abc import Sequence

from command_cases.subject import Subject, read

LINE = re.compile(r" *\d+ %  (\d+) of (\d+) requests  \d+ a second  (\d+) pages mapped, (\d+) shared, (\d+) reclaimed\x1b\[K")
# What is printed of LONG_SCRIPT: its requests, and its report by hand.
ALL = 9026
REPORT = f"report entries {ALL} mapped 512 shared 512 frames 1 reclaimed 511 hints 0"


def long_script() -> str:
    """Two guests that store the same to 256 pages each, propose them, and load from them: 9,026 requests in all."""
    stores, loads = [f"store {ppn} 0 41" for ppn in range(256)], [f"load {n % 256} 0 1" for n in range(4000)]
    asked = [f"{guest} {line}\n" for guest in (0, 1) for line in [*stores, "scan sequential 256", *loads]]
    return f"pageshare script 1\nframes 512\npages 256 256\nring 16\njournal {ALL}\n{''.join(asked)}end {len(asked)}\n"


def is_right_line(seen: Sequence[int]) -> bool:
    """Whether a line's numbers can be of LONG_SCRIPT: all requests, mapped pages, shared ones, and those reclaimed."""
    return seen[1] == ALL and seen[4] <= seen[3] <= seen[2] <= 512


def progress_of_a_long_run(subject: Subject) -> None:
    """What is drawn while a run shares pages: requests that never fall, and in the end all of them and the report's numbers."""
    begun = time.monotonic()
    done = subject.run(["run", "--progress", "always"], long_script())
    seconds = time.monotonic() - begun
    drawn = [LINE.fullmatch(line) for line in done.stderr.decode().rstrip("\n").split("\r")[1:]]
    seen = [tuple(map(int, line.groups())) for line in drawn if line]
    is_right = (
        done.returncode == 0
        and done.stdout.decode().endswith(f"\n{REPORT}\n")
        and all(drawn)
        and seen == sorted(seen, key=lambda it: it[0])
        and all(map(is_right_line, seen))
        and seen[-1:] == [(ALL, ALL, 512, 512, 511)]
        and len(seen) <= 11 * seconds + 1
    )
    subject.tally.holds("run, progress of a long run", is_right, (done.returncode, done.stderr[-200:]))


def progress(subject: Subject) -> None:
    """The line is drawn always, never, and on auto where standard error is a terminal."""
    script = read("scan.script")
    plain, drawn = subject.run(["run"], script), subject.run(["run", "--progress", "always"], script)
    is_alike = (drawn.returncode, drawn.stdout) == (0, plain.stdout) and not plain.stderr
    subject.tally.holds("run --progress always", is_alike, drawn, f"as without it {plain}")
    shown = drawn.stderr.decode()
    is_drawn = shown.startswith("\r") and "100 %  " in shown and shown.endswith(" reclaimed\x1b[K\n")
    subject.tally.holds("run, progress", is_drawn, shown)
    subject.draws_on_terminals("run", ["run"], script)
