#!/usr/bin/env python3
"""The checks of the program that the gate ends with: few of each kind, with fixed seeds, each in less than a minute.

    checks/quick.py [PROGRAM [TRACER]]

PROGRAM is by default out/pageshare, and TRACER the program window_trace that was built beside it. Nothing is built here. Runs
commands.py, 1,000 texts of fuzz.py, 200 journals of tenants.py, ten seconds of soak.py, 100 images of estimate.py, the live process
of live.py, demo.py beside the programs of the demo that the gate left, and the traces of traces.py, and prints what they print. The
last line is `N passed, M failed`, of all of them (status 0 where all passed, else 1).
"""
from __future__ import annotations

import argparse
import pathlib
import subprocess
import sys
from collections.abc import Sequence

from harness import PROGRAM, TOP, close, heard

SEED = "1"
CHECKS: list[tuple[str, list[str]]] = [
    ("commands.py", []),
    ("fuzz.py", ["1000", SEED]),
    ("tenants.py", ["200", SEED]),
    ("soak.py", ["10", SEED]),
    ("estimate.py", ["100", SEED]),
    ("live.py", []),
]


def tried(check: str, words: Sequence[str]) -> tuple[int, int, int]:
    """What a check counts as passed, failed and skipped; one that ends otherwise than it should has failed once more."""
    done = subprocess.run([sys.executable, TOP / "checks" / check, *words], stdout=subprocess.PIPE, text=True, check=False)
    lines, (passed, failed, skipped) = heard(done.stdout, done.returncode)
    print(check + ":", *lines, f"{passed} of {passed + failed} are right, and it ended with status {done.returncode}", sep="\n", flush=True)
    return passed, failed, skipped


def beside(program: str) -> str:
    """The program window_trace that was built beside this one: in the same folder, or in its own crate's."""
    path = pathlib.Path(program)
    near = path.with_name("window_trace")
    return str(near if near.exists() else path.parents[2] / "window_trace/out/window_trace")


def main() -> int:
    options = argparse.ArgumentParser(description=__doc__.splitlines()[0])
    options.add_argument("program", metavar="PROGRAM", nargs="?", default=PROGRAM)
    options.add_argument("tracer", metavar="TRACER", nargs="?")
    given = options.parse_args()
    results = [tried(check, [*words, given.program]) for check, words in CHECKS]
    results.append(tried("demo.py", [given.program]))
    results.append(tried("traces.py", [given.tracer or beside(str(pathlib.Path(given.program).resolve()))]))
    passed, failed, skipped = map(sum, zip(*results))
    return close(passed, failed, skipped or None)


if __name__ == "__main__":
    sys.exit(main())
