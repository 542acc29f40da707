#!/usr/bin/env python3
"""Calls the proved libraries for windows and for hosts, and compares what they return and write with what is due.

    checks/rows.py [NAME ..]

NAME is a file of checks/rows, such as `ranges` for ranges.rows, whose lines are calls with what is due of each. Or it is a module of
checks/window_cases, such as `tasks`, which makes calls by chance with fixed seeds, and has a plain model of what is due. By default it is
all of both, and then each function of the headers must have been called. `hosts` and `halves` call the library for hosts, and `halves` both;
`process`, `lives` and `looks` make the calls over all windows of a process.

No proof stands behind the order of a function's arguments, or behind what the definitions are worth that it is proved to meet. So what is
due was worked out by hand, or is computed by rules that stand here in Python. Where there is no C compiler all is left out, and so said.
The last line is `N passed, M failed` (status 0 where all passed, else 1).
"""
from __future__ import annotations

import argparse
import importlib
import sys

from common.call_rows import run_rows
from common.window_library import Library, built, built_host, built_process
from harness import TOP, Tally

ROWS = {path.stem: path for path in sorted((TOP / "checks/rows").glob("*.rows"))}
CASES = sorted(path.stem for path in (TOP / "checks/window_cases").glob("[a-z]*.py"))


def look(tally: Tally, names: list[str]) -> None:
    """The rows and the cases of these names."""
    library: Library = built()
    for name in names:
        if name in ROWS:
            run_rows(tally, built_process() if name == "process" else library, ROWS[name])
        if name in CASES:
            importlib.import_module(f"window_cases.{name}").run(tally, library)
    if {*names} == {*ROWS, *CASES}:
        for each in (library, built_process(), built_host()):
            tally.equal(f"functions of {each.handle}s that are never called", sorted({*each.functions} - each.called), [])


def main() -> int:
    options = argparse.ArgumentParser(description=__doc__.splitlines()[0])
    options.add_argument("names", metavar="NAME", nargs="*", default=sorted({*ROWS, *CASES}))
    names = options.parse_args().names
    unknown = {*names} - {*ROWS, *CASES}
    if unknown:
        options.error(f"nothing is named {', '.join(sorted(unknown))}")
    tally = Tally()
    tally.part(look, names)
    return tally.close()


if __name__ == "__main__":
    sys.exit(main())
