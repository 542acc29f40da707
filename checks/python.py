#!/usr/bin/env python3
"""Looks at the Python files by ruff and by mypy, both as pyproject.toml has them: types throughout, and no common mistake.

    checks/python.py [FOLDER ..]

By default at each of FOLDERS. A case is one folder by one of the two; what they print of it is shown. Debian 12 has no package of ruff:
where there is no ruff, flake8 looks for the same rules. What isn't installed is left out. The last line is 'N passed, M failed'.
"""
from __future__ import annotations

import argparse
import os
import shutil
import sys

from harness import TOP, LeftOut, Tally, needs, run

# Each folder, and where its modules find each other, as the scripts there do.
FOLDERS = {
    "checks": ["checks", "checks/host", "examples", "packaging", "benches", "benches/host", "fleet"], "tools": ["tools", "checks"],
    "benches": ["benches", "benches/host", "checks", "checks/host", "fleet"], "packaging": ["packaging"], "fleet": ["fleet", "fleet/study"],
    "examples": ["examples"],
}
# The rules that pyproject.toml selects for ruff, but for two that ruff doesn't have.
FLAKE8 = ["flake8", "--isolated", "--select", "E4,E7,E9,F,W", "--extend-ignore", "W503,W504"]


def by_ruff(tally: Tally, folder: str) -> None:
    if shutil.which("ruff"):
        tally.ends(f"{folder} by ruff", run(["ruff", "check", "--quiet", folder], cwd=TOP))
        return
    needs("ruff, and flake8 in its place", "flake8")
    tally.ends(f"{folder} by flake8", run([*FLAKE8, folder], seconds=300, cwd=TOP))


def by_mypy(tally: Tally, folder: str) -> None:
    needs("mypy", "mypy")
    paths = {"MYPYPATH": os.pathsep.join(FOLDERS[folder])}
    looked = run(["mypy", "--no-error-summary", folder], seconds=300, cwd=TOP, env={**os.environ, **paths})
    tally.ends(f"{folder} by mypy", looked)


def main() -> int:
    options = argparse.ArgumentParser(description=__doc__.splitlines()[0])
    options.add_argument("folders", metavar="FOLDER", nargs="*", default=[*FOLDERS])
    tally, folders = Tally(), options.parse_args().folders
    for look in (by_ruff, by_mypy):
        try:
            for folder in folders:
                look(tally, folder)
        except LeftOut as what:
            tally.leave_out(what, what.package)
    return tally.close()


if __name__ == "__main__":
    sys.exit(main())
