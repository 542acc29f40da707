#!/usr/bin/env python3
"""Where a crate's proof takes its time: the seconds of each function, and of each kind of module that its proof has.

    tools/profile.py CRATE [--test] [--most N]

To be run at the repository's top after `make test`, over the libraries that it left in out/, with nothing beside it. Proves CRATE
from nothing with one job (with --test its tests as well), and prints the N dearest functions (20 unless given), the kinds and the
sum. The checker writes a file as it ends with each module; the time between one file and the next is the module's. Of the kinds,
`Lts` is which value lives how long in a function. It grows with the function's calls times what it holds meanwhile, so it gets
cheaper when the function is split. The files are removed at the end, and no verdict rests on this.
"""
from __future__ import annotations

import argparse
import collections
import os
import pathlib
import re
import subprocess
import sys
import tempfile
from collections.abc import Iterator
from typing import Any

import checks_path  # noqa: F401
from common.kit import load_kit

# A module's name: the function's path, and the kind of module.
MODULE = re.compile(r"Rattle-\w+-(?:proofs|specs)\.(?P<function>.+)\.(?P<kind>[^.]+)")
# What is read and compared before and after all functions.
OTHERS = "(what belongs to no function)"
Seconds = dict[str, float]


def times_of(folder: str) -> Iterator[tuple[str, float]]:
    """Each module that was written below a folder, with the seconds since the one before it. A module may have several files."""
    written = sorted((it.stat().st_mtime, it.name) for it in pathlib.Path(folder).rglob("*") if it.is_file())
    for (before, _name), (at, name) in zip(written, written[1:]):
        yield name.removesuffix(".oantt").removesuffix(".decls"), at - before


def sums_of(folder: str) -> tuple[Seconds, Seconds]:
    """The seconds of each function, and of each kind of module."""
    functions: Seconds = collections.defaultdict(float)
    kinds: Seconds = collections.defaultdict(float)
    for name, seconds in times_of(folder):
        found = MODULE.fullmatch(name)
        functions[found["function"] if found else OTHERS] += seconds
        kinds[found["kind"] if found else OTHERS] += seconds
    return functions, kinds


def profiled(kit: Any, crate: Any, with_tests: bool) -> tuple[Seconds, Seconds, list[str], int]:
    """The seconds by function and by kind, the lines on what isn't proved, and the check's status."""
    with tempfile.TemporaryDirectory(prefix="profile-") as folder:
        words = crate.words(["--jobs", "1", "--incremental", folder], tests=with_tests, keeps=False)
        ran = subprocess.run(
            [*kit.rtlib.guarded(), kit.rtlib.RATTLE, "check", *words], cwd=crate.folder, stdin=subprocess.DEVNULL,
            stdout=subprocess.PIPE, stderr=subprocess.STDOUT, text=True, errors="replace", check=False,
        )
        others = [it for it in ran.stdout.splitlines() if ": error" in it or re.match(r"fn \S+: (not proved|no proof)", it)]
        return *sums_of(folder), others, ran.returncode


def main() -> int:
    options = argparse.ArgumentParser(description=__doc__.splitlines()[0])
    options.add_argument("crate")
    options.add_argument("--test", action="store_true")
    options.add_argument("--most", type=int, default=20)
    given = options.parse_args()
    kit = load_kit()
    kit.Crate.allowed = kit.handles_of(os.getcwd())
    found = [it for it in kit.rtlib.crates_below(os.getcwd()) if it.name == given.crate]
    if not found:
        sys.exit(f"{given.crate}: no crate has this name")
    functions, kinds, others, status = profiled(kit, found[0], given.test)
    print("".join(f"{it}\n" for it in others), end="")
    for what, sums, most in (("function", functions, given.most), ("kind of module", kinds, 8)):
        print(f"seconds by {what}:")
        for name, seconds in sorted(sums.items(), key=lambda it: -it[1])[:most]:
            print(f"{seconds:7.1f} {name}")
    print(f"{sum(functions.values()):7.1f} in all")
    return status


if __name__ == "__main__":
    sys.exit(main())
