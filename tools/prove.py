#!/usr/bin/env python3
"""Proves crates and those below them, as `rt ci` does, and with --test their tests as well, which it then runs.

    tools/prove.py [--test] CRATE ..

--test may stand anywhere among the crates, and is meant for all of them.
What is proved of the same files is taken as it is: from an earlier run on this computer where the kit keeps that, and else from this
tree, where `make test` or this script left it. Status 0 where all is proved and passed, else 1.
"""
from __future__ import annotations

import argparse
import os
import subprocess
import sys
from typing import Any

import checks_path  # noqa: F401
from common import proved
from common.kit import load_kit
from common.lanes import lanes
from harness import TOP


def passes(kit: Any, crate: Any) -> bool:
    """Runs a crate's tests, which are proved, and returns whether they passed."""
    return not crate.has_tests() or bool(kit.run(crate, True))


def main() -> int:
    options = argparse.ArgumentParser(description=__doc__.splitlines()[0])
    options.add_argument("crates", nargs="+", metavar="CRATE")
    options.add_argument("--test", action="store_true", help="prove and run the crates' tests as well")
    given = options.parse_intermixed_args()
    kit = load_kit()
    os.environ["RT_JOBS"] = str(lanes())
    every = proved.crates_of(kit)
    unknown = [it for it in given.crates if it not in every]
    if unknown:
        sys.exit(f"{unknown[0]}: no crate has this name")
    if proved.keeps(kit):
        return subprocess.run(["rt", "ci", *given.crates], cwd=TOP, stdin=subprocess.DEVNULL, check=False).returncode
    tested = given.crates if given.test else []
    is_well = proved.prove(kit, given.crates, tested)
    return 0 if is_well and all([passes(kit, every[it]) for it in tested]) else 1


if __name__ == "__main__":
    sys.exit(main())
