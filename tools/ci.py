#!/usr/bin/env python3
"""Runs `rt ci`, the merge gate of the kit, on the whole tree, and leaves what it checked of static libraries in crates/NAME/out/checked.

    tools/ci.py [--anew]

`tools/build.py` compiles the libraries from there, so that they aren't proved twice. A kit that keeps what it proved takes --anew. All that
is printed, and the status, are those of `rt ci`.
"""
from __future__ import annotations

import os
import sys

import checks_path  # noqa: F401
from common.kit import load_kit
from harness import TOP


def main() -> int:
    os.chdir(TOP)
    return int(load_kit().main(["ci", *sys.argv[1:]]) or 0)


if __name__ == "__main__":
    sys.exit(main())
