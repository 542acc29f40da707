#!/usr/bin/env python3
"""Times looks at a window of PAGES pages (benches/window/looks.c), by default 131,072: of pages that nobody else has, and of pages of which
each two are equal and are lent, as far as the system's limit of mappings lets them.

    benches/looks.py [PAGES [LIBRARY]]

LIBRARY is libpageshare.a, by default out/libpageshare.a (`make embed`). Needs cc, and what windows need (docs/INSTALL.md).
"""
from __future__ import annotations

import argparse
import pathlib
import sys

import checks_path  # noqa: F401
from common.benches import BUILT, must
from common.c_programs import FLAGS, LENDER, WINDOW, WINDOW_LIBRARY, compile_c
from harness import OUT, TOP


def main() -> int:
    options = argparse.ArgumentParser(description=__doc__.splitlines()[0])
    options.add_argument("pages", metavar="PAGES", nargs="?", type=int, default=131072)
    options.add_argument("library", metavar="LIBRARY", nargs="?", type=pathlib.Path, default=OUT / "libpageshare.a")
    given = options.parse_args()
    BUILT.mkdir(parents=True, exist_ok=True)
    sources = [TOP / "benches/window/looks.c", *WINDOW, *LENDER, given.library, WINDOW_LIBRARY]
    program = compile_c([*FLAGS, f"-I{TOP / 'lib/include'}", *sources], BUILT / "looks")
    print(must([program, str(given.pages)]), end="")
    return 0


if __name__ == "__main__":
    sys.exit(main())
