#!/usr/bin/env python3
"""Times how many pages are lent a second, of which every other one equals the one before: by the C library (benches/embed.c), by
plain Rust with a map from a 64-bit hash to frames (benches/lend.rs), and how many the kernel's KSM merges a second, of the same
pages, where this computer has it and may write to its settings. These are put back, whatever happens.

    benches/lends.py [LIBRARY]

LIBRARY is libpageshare.a, by default out/libpageshare.a. Needs cc and rustc.
"""
from __future__ import annotations

import argparse
import pathlib
import sys

import checks_path  # noqa: F401
from common.benches import built_in_c, built_in_rust, must
from harness import OUT
from ksm import merged_a_second


def main() -> int:
    options = argparse.ArgumentParser(description=__doc__.splitlines()[0])
    options.add_argument("library", metavar="LIBRARY", nargs="?", type=pathlib.Path, default=OUT / "libpageshare.a")
    library = options.parse_args().library
    ours, plain = built_in_c("embed", library), built_in_rust("lend")
    print(must([ours]))
    print(f"plain Rust: {must([plain])} pages a second, half of them equal")
    print(f"KSM: {merged_a_second()}")
    return 0


if __name__ == "__main__":
    sys.exit(main())
