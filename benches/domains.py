#!/usr/bin/env python3
"""Times the lends of a domain beside those of a bare machine, with one thread and with four, and counts a domain's memory
(benches/domain.c); beside them plain Rust with std's map from pages to frames (benches/domain.rs), and how many pages the kernel's
KSM merges a second where it may be asked.

    benches/domains.py [LIBRARY]

LIBRARY is libpageshare.a, by default out/libpageshare.a. Needs cc and rustc. Nothing else may run meanwhile.
"""
from __future__ import annotations

import argparse
import pathlib
import sys

import checks_path  # noqa: F401
from common.benches import built_in_c, built_in_rust, must
from harness import OUT
from ksm import merged_a_second


def main() -> int:
    options = argparse.ArgumentParser(description=__doc__.splitlines()[0])
    options.add_argument("library", metavar="LIBRARY", nargs="?", type=pathlib.Path, default=OUT / "libpageshare.a")
    library = options.parse_args().library
    ours, plain = built_in_c("domain", library, "-pthread"), built_in_rust("domain")
    print(must([ours]))
    print(f"plain Rust: lend that joins {must([plain])} ns")
    print(f"KSM: {merged_a_second()}")
    return 0


if __name__ == "__main__":
    sys.exit(main())
