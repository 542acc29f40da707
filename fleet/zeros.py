#!/usr/bin/env python3
"""Prints the table `zeros` of fleet.sql as CSV: the digest of a page of zeros under each salt.

    fleet/zeros.py SALT ..
"""
from __future__ import annotations

import argparse

from digests import zeros_digest


def main() -> None:
    options = argparse.ArgumentParser(description=__doc__.splitlines()[0])
    options.add_argument("salts", metavar="SALT", nargs="*", type=int)
    print("zero_digest")
    for salt in sorted(set(options.parse_args().salts)):
        print(zeros_digest(salt))


if __name__ == "__main__":
    main()
