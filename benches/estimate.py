#!/usr/bin/env python3
"""Counts the different pages of raw images by a dictionary, for comparison with `pageshare estimate`.

    benches/estimate.py IMAGE ..

benches/bench.py times it, so it imports nothing that it doesn't need.
"""
from __future__ import annotations

import sys

copies: dict[bytes, int] = {}
count = 0
for path in sys.argv[1:]:
    with open(path, "rb", buffering=0) as image:
        while page := image.read(4096):
            copies[page] = copies.get(page, 0) + 1
            count += 1
print(count, len(copies))
