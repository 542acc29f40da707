#!/usr/bin/env python3
"""Writes two small memory images to look at with `estimate`: FOLDER/web.raw, a raw file, and FOLDER/database.core, an ELF core.

    examples/make_images.py FOLDER

Each is 2 MiB, as of two guests that booted one kernel: zeros, pages of the kernel that both have, pages that a guest has several
times, and pages of its own. The same bytes are written each time.
"""
from __future__ import annotations

import argparse
import pathlib
import random
import struct

PAGE = 4096
PAGES = 512


def pages(draw: random.Random, kernel: list[bytes], zeros: int) -> bytes:
    """The pages of a guest: of the 512, so many zeros, those of the kernel, 32 that it has 2 or 3 times, and its own."""
    cached = [draw.randbytes(PAGE) for _ in range(12)]
    some = [bytes(PAGE)] * zeros + kernel + (cached * 3)[:32]
    some += [draw.randbytes(PAGE) for _ in range(PAGES - len(some))]
    draw.shuffle(some)
    return b"".join(some)


def core(memory: bytes) -> bytes:
    """An ELF core of 64 bits with two segments, as of a machine with a hole in its memory."""
    low = 160 * PAGE
    begin = 64 + 2 * 56
    head = b"\x7fELF" + bytes([2, 1, 1]) + bytes(9)
    head += struct.pack("<HHIQQQIHHHHHH", 4, 62, 1, 0, 64, 0, 0, 64, 56, 2, 64, 0, 0)
    for offset, address, size in [(begin, 0, low), (begin + low, 1 << 32, len(memory) - low)]:
        head += struct.pack("<IIQQQQQQ", 1, 6, offset, address, address, size, size, PAGE)
    return head + memory


def main() -> None:
    options = argparse.ArgumentParser(description=__doc__.splitlines()[0])
    options.add_argument("folder", metavar="FOLDER", type=pathlib.Path)
    folder = options.parse_args().folder
    folder.mkdir(parents=True, exist_ok=True)
    draw = random.Random(1)
    kernel = [draw.randbytes(PAGE) for _ in range(160)]
    (folder / "web.raw").write_bytes(pages(draw, kernel, 250))
    (folder / "database.core").write_bytes(core(pages(draw, kernel, 200)))


if __name__ == "__main__":
    main()
