#!/usr/bin/env python3
"""Makes up a fleet of 50 hosts with 8 guests of 64 MiB each, to try merges of digests on (docs/FLEETS.md).

    examples/make_fleet.py [--sample K] FOLDER
    examples/make_fleet.py --images HOST FOLDER

The first writes each guest's digest, FOLDER/host07.guest3.csv for one, as `pageshare digest` would of its memory. The second writes
the memory of the guests of one host, 1 to 50, as raw images, FOLDER/host07.guest3.raw for one. K is the digests' sample, by default
1. Each host booted one of 3 kernels, each guest has one of 6 sets of libraries, and beside these its own pages, some of them two to
five times, and zeros. The same bytes are written each time. Standard library only.
"""
from __future__ import annotations

import argparse
import collections
import functools
import hashlib
import pathlib
import random

PAGE = 4096
PAGES = 16384
HOSTS, GUESTS = 50, 8
# Contents are numbers, and a content's page is its number again and again: 0 is the page of zeros.
KERNELS = [range(1 << 40 | kernel << 32, (1 << 40 | kernel << 32) + 2000) for kernel in range(3)]
LIBRARIES = [range(2 << 40 | library << 32, (2 << 40 | library << 32) + 1200) for library in range(6)]


def page_of(content: int) -> bytes:
    return content.to_bytes(8, "big") * (PAGE // 8)


def digest(content: int) -> str:
    """The first 128 bits of SHA-256 of a page, under salt 0."""
    return hashlib.sha256(page_of(content)).hexdigest()[:32]


@functools.lru_cache(None)
def shared_digest(content: int) -> str:
    """The same of a content that several guests have, computed once."""
    return digest(content)


def contents_of(host: int, guest: int) -> list[int]:
    """The contents of a guest's pages, in no order."""
    of_host, draw = random.Random(f"host {host}"), random.Random(f"host {host} guest {guest}")
    contents = draw.sample(of_host.choice(KERNELS), 1600) + draw.sample(draw.choice(LIBRARIES), 700)
    for _ in range(100):
        contents += [draw.getrandbits(63)] * draw.randrange(2, 6)
    contents += [draw.getrandbits(63) for _ in range(draw.randrange(500, 1500))]
    return contents + [0] * (PAGES - len(contents))


def name_of(host: int, guest: int) -> str:
    return f"host{host:02}.guest{guest}"


def is_kept(word: str, sample: int) -> bool:
    return int(word[-4:], 16) % sample == 0 or word == shared_digest(0)


def write_digest(folder: pathlib.Path, host: int, guest: int, sample: int) -> None:
    copies = collections.Counter(contents_of(host, guest))
    lines = sorted((digest(content) if content >> 43 else shared_digest(content), count) for content, count in copies.items())
    head = f"{name_of(host, guest)},0,{PAGES},{sample}"
    with open(folder / f"{name_of(host, guest)}.csv", "w", encoding="ascii") as out:
        out.write("guest,salt,pages,sample,digest,copies\n")
        out.writelines(f"{head},{word},{count}\n" for word, count in lines if is_kept(word, sample))


def write_image(folder: pathlib.Path, host: int, guest: int) -> None:
    """The pages in an order of the guest's own; those of zeros are holes in the file."""
    contents = contents_of(host, guest)
    random.Random(f"order {host} {guest}").shuffle(contents)
    with open(folder / f"{name_of(host, guest)}.raw", "wb") as out:
        out.truncate(PAGES * PAGE)
        for place, content in enumerate(contents):
            if content:
                out.seek(place * PAGE)
                out.write(page_of(content))


def main() -> None:
    words = argparse.ArgumentParser(usage=__doc__.split("\n\n")[1].strip())
    words.add_argument("--sample", type=int, default=1)
    words.add_argument("--images", type=int)
    words.add_argument("folder", type=pathlib.Path)
    asked = words.parse_args()
    asked.folder.mkdir(parents=True, exist_ok=True)
    for host in [asked.images] if asked.images else range(1, HOSTS + 1):
        for guest in range(1, GUESTS + 1):
            if asked.images:
                write_image(asked.folder, host, guest)
            else:
                write_digest(asked.folder, host, guest, asked.sample)


if __name__ == "__main__":
    main()
