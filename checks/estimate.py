#!/usr/bin/env python3
"""Compares what `estimate` prints with a count of its own, by hashes of whole pages and sets of bytes (common/plain_estimate.py).

    checks/estimate.py [COUNT [SEED [PROGRAM]]]

Makes COUNT random images, by default 1,000, a few at a time: raw files and ELF cores with segments out of order, holes, last parts
and, now and then, the number of program headers in section header 0; empty ones; one image twice; cores read as raw; several salts.
For each few it compares the object of `--json`, the whole table in MiB and in pages (common/plain_table.py), and that the picture is
XML. PROGRAM is by default out/pageshare (`make build`). Nothing is built here. Prints each difference, and at the end
`N passed, M failed`, of images (status 0 where all passed, else 1).
"""
from __future__ import annotations

import argparse
import json
import pathlib
import random
import sys
import xml.dom.minidom
from collections.abc import Iterator, Sequence

from common import plain_estimate, plain_fleet, plain_table
from common.plain_images import pages_of_image
from common.random_images import random_image
from harness import PROGRAM, Tally, new_folder, parting, run, wrong_end

UNITS = ("pages", "mib")


def table_faults(text: str, due: plain_fleet.Numbers, unit: str) -> Iterator[str]:
    """What is wrong with a table."""
    if sum(due["total"]["parts"].values()) != due["total"]["reclaimed"]:
        yield f"the parts of {due['total']} don't add up"
    lines, wanted = text.split("\n"), plain_table.table_text(due, unit).split("\n")
    if len(lines) != len(wanted):
        yield f"the table has {len(lines)} lines, and {len(wanted)} were due"
    yield from [f"{line!r} is printed, and {one!r} was due" for line, one in zip(lines, wanted) if line != one][:5]


def written(draw: random.Random, folder: pathlib.Path, images: list[bytes]) -> tuple[list[str], list[bytes]]:
    """The images as files, now and then one of them twice: their paths, and each one's bytes."""
    names = []
    for n, data in enumerate(images):
        path = folder / f"{n}{draw.choice(['.raw', ' a.core', '-<&>.img', '-é'])}"
        path.write_bytes(data)
        names.append(str(path))
    if draw.randrange(3) == 0:
        twice = draw.randrange(len(names))
        names.append(names[twice])
        images = images + [images[twice]]
    return names, images


def object_faults(program: str, words: Sequence[str], due: plain_fleet.Numbers) -> Iterator[str]:
    """What is wrong with the object of `--json`."""
    wanted = json.dumps(due, separators=(",", ":"), ensure_ascii=False) + "\n"
    yield from wrong_end(run([program, "estimate", "--json", *words]), 0, wanted, "")


def shown_faults(program: str, words: Sequence[str], due: plain_fleet.Numbers, picture: pathlib.Path) -> Iterator[str]:
    """What is wrong with the tables, and with the names in the picture."""
    for unit in UNITS:
        done = run([program, "estimate", "--unit", unit, "--svg", picture, *words])
        if done.returncode != 0 or done.stderr:
            yield from wrong_end(done, 0, None, "")
            return
        yield from table_faults(done.stdout.decode(), due, unit)
    names = [guest["image"] for guest in due["guests"]]
    titles = [title.firstChild.data for title in xml.dom.minidom.parse(str(picture)).getElementsByTagName("title")]
    if titles[1:] != names:
        yield f"the picture's names are others: {parting(titles[1:], names)}"


def faults_of(draw: random.Random, program: str, folder: pathlib.Path, images: list[bytes]) -> Iterator[str]:
    """What is wrong with the estimates of these images."""
    names, images = written(draw, folder, images)
    is_raw = draw.randrange(5) == 0
    salts = [draw.choice([0, 0, 1, 4294967295]) for _ in names] if draw.randrange(2) else None
    words = (["--raw"] if is_raw else []) + (["--workers", str(draw.randrange(1, 65))] if draw.randrange(2) else [])
    words += [*(["--salts", ",".join(map(str, salts))] if salts else []), *names]
    due = plain_estimate.counted(names, salts or [0] * len(names), [pages_of_image(data, is_raw) for data in images])
    yield from object_faults(program, words, due)
    yield from shown_faults(program, words, due, folder / "picture.svg")


def main() -> int:
    options = argparse.ArgumentParser(description=__doc__.splitlines()[0])
    options.add_argument("count", metavar="COUNT", nargs="?", type=int, default=1000)
    options.add_argument("seed", metavar="SEED", nargs="?", type=int, default=1)
    options.add_argument("program", metavar="PROGRAM", nargs="?", default=PROGRAM)
    given = options.parse_args()
    draw, tally, made = random.Random(given.seed), Tally(), 0
    pool = [draw.randbytes(plain_fleet.PAGE) for _ in range(6)]
    while made < given.count:
        images = [random_image(draw, pool) for _ in range(min(given.count - made, draw.randrange(1, 6)))]
        with new_folder() as folder:
            tally.case(f"after {made} images of seed {given.seed}", faults_of(draw, given.program, folder, images), len(images))
        made += len(images)
    return tally.close()


if __name__ == "__main__":
    sys.exit(main())
