#!/usr/bin/env python3
"""Merges digests by fleet.sql in SQLite, and prints the numbers of the fleet as one object, as fleet_dask.py does.

    fleet/fleet_sqlite.py DIGEST ..

It is a worked example of fleet.sql: SQLite keeps all lines in memory here and uses one thread. A file that is no digest gets one
line on standard error, with its first line at fault, and status 1. Standard library only.
"""
from __future__ import annotations

import argparse
import json
import math
import pathlib
import sqlite3
import sys
from collections.abc import Iterator, Mapping, Sequence
from typing import Any

import digests

HERE = pathlib.Path(__file__).resolve().parent
# The members of an object, by their names.
Numbers = dict[str, Any]
# How the object names what fleet.sql has other names for, since SQL has uses of its own for some of these words.
NAMES = {
    "zero_pages": "zero", "distinct_contents": "distinct", "shared_pages": "shared", "alone_pages": "alone",
    "between_guests": "between",
}


def load(tables: sqlite3.Connection, paths: Sequence[str]) -> list[digests.Head | None]:
    """Fills the tables, and returns each file's head (None where it has no line)."""
    tables.execute(
        "CREATE TABLE lines (file BIGINT, guest VARCHAR(64), salt BIGINT, pages BIGINT, sample BIGINT, digest CHAR(32), copies BIGINT)"
    )
    tables.execute("CREATE TABLE zeros (zero_digest CHAR(32))")
    heads = digests.heads_of(paths)
    for file, path in enumerate(paths):
        rows = ((file, head.guest, head.salt, head.pages, head.sample, digest, copies) for head, digest, copies in digests.lines(path))
        try:
            tables.executemany("INSERT INTO lines VALUES (?, ?, ?, ?, ?, ?, ?)", rows)
        except OverflowError:
            # (copies that are too many for a number of SQLite's are more than the pages)
            digests.raise_fault(path)
    # Without it SQLite goes through all lines for each content.
    tables.execute("CREATE INDEX by_digest ON lines (digest)")
    salts = {head.salt for head in heads if head}
    tables.executemany("INSERT INTO zeros VALUES (?)", [(digests.zeros_digest(salt),) for salt in sorted(salts)])
    return heads


def rows_of(tables: sqlite3.Connection, query: str) -> Iterator[tuple[Numbers, dict[str, int]]]:
    """The rows of a query, each as an object; standard errors stand in one of their own, rounded down."""
    asked = tables.execute(query)
    names = [column[0] for column in asked.description]
    for row in asked:
        numbers = {NAMES.get(name, name): value for name, value in zip(names, row)}
        errors = {name.removesuffix("_error"): math.floor(value) for name, value in numbers.items() if name.endswith("_error")}
        yield {name: value for name, value in numbers.items() if not name.endswith("_error")}, errors


def with_errors(members: Numbers, errors: Mapping[str, int], sample: int) -> Numbers:
    return members if sample == 1 else {**members, "errors": errors}


def no_guest(sample: int) -> Numbers:
    """The numbers of a digest without lines."""
    names = ("distinct", "shared", "alone")
    members = {"guest": None, "salt": None, "pages": 0, "zero": 0, **dict.fromkeys(names, 0)}
    return with_errors(members, dict.fromkeys(names, 0), sample)


def merged(tables: sqlite3.Connection, heads: Sequence[digests.Head | None]) -> Numbers:
    """The object of the fleet."""
    sample = next((head.sample for head in heads if head), 1)
    guests = {}
    for row, errors in rows_of(tables, "SELECT * FROM guest_numbers ORDER BY file"):
        file = row.pop("file")
        guests[file] = with_errors(row, errors, sample)
    ((total, errors),) = rows_of(tables, "SELECT * FROM total_numbers")
    total = {name: value or 0 for name, value in total.items()}
    total["parts"] = {"zeros": total["zero_reclaimed"], "between": total.pop("between_part"), "within": total.pop("within_part")}
    copies = []
    for row, class_errors in rows_of(tables, "SELECT * FROM copies_table ORDER BY at_most"):
        most = row.pop("at_most")
        copies.append({"from": most // 2 + 1, "to": most, **with_errors(row, class_errors, sample)})
    found: Numbers = {"page_bytes": digests.PAGE_BYTES}
    if sample > 1:
        found |= {"sample": sample, "kept": tables.execute("SELECT COUNT(*) FROM contents").fetchone()[0]}
    found["guests"] = [guests.get(file) or no_guest(sample) for file in range(len(heads))]
    return {**found, "total": with_errors(total, errors, sample), "copies": copies}


def main() -> int:
    options = argparse.ArgumentParser(description=__doc__.splitlines()[0])
    options.add_argument("digests", metavar="DIGEST", nargs="*")
    paths = options.parse_args().digests
    tables = sqlite3.connect(":memory:")
    # (not every SQLite is built with it)
    tables.create_function("SQRT", 1, lambda value: value if value is None else math.sqrt(value), deterministic=True)
    try:
        heads = load(tables, paths)
    except (digests.Fault, OSError, ValueError) as fault:
        print(fault, file=sys.stderr)
        return 1
    script = (HERE / "fleet.sql").read_text(encoding="ascii")
    tables.executescript(script[: script.index("\nSELECT * FROM guest_numbers ORDER")])
    print(json.dumps(merged(tables, heads), separators=(",", ":")))
    return 0


if __name__ == "__main__":
    sys.exit(main())
