#!/usr/bin/python3
"""Merges digests by Dask's distributed engine, and prints the numbers of the fleet as one object (fleet/README.md).

    fleet/fleet_dask.py [--scheduler ADDRESS] [--workers N] [--hosts FILE] [--contents FILE] DIGEST ..

ADDRESS is a scheduler's, as tcp://host:8786; each of its workers must be able to read each DIGEST under the path given. Without
one, a scheduler and N workers (by default 2) are started here, as processes of their own on the loopback. A file that is no digest
gets one line on standard error, with its first line at fault, and status 1. --hosts is the list of the guests' hosts that `pageshare
fleet` takes. --contents writes a table for place.py: which guests have the contents that at least two guests have. Needs Debian's python3-dask, python3-distributed and
python3-pandas.
"""
from __future__ import annotations

import argparse
import json
import logging
import pathlib
import sys
from collections.abc import Mapping, Sequence
from typing import Any

import dask.dataframe
from dask import delayed
from distributed import Client, LocalCluster

import digests
import tallies
from fleet_numbers import Content, Line, Numbers, fleet_numbers
from hosts import host_numbers, listed_hosts

HERE = pathlib.Path(__file__).resolve().parent
# What a worker reads and groups at once: this much text, which takes some 400 MB of its memory.
PART_BYTES = 128 << 20


def groups_of(paths: Sequence[str], parts: int) -> list[list[tuple[int, str]]]:
    """The files, as pairs of a number and a path, in so many groups of about the same size, as far as whole files allow."""
    files = sorted(enumerate(paths), key=lambda file: -tallies.bytes_of(file[1:]))
    groups: list[list[tuple[int, str]]] = [[] for _ in range(max(1, min(parts, len(files))))]
    sizes = [0] * len(groups)
    for number, path in files:
        least = sizes.index(min(sizes))
        sizes[least] += tallies.bytes_of([path])
        groups[least].append((number, path))
    return groups


def lines_by_digest(paths: Sequence[str], parts: int) -> Any:
    """All lines as one frame, grouped by digest among the workers."""
    frames = [delayed(tallies.frame_of_files)(group) for group in groups_of(paths, parts)]
    lines = dask.dataframe.from_delayed(frames, meta=tallies.no_lines())
    return lines.shuffle(on=tallies.DIGEST, npartitions=parts)


def merged(paths: Sequence[str], client: Any, listed: Mapping[str, str] | None, contents_path: str | None) -> Numbers:
    """The object of the fleet. Also writes the table of contents, if that is asked for."""
    heads = digests.heads_of(paths)
    hosts = host_numbers(heads, listed)
    threads = sum(client.nthreads().values())
    lines = lines_by_digest(paths, max(2 * threads, -(-tallies.bytes_of(paths) // PART_BYTES)))
    kinds = lines.map_partitions(tallies.kinds_of, [number for number, _name in hosts], meta=tallies.no_kinds()).compute()
    if contents_path:
        write_contents(contents_path, heads, lines.map_partitions(tallies.table_of, meta=tallies.no_table()).compute())
    of_lines: dict[Line, int] = {}
    contents: dict[Content, int] = {}
    by_host: dict[int, dict[Content, int]] = {}
    for file, zero, copies, guests, shared, times in kinds.itertuples(index=False):
        if file >= 0:
            line = Line(file, zero, copies, shared)
            of_lines[line] = of_lines.get(line, 0) + times
        else:
            place, kind = contents if file == -1 else by_host.setdefault(-2 - file, {}), Content(zero, copies, guests)
            place[kind] = place.get(kind, 0) + times
    return fleet_numbers(heads, of_lines, contents, hosts, by_host)


def write_contents(path: str, heads: Sequence[digests.Head | None], table: Any) -> None:
    """Writes the table of contents as CSV."""
    with open(path, "w", encoding="ascii") as out:
        out.write("guest,pages,sample,content,zeros,count,copies\n")
        for file, zero, high, low, copies, times, common in table.itertuples(index=False):
            head, word = heads[file], f"{high:016x}{low:016x}" if common else ""
            out.write(f"{head.guest},{head.pages},{head.sample},{word},{int(zero)},{times},{copies}\n")


def main() -> int:
    words = argparse.ArgumentParser(usage=__doc__.split("\n\n")[1].strip())
    words.add_argument("--scheduler")
    words.add_argument("--workers", type=int, default=2)
    words.add_argument("--hosts")
    words.add_argument("--contents")
    words.add_argument("digests", nargs="+")
    asked = words.parse_args()
    # (a client that is closed after a fault may print there of answers that it no longer waits for)
    logging.getLogger("asyncio").setLevel(logging.CRITICAL)
    cluster = asked.scheduler or LocalCluster(
        n_workers=asked.workers, threads_per_worker=1, dashboard_address=None, silence_logs=logging.CRITICAL
    )
    with Client(cluster) as client:
        for module in ("digests.py", "arrays.py", "tallies.py"):
            client.upload_file(str(HERE / module))
        try:
            found = merged(asked.digests, client, listed_hosts(asked.hosts), asked.contents)
        except (digests.Fault, OSError, ValueError) as fault:
            print(fault, file=sys.stderr)
            return 1
    print(json.dumps(found, separators=(",", ":")))
    return 0


if __name__ == "__main__":
    sys.exit(main())
