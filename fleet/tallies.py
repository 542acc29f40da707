"""What Dask's workers do: read digests into frames, and count the kinds of lines and contents of a frame."""
from __future__ import annotations

import os
from collections.abc import Iterable, Sequence

import numpy
import pandas

import arrays
import digests

# A digest is two numbers of 64 bits, by which frames are grouped some ten times as fast as by texts.
DIGEST = ["high", "low"]
COLUMNS = {"file": "i4", "zero": "?", "high": "u8", "low": "u8", "copies": "i8"}
KINDS = {"file": "i4", "zero": "?", "copies": "i8", "guests": "i8", "shared": "?", "times": "i8"}


TABLE = {"file": "i4", "zero": "?", "high": "u8", "low": "u8", "copies": "i8", "times": "i8", "common": "?"}


def no_table() -> pandas.DataFrame:
    return pandas.DataFrame({name: pandas.Series(dtype=kind) for name, kind in TABLE.items()})


def no_lines() -> pandas.DataFrame:
    return pandas.DataFrame({name: pandas.Series(dtype=kind) for name, kind in COLUMNS.items()})


def no_kinds() -> pandas.DataFrame:
    return pandas.DataFrame({name: pandas.Series(dtype=kind) for name, kind in KINDS.items()})


def frame_of(file: int, path: str) -> pandas.DataFrame:
    """The lines of a digest, as a frame."""
    head = digests.head_of(path)
    if head is None:
        return no_lines()
    pairs, copies, zeros = arrays.lines_of(path, head)
    frame = pandas.DataFrame({"file": file, "zero": zeros, "high": pairs[:, 0], "low": pairs[:, 1], "copies": copies})
    return frame.astype(COLUMNS)


def frame_of_files(files: Iterable[tuple[int, str]]) -> pandas.DataFrame:
    """The lines of several digests, given as pairs of a number and a path."""
    return pandas.concat([no_lines(), *(frame_of(file, path) for file, path in files)], ignore_index=True).astype(COLUMNS)


def counted(frame: pandas.DataFrame, columns: list[str]) -> pandas.DataFrame:
    """How often each value of these columns comes."""
    return frame.groupby(columns, sort=False).size().rename("times").reset_index()


def contents_in(part: pandas.DataFrame, columns: list[str]) -> pandas.DataFrame:
    """Each content, apart for each value of some columns: whether it is zeros, its copies, and how many guests have it."""
    return part.groupby(columns, sort=False).agg(zero=("zero", "any"), copies=("copies", "sum"), guests=("file", "size"))


def kinds_of(part: pandas.DataFrame, hosts: Sequence[int] = ()) -> pandas.DataFrame:
    """How often each kind of line and of content comes in a part of the lines that has all lines of its contents. `hosts` has the number
    of each file's host, if contents are also counted by host: these kinds have the file -2 less the host's number."""
    if part.empty:
        return no_kinds()
    by_digest = part.groupby(DIGEST, sort=False)
    contents = contents_in(part, DIGEST)
    shared = by_digest["copies"].transform("sum") > 1
    of_lines = counted(part.assign(shared=shared), ["file", "zero", "copies", "shared"]).assign(guests=0)
    of_contents = counted(contents, ["zero", "copies", "guests"]).assign(file=-1, shared=False)
    frames = [of_lines, of_contents]
    if len(hosts):
        on_host = part.assign(host=-2 - numpy.asarray(hosts, "i4")[part["file"]])
        on_hosts = contents_in(on_host, ["host", *DIGEST]).reset_index("host")
        frames.append(counted(on_hosts, ["host", "zero", "copies", "guests"]).rename(columns={"host": "file"}).assign(shared=False))
    return pandas.concat(frames, ignore_index=True)[list(KINDS)].astype(KINDS)


def table_of(part: pandas.DataFrame) -> pandas.DataFrame:
    """The lines of contents that at least two guests have, and how often each kind of the other lines comes, with no digest."""
    if part.empty:
        return no_table()
    common = part.groupby(DIGEST, sort=False)["file"].transform("size") > 1
    alone = counted(part[~common], ["file", "zero", "copies"]).assign(high=0, low=0, common=False)
    return pandas.concat([part[common].assign(times=1, common=True), alone], ignore_index=True)[list(TABLE)].astype(TABLE)


def bytes_of(paths: Iterable[str]) -> int:
    return sum(map(os.path.getsize, paths))
