"""The guests that are placed: what their digests say, or a table that fleet_dask.py wrote. Needs numpy and scipy."""
from __future__ import annotations

import csv
import dataclasses
from collections.abc import Sequence

import numpy
from scipy import sparse

import arrays
import digests

TABLE = ["guest", "pages", "sample", "content", "zeros", "count", "copies"]


@dataclasses.dataclass
class Guests:
    """Guests and the contents that at least two of them have. `copies[g, c]` are guest g's pages with content c. All is counted in the
    sample; `weight` and the sums of a guest's own contents are multiplied by it."""

    names: list[str]
    sample: int
    pages: numpy.ndarray
    zero: numpy.ndarray
    copies: sparse.csr_matrix
    weight: numpy.ndarray
    is_zeros: numpy.ndarray
    own_frames: numpy.ndarray
    own_shared: numpy.ndarray

    def has(self) -> sparse.csr_matrix:
        """Which guest has which content."""
        has = self.copies.copy()
        has.data = numpy.ones_like(has.data)
        return has


def made(names: list[str], sample: int, pages: Sequence[int], lines: Sequence[numpy.ndarray]) -> Guests:
    """Guests of lines: arrays of the guest, the content, whether it is zeros, how many such contents there are, and the copies of each.
    Contents that only one guest has have a number below 0, or one that no other line has."""
    guest, content, zeros, count, copies = lines
    found, inverse, holders = numpy.unique(content, return_inverse=True, return_counts=True)
    is_common = (holders[inverse] > 1) & (content >= 0)
    of_zeros = numpy.zeros(len(found), bool)
    of_zeros[inverse[zeros]] = True
    every = numpy.where(of_zeros[inverse] & is_common | zeros, 1, sample) * count
    rest, shape = ~is_common, len(names)
    common = numpy.unique(inverse[is_common])
    place = numpy.searchsorted(common, inverse[is_common])
    table = sparse.csr_matrix((copies[is_common].astype("f8"), (guest[is_common], place)), (shape, len(common)))
    return Guests(
        names=names, sample=sample, pages=numpy.array(pages, "f8"), copies=table,
        zero=numpy.bincount(guest, zeros * count * copies, shape),
        weight=numpy.where(of_zeros[common], 1.0, float(sample)), is_zeros=of_zeros[common],
        own_frames=numpy.bincount(guest[rest], every[rest], shape),
        own_shared=numpy.bincount(guest[rest], (every * copies * (copies > 1) * ~zeros)[rest], shape),
    )


def numbered(pairs: numpy.ndarray) -> numpy.ndarray:
    """A number for each content, by its digest's two halves."""
    order = numpy.lexsort((pairs[:, 1], pairs[:, 0]))
    later = (pairs[order[1:]] != pairs[order[:-1]]).any(axis=1)
    numbers = numpy.empty(len(pairs), "i8")
    numbers[order] = numpy.r_[0, numpy.cumsum(later)] if len(pairs) else []
    return numbers


def of_digests(paths: Sequence[str]) -> Guests:
    """The guests of these digests."""
    heads = digests.heads_of(paths)
    known = [(head, path) for head, path in zip(heads, paths) if head]
    parts = [arrays.lines_of(path, head) for head, path in known]
    empty = (numpy.empty((0, 2), "u8"), numpy.empty(0, "i8"), numpy.empty(0, bool))
    pairs, copies, zeros = (numpy.concatenate(column) for column in zip(empty, *parts))
    guest = numpy.repeat(range(len(known)), [len(part[1]) for part in parts]).astype("i8")
    names = unique([head.guest for head, _path in known])
    sample = known[0][0].sample if known else 1
    return made(names, sample, [head.pages for head, _path in known], (guest, numbered(pairs), zeros, numpy.ones_like(copies), copies))


def of_table(path: str) -> Guests:
    """The guests of a table that fleet_dask.py wrote."""
    with open(path, encoding="ascii", newline="") as file:
        read = csv.DictReader(file)
        if read.fieldnames != TABLE:
            raise ValueError(f"{path}: begin with the line {','.join(TABLE)}")
        rows = list(read)
    guests = {row["guest"]: int(row["pages"]) for row in rows}
    place = {name: number for number, name in enumerate(guests)}
    contents: dict[str, int] = {}
    for row in rows:
        contents.setdefault(row["content"], len(contents))
    lines = (
        numpy.array([place[row["guest"]] for row in rows], "i8"),
        numpy.array([contents[row["content"]] if row["content"] else -1 for row in rows], "i8"),
        numpy.array([row["zeros"] == "1" for row in rows], bool),
        numpy.array([int(row["count"]) for row in rows], "i8"), numpy.array([int(row["copies"]) for row in rows], "i8"),
    )
    return made(list(guests), int(rows[0]["sample"]) if rows else 1, list(guests.values()), lines)


def unique(names: list[str]) -> list[str]:
    """These names, none of which may come twice."""
    if len(set(names)) != len(names):
        twice = next(name for name in names if names.count(name) > 1)
        raise ValueError(f"{twice}: two digests of this guest")
    return names
