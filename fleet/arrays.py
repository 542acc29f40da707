"""Reads digests into arrays. Needs numpy."""
from __future__ import annotations

import re

import numpy

import digests


def block_of(found: list[tuple[bytes, bytes]], constant: int, block: bytes) -> tuple[numpy.ndarray, numpy.ndarray] | None:
    """A block's digests and copies; None if not all its bytes are lines of the form, or if copies are more than pages can be."""
    if len(found) * constant + sum(len(copies) for _digest, copies in found) != len(block):
        return None
    pairs = numpy.frombuffer(bytes.fromhex(b"".join(digest for digest, _copies in found).decode()), dtype=">u8")
    pairs = pairs.astype("u8").reshape(-1, 2)
    copies = [int(copies) for _digest, copies in found]
    if max(copies) > digests.MOST_PAGES:
        return None
    return pairs, numpy.array(copies, dtype="i8")


def read_all(path: str, head: digests.Head) -> tuple[numpy.ndarray, numpy.ndarray] | None:
    """All digests and copies of a file whose lines begin with this head; None if a line doesn't."""
    prefix = f"{head.guest},{head.salt},{head.pages},{head.sample},".encode()
    pattern = re.compile(re.escape(prefix) + rb"([0-9a-f]{32}),([1-9][0-9]{0,19})\n")
    parts = []
    with open(path, "rb") as file:
        if file.readline() != digests.HEADER:
            return None
        for block in digests.blocks(file):
            part = block_of(pattern.findall(block), len(prefix) + 34, block)
            if part is None:
                return None
            parts.append(part)
    return numpy.concatenate([pairs for pairs, _copies in parts]), numpy.concatenate([copies for _pairs, copies in parts])


def is_whole(head: digests.Head, pairs: numpy.ndarray, copies: numpy.ndarray, zeros: numpy.ndarray) -> bool:
    """The digests rise, the sample keeps each, and their copies are as many as the pages, or with a sample at most that many."""
    high, low = pairs[:, 0], pairs[:, 1]
    rises = (high[1:] > high[:-1]) | ((high[1:] == high[:-1]) & (low[1:] > low[:-1]))
    kept = (low % numpy.uint64(head.sample) == 0) | zeros
    total = sum(map(int, copies))
    return rises.all() and kept.all() and (total == head.pages if head.sample == 1 else total <= head.pages)


def lines_of(path: str, head: digests.Head) -> tuple[numpy.ndarray, numpy.ndarray, numpy.ndarray]:
    """The digests of a file, as pairs of numbers of 64 bits, their copies, and which of them are of zeros; or its first fault."""
    read = read_all(path, head)
    if read is None:
        digests.raise_fault(path)
    pairs, copies = read
    high, low = (int(part, 16) for part in re.findall(".{16}", digests.zeros_digest(head.salt)))
    zeros = (pairs[:, 0] == numpy.uint64(high)) & (pairs[:, 1] == numpy.uint64(low))
    if not is_whole(head, pairs, copies, zeros):
        digests.raise_fault(path)
    return pairs, copies, zeros
