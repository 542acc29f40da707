"""Reads the text of a digest (docs/FORMATS.md): a guest's lines, or the first fault. Standard library only."""
from __future__ import annotations

import dataclasses
import hashlib
import re
from collections.abc import Iterator, Sequence
from typing import IO, NoReturn

PAGE_BYTES = 4096
HEADER = b"guest,salt,pages,sample,digest,copies\n"
# A line of the form has fewer bytes than this, and so has a block's last line, which may be cut off.
MOST_LINE_BYTES = 256
BLOCK_BYTES = 1 << 20
# What is merged has at most so many pages in all, as many as signed numbers of 64 bits can count.
MOST_PAGES = (1 << 63) - 1

NUMBER = rb"0|[1-9][0-9]*"
LINE = re.compile(rb"([A-Za-z0-9._-]{1,64}),(%s),(%s),([1-9][0-9]*),([0-9a-f]{32}),([1-9][0-9]*)\n" % (NUMBER, NUMBER))


class Fault(Exception):
    """A file that is no digest: the first line at fault, and its first cause."""

    def __init__(self, path: str, line: int, cause: str) -> None:
        super().__init__(f"{path}: fault line {line}: {cause}")
        self.path, self.line, self.cause = path, line, cause

    # (so that a worker can send it)
    def __reduce__(self) -> tuple[type[Fault], tuple[str, int, str]]:
        return Fault, (self.path, self.line, self.cause)


@dataclasses.dataclass(frozen=True)
class Head:
    """What all lines of a digest begin with."""

    guest: str
    salt: int
    pages: int
    sample: int


def zeros_digest(salt: int) -> str:
    """The digest of a page of zeros."""
    message = (salt.to_bytes(4, "big") if salt else b"") + bytes(PAGE_BYTES)
    return hashlib.sha256(message).hexdigest()[:32]


def parsed(line: bytes) -> tuple[Head, bytes, int] | None:
    """The head, the digest and the copies of a line; None if it isn't of the form."""
    found = LINE.fullmatch(line) if len(line) <= MOST_LINE_BYTES + 1 else None
    if not found:
        return None
    guest, digest = found[1].decode(), found[5]
    salt, pages, sample, copies = (int(found[n]) for n in (2, 3, 4, 6))
    is_sample = sample <= 1 << 16 and sample & (sample - 1) == 0
    if salt >= 1 << 32 or max(pages, copies) >= 1 << 64 or not is_sample:
        return None
    return Head(guest, salt, pages, sample), digest, copies


def header_cause(line: bytes) -> str | None:
    """What is wrong with the first line; None if nothing is."""
    if not line.endswith(b"\n") or len(line) > MOST_LINE_BYTES + 1 or line.count(b",") != 5:
        return "form"
    return None if line == HEADER else "head"


def capped_lines(file: IO[bytes]) -> Iterator[bytes]:
    """The lines of a file. Of a line that is too long there is a part without a line feed."""
    while line := file.readline(2 * MOST_LINE_BYTES):
        yield line


def lines(path: str) -> Iterator[tuple[Head, str, int]]:
    """Each line's head, digest and copies, or a Fault where the first line at fault comes."""
    with open(path, "rb") as file:
        cause = header_cause(file.readline(2 * MOST_LINE_BYTES))
        if cause:
            raise Fault(path, 1, cause)
        head, last, left, zeros, number = None, b"", 0, b"", 1
        for number, line in enumerate(capped_lines(file), 2):
            found = parsed(line)
            if not found:
                raise Fault(path, number, "form")
            own, digest, copies = found
            if head is None:
                head, left, zeros = own, own.pages, zeros_digest(own.salt).encode()
            left -= copies
            cause = row_cause(head, own, last, digest, left, zeros)
            if cause:
                raise Fault(path, number, cause)
            last = digest
            yield own, digest.decode(), copies
        if head and head.sample == 1 and left != 0:
            raise Fault(path, number, "total")


def row_cause(head: Head, own: Head, last: bytes, digest: bytes, left: int, zeros: bytes) -> str | None:
    """What is wrong with a line of the form, after the lines before it; None if nothing is."""
    if own != head:
        return "guest"
    if digest <= last:
        return "order"
    if int(digest[-4:], 16) % head.sample != 0 and digest != zeros:
        return "sample"
    return "total" if head.sample > 1 and left < 0 else None


def raise_fault(path: str) -> NoReturn:
    """Raises the first fault of a file that has one."""
    for _line in lines(path):
        pass
    raise OSError(f"{path}: changed while it was read")


def head_of(path: str) -> Head | None:
    """The head of a digest by its first line; None if there is none."""
    return next((head for head, _digest, _copies in lines(path)), None)


def heads_of(paths: Sequence[str]) -> list[Head | None]:
    """Each file's head, all with one sample, and with no more pages in all than can be merged."""
    heads = [head_of(path) for path in paths]
    first = next((head.sample for head in heads if head), 1)
    for path, head in zip(paths, heads):
        if head and head.sample != first:
            raise ValueError(f"{path}: another sample than in the digests before it")
    if sum(head.pages for head in heads if head) > MOST_PAGES:
        raise ValueError("2^63 pages or more in all")
    return heads


def blocks(file: IO[bytes]) -> Iterator[bytes]:
    """Blocks of whole lines, but for the last one, which may end anywhere."""
    rest = b""
    while data := file.read(BLOCK_BYTES):
        data = rest + data
        cut = data.rfind(b"\n") + 1
        rest = data[cut:]
        if len(rest) > MOST_LINE_BYTES:
            break
        if cut:
            yield data[:cut]
    if rest:
        yield rest
