"""Images of memory that the cases of estimates and digests write."""
from __future__ import annotations

import pathlib
import struct
from collections.abc import Iterable, Sequence

PAGE = 4096


def core(change: Iterable[tuple[int, bytes]] = (), segment: tuple[int, int] = (0, PAGE), size: int = 2 * PAGE) -> bytes:
    """An ELF core of so many bytes with one segment to load, of which some bytes are others: places and what stands there."""
    head = b"\x7fELF" + bytes([2, 1, 1]) + bytes(9)
    head += struct.pack("<HHIQQQIHHHHHH", 4, 62, 1, 0, 64, 0, 0, 64, 56, 1, 64, 0, 0)
    data = bytearray((head + struct.pack("<IIQQQQQQ", 1, 4, segment[0], 0, 0, segment[1], 0, 1)).ljust(size, b"\0"))
    for at, new in change:
        data[at : at + len(new)] = new
    return bytes(data)


def number(at: int, size: int, value: int) -> list[tuple[int, bytes]]:
    """A number of so many bytes at a place of a core."""
    return [(at, value.to_bytes(size, "little"))]


MOST = 2**64 - 1
# Where an ELF header has the place of the program headers, that of the section headers, and how many program headers there are; and where the
# first program header has its segment's place and size.
PROGRAM_HEADERS, SECTION_HEADERS, COUNT, OFFSET, SIZE = 32, 40, 56, 72, 96
# How many there are is in section header 0 instead.
MANY = [*number(COUNT, 2, 0xFFFF), *number(58, 2, 64)]

# An image, and what is said of it.
IMAGE_FAULTS = [
    (core()[:63], "the ELF header isn't whole within the file"),
    (b"\x7fELF", "the ELF header isn't whole within the file"),
    (core([(4, b"\1")]), "the ELF file isn't of 64 bits"),
    (core([(5, b"\2")]), "the ELF file isn't little-endian"),
    (core([(16, b"\2\0")]), "the ELF file is no core"),
    (core([(54, b"\x20\0")]), "the ELF file's program headers aren't of 56 bytes"),
    (core([(56, b"\xff\xff")]), "section header 0 isn't whole within the file"),
    (core()[:119], "a program header isn't whole within the file"),
    (core([(56, b"\xff\0")]), "a program header isn't whole within the file"),
    (core(segment=(PAGE + 1, PAGE)), "a segment isn't whole within the file"),
    *[(core()[:length], "the ELF header isn't whole within the file") for length in range(5, 63)],
    # (the last number that isn't right, and the greatest one)
    *[(core(number(PROGRAM_HEADERS, 8, at)), "a program header isn't whole within the file") for at in (2 * PAGE - 55, MOST)],
    (core(number(COUNT, 2, 146)), "a program header isn't whole within the file"),
    *[(core(number(OFFSET, 8, at)), "a segment isn't whole within the file") for at in (PAGE + 1, MOST)],
    *[(core(number(SIZE, 8, size)), "a segment isn't whole within the file") for size in (2 * PAGE + 1, MOST)],
    *[(core([*MANY, *number(SECTION_HEADERS, 8, at)]), "section header 0 isn't whole within the file") for at in (0, 2 * PAGE - 63, MOST)],
    (core([*MANY, *number(58, 2, 63), *number(SECTION_HEADERS, 8, 256)]), "section header 0 isn't whole within the file"),
]

# A file whose bytes show their place, as a core with these segments: each a kind, its place, its size in the file, and that in memory.
Segment = tuple[int, int, int, int]


def core_of(size: int, segments: Sequence[Segment], sections: int | None = None) -> bytes:
    """A core of so many bytes. With `sections` the number of its program headers is in section header 0, which is there."""
    data = bytearray(at * at % 251 for at in range(size))
    data[:64] = core([(COUNT, len(segments).to_bytes(2, "little"))])[:64]
    for at, (kind, offset, length, memory) in enumerate(segments):
        data[64 + 56 * at : 120 + 56 * at] = struct.pack("<IIQQQQQQ", kind, 4, offset, 0, 0, length, memory, 1)
    if sections is not None:
        data[sections : sections + 64] = bytes(44) + len(segments).to_bytes(4, "little") + bytes(16)
        for place, new in [*MANY, *number(SECTION_HEADERS, 8, sections)]:
            data[place : place + len(new)] = new
    return bytes(data)


def pages_at(data: bytes, places: Iterable[tuple[int, int]]) -> list[bytes]:
    """The pages that these parts of a file are, each filled up with zeros."""
    return [data[at : at + size].ljust(PAGE, b"\0") for at, size in places]


# A core, and the parts of the file that its pages are, worked out by hand: segments out of order with holes between them, one that overlaps
# another, one of no bytes, a note, and one that is longer in memory; none; and section header 0 with the number of program headers.
CORES: list[tuple[bytes, list[tuple[int, int]]]] = [
    (core_of(14384, [(1, 10000, 4097, 4097), (4, 512, 100, 0), (1, 500, 0, 0), (1, 600, 4096, 4096), (1, 1000, 10, 8192), (1, 14000, 384, 384)]),
     [(10000, 4096), (14096, 1), (600, 4096), (1000, 10), (14000, 384)]),
    (core_of(64, []), []),
    (core_of(1000, [(1, 400, 20, 20), (1, 500, 30, 30)], 256), [(400, 20), (500, 30)]),
    (core_of(1000, [(1, 400, 20, 20), (1, 500, 30, 30)], 936), [(400, 20), (500, 30)]),
]


def image(guest: int, zeros: int, own: int, both: int, alone: int) -> bytes:
    """A raw image: pages of zeros, copies of one page of the guest's own, pages that both guests have, and pages that are alone."""
    firsts = [0] * zeros + [1 + guest] * own + list(range(100, 100 + both))
    firsts += range(10**6 * (1 + guest), 10**6 * (1 + guest) + alone)
    return b"".join(first.to_bytes(PAGE, "little") for first in firsts)


def distinct(path: pathlib.Path, count: int) -> str:
    """Writes a raw image of so many pages, all of other contents; returns its path as a word."""
    with open(path, "wb") as file:
        for n in range(count):
            file.seek(PAGE * n)
            file.write(n.to_bytes(4, "little"))
        file.truncate(PAGE * count)
    return str(path)


def sparse(path: pathlib.Path, size: int) -> str:
    """A file of zeros, of so many bytes, that takes no room; returns its path as a word."""
    with open(path, "wb") as file:
        file.truncate(size)
    return str(path)
