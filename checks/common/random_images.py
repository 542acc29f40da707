"""Random images of memory, for the checks of estimates and digests. Each follows from the generator that is handed in."""
from __future__ import annotations

import random
import struct
from collections.abc import Sequence

from common.plain_fleet import PAGE, ZEROS


def random_pages(draw: random.Random, pool: Sequence[bytes], most: int) -> list[bytes]:
    """Some pages: zeros, pages that others may have, and pages of one byte each that differ in the middle alone."""
    pages = []
    for _ in range(draw.randrange(most)):
        kind = draw.randrange(5)
        if kind == 0:
            pages.append(ZEROS)
        elif kind < 3:
            pages.append(draw.choice(pool))
        elif kind == 3:
            pages.append(draw.randbytes(PAGE))
        else:
            page = bytearray([7] * PAGE)
            page[draw.randrange(2000, 2004)] = draw.randrange(3)
            pages.append(bytes(page))
    return pages


def raw_file(draw: random.Random, pool: Sequence[bytes]) -> bytes:
    """A raw image, of which the last page may be cut."""
    data = b"".join(random_pages(draw, pool, 12))
    cut = draw.randrange(PAGE) if data and draw.randrange(3) == 0 else 0
    return data[: len(data) - cut]


def core_file(draw: random.Random, pool: Sequence[bytes]) -> bytes:
    """An ELF core of a few segments, in any order, with notes and holes among them."""
    count = draw.randrange(5)
    in_section = draw.randrange(4) == 0
    headers, body = [], b""
    begin = 64 + 56 * count + (64 if in_section else 0)
    for _ in range(count):
        data = raw_file(draw, pool)[: draw.randrange(1, 6 * PAGE)]
        body += draw.randbytes(draw.randrange(100))
        kind = 4 if draw.randrange(5) == 0 else 1
        memory = draw.choice([len(data), len(data) + 5 * PAGE, 0])
        headers.append(struct.pack("<IIQQQQQQ", kind, 4, begin + len(body), 0, 0, len(data), memory, 1))
        body += data
    draw.shuffle(headers)
    sections = 64 + 56 * count if in_section else 0
    ident = b"\x7fELF" + bytes([2, 1, 1]) + bytes(9)
    head = ident + struct.pack(
        "<HHIQQQIHHHHHH", 4, 62, 1, 0, 64, sections, 0, 64, 56, 0xFFFF if in_section else count, 64, 1 if in_section else 0, 0
    )
    section = struct.pack("<IIQQQQIIQQ", 0, 0, 0, 0, 0, 0, 0, count, 0, 0) if in_section else b""
    return head + b"".join(headers) + section + body


def random_image(draw: random.Random, pool: Sequence[bytes]) -> bytes:
    """An image of any kind, the empty one among them."""
    kind = draw.randrange(8)
    if kind == 0:
        return b""
    return core_file(draw, pool) if kind < 4 else raw_file(draw, pool)
