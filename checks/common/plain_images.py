"""Images of memory read plainly, for the checks of estimates and digests: by their bytes and the fields of ELF alone."""
from __future__ import annotations

import struct

from common.plain_fleet import PAGE


def pages_of_bytes(data: bytes) -> list[bytes]:
    """The pages of some bytes, the last one filled up with zeros."""
    cut = [data[at : at + PAGE] for at in range(0, len(data), PAGE)]
    return [part.ljust(PAGE, b"\0") for part in cut]


def pages_of_image(data: bytes, is_raw: bool) -> list[bytes]:
    """The pages of an image, read from its bytes alone."""
    if is_raw or data[:4] != b"\x7fELF":
        return pages_of_bytes(data)
    (table, sections) = struct.unpack_from("<QQ", data, 32)
    (count,) = struct.unpack_from("<H", data, 56)
    if count == 0xFFFF:
        (count,) = struct.unpack_from("<I", data, sections + 44)
    pages = []
    for n in range(count):
        kind, _, offset, _, _, size, _, _ = struct.unpack_from("<IIQQQQQQ", data, table + 56 * n)
        if kind == 1:
            pages += pages_of_bytes(data[offset : offset + size])
    return pages
