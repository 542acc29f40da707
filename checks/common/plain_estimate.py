"""Numbers of an estimate counted plainly, for the checks: by hashes of whole pages, sets and dictionaries. Standard library only."""
from __future__ import annotations

import collections
import hashlib
from collections.abc import Iterator, Mapping, Sequence
from typing import Any

from common.plain_fleet import PAGE, ZEROS

# The pages of each image, and a content: its salt with the hash of its bytes.
Images = Sequence[Sequence[bytes]]
Key = tuple[int, bytes]


def parts_of(images: Images, salts: Sequence[int], keys: Sequence[Sequence[Key]]) -> dict[str, int]:
    """What could be reclaimed, in parts: zeros, and of the other contents what sharing between and within guests reclaims."""
    others = [{key for key, page in zip(own, pages) if page != ZEROS} for own, pages in zip(keys, images)]
    zeros = [salt for salt, pages in zip(salts, images) for page in pages if page == ZEROS]
    return {
        "zeros": len(zeros) - len(set(zeros)), "between": sum(map(len, others)) - len(set().union(*others)),
        "within": sum(page != ZEROS for pages in images for page in pages) - sum(map(len, others)),
    }


def guest_of(name: str, salt: int, pages: Sequence[bytes], own: Sequence[Key], copies: Mapping[Key, int]) -> dict[str, Any]:
    """The numbers of one guest, by its pages, their keys, and how many copies all images have of each key."""
    return {
        "image": name, "salt": salt, "pages": len(own), "zero": sum(page == ZEROS for page in pages),
        "distinct": len(set(own)), "shared": sum(copies[key] > 1 for key in own), "alone": len(own) - len(set(own)),
    }


def classes_of(copies: Mapping[Key, int]) -> Iterator[dict[str, int]]:
    """The classes 1, 2, 3 to 4, 5 to 8 and so on that have contents."""
    for number in range(33):
        low, high = 2**number // 2 + 1, min(2**number, 2**32 - 1)
        inside = [n for n in copies.values() if low <= n <= high]
        if inside:
            yield {"from": low, "to": high, "contents": len(inside), "pages": sum(inside)}


def counted(names: Sequence[str], salts: Sequence[int], images: Images) -> dict[str, Any]:
    """What `--json` is to print of the pages of some images."""
    keys = [[(salt, hashlib.sha256(page).digest()) for page in pages] for salt, pages in zip(salts, images)]
    everything = [key for own in keys for key in own]
    copies = collections.Counter(everything)
    guests = [guest_of(*of, copies) for of in zip(names, salts, images, keys)]
    zero = sum(guest["zero"] for guest in guests)
    zero_salts = {guest["salt"] for guest in guests if guest["zero"]}
    reclaimed = len(everything) - len(copies)
    total = {
        "pages": len(everything), "zero": zero, "shared": sum(copies[key] > 1 for key in everything),
        "frames": len(copies), "reclaimed": reclaimed, "zero_reclaimed": zero - len(zero_salts),
        "between": reclaimed - sum(guest["alone"] for guest in guests), "parts": parts_of(images, salts, keys),
    }
    return {"page_bytes": PAGE, "guests": guests, "total": total, "copies": list(classes_of(copies))}
