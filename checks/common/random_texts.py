"""Random journals and scripts, for the checks of texts. Each follows from the generator that is handed in."""
from __future__ import annotations

import random
from collections.abc import Iterable, Sequence

from common.most import ENTRIES, RING


def content(rng: random.Random) -> tuple[int, bytes]:
    """The place and bytes of a store: mostly of few kinds, so that pages come to be equal."""
    if rng.random() < 0.85:
        return 0, bytes([rng.choice(b"\x00AB")])
    data = rng.choice([rng.randbytes(rng.choice([1, 2, 8, 63, 64])), bytes(64), b"A" * 64])
    return rng.choice([0, 1, 4096 - len(data), rng.randint(0, 4096 - len(data))]), data


def request(rng: random.Random, pages: Sequence[int]) -> str:
    """A request of any guest, now and then of a page that isn't there."""
    guest = rng.randrange(len(pages))
    ppn = rng.randrange(pages[guest] + (rng.random() < 0.05))
    kind = rng.choices(["propose", "store", "load", "release", "count"], [40, 40, 10, 8, 2])[0]
    if kind == "store":
        at, data = content(rng)
        return f"{guest} store {ppn} {at} {data.hex()}"
    if kind == "load":
        length = rng.choice([1, 2, 64, rng.randint(1, 64)])
        return f"{guest} load {ppn} {rng.choice([0, rng.randint(0, 4096 - length)])} {length}"
    return f"{guest} count" if kind == "count" else f"{guest} {kind} {ppn}"


def shape(rng: random.Random) -> tuple[int, list[int], list[int]]:
    """Frames, pages and salts: sometimes fewer frames than pages, often equal salts."""
    pages = [rng.randint(1, 6) for _ in range(rng.choice([1, 2, 2, 3, 5, 64 if rng.random() < 0.1 else 4]))]
    salts = [rng.choice([0, 0, 7, 4294967295]) for _ in pages]
    return rng.randint((sum(pages) + 1) // 2, sum(pages)), pages, salts


def header(kind: str, salted: bool, frames: int, pages: Iterable[int], salts: Iterable[int]) -> list[str]:
    """The first lines of a text."""
    lines = [f"pageshare {kind} {2 if salted else 1}", f"frames {frames}", "pages " + " ".join(map(str, pages))]
    return [*lines, "salts " + " ".join(map(str, salts))] if salted else lines


def text_of(lines: Iterable[str], requests: Sequence[str]) -> str:
    """A whole text of its first lines and its requests."""
    return "\n".join([*lines, *requests, f"end {len(requests)}"]) + "\n"


def journal(rng: random.Random) -> str:
    """A journal, in either version."""
    frames, pages, salts = shape(rng)
    lines = header("journal", rng.random() < 0.3, frames, pages, salts)
    return text_of(lines, [request(rng, pages) for _ in range(rng.choice([0, 10, 100, 300]))])


def scan(rng: random.Random, pages: Sequence[int]) -> tuple[str, int]:
    """A line that stands for several proposals, and how many."""
    guest, count = rng.randrange(len(pages)), rng.choice([1, 2, 5, 20])
    order = "sequential" if rng.random() < 0.5 else f"random {rng.choice([0, 7, 2**64 - 1, rng.getrandbits(64)])}"
    return f"{guest} scan {order} {count}", count


def script(rng: random.Random, most: int = 300) -> tuple[str, int]:
    """A script that its machine has room for, with the number of its requests, closes among them."""
    frames, pages, salts = shape(rng)
    lines, total = [], len(pages)
    for _ in range(rng.choice([0, 10, 100, most])):
        line, count = scan(rng, pages) if rng.random() < 0.1 else (request(rng, pages), 1)
        lines.append(line)
        total += count
    ring = rng.choice([1, 1, 2, 3, 8, 64, RING if len(pages) < 6 else 64])
    room = total if rng.random() < 0.5 else min(ENTRIES, total + rng.randrange(1000))
    head = header("script", rng.random() < 0.3, frames, pages, salts)
    return text_of([*head, f"ring {ring}", f"journal {room}"], lines), total
