"""Which host each guest is on. Standard library only."""
from __future__ import annotations

import csv
from collections.abc import Mapping, Sequence

from digests import Head


def listed_hosts(path: str | None) -> dict[str, str] | None:
    """The hosts that a list gives to guests, as a dictionary; None if there is no list."""
    if path is None:
        return None
    with open(path, encoding="ascii", newline="") as file:
        rows = list(csv.reader(file))
    if not rows or rows[0] != ["guest", "host"] or any(len(row) != 2 for row in rows):
        raise ValueError(f"{path}: give a line guest,host and then a guest and its host on each line")
    found = dict(rows[1:])
    if len(found) != len(rows) - 1:
        raise ValueError(f"{path}: give each guest once")
    return found


def host_of(guest: str, listed: Mapping[str, str] | None) -> str:
    """A guest's host: as a list says, and else what comes before the first dot of its name."""
    return (listed or {}).get(guest, guest.split(".")[0])


def host_numbers(heads: Sequence[Head | None], listed: Mapping[str, str] | None) -> list[tuple[int, str]]:
    """The number and the name of each file's host. None if there are fewer than two hosts, or if there is no list and no two guests of
    different names are on one host: then names have dots for another reason, as those of files have."""
    guests = [head.guest for head in heads if head]
    names = [host_of(guest, listed) for guest in guests]
    if len(set(names)) < 2 or (listed is None and len(set(guests)) == len(set(names))):
        return []
    numbers = {name: number for number, name in enumerate(dict.fromkeys(names))}
    # (a digest without lines has no guest and no line, so it doesn't matter which host it gets)
    own = [host_of(head.guest, listed) if head else names[0] for head in heads]
    return [(numbers[name], name) for name in own]
