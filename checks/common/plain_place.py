"""Placements of guests on hosts, counted plainly, for the checks of fleet/place.py. Standard library only."""
from __future__ import annotations

import itertools
from collections.abc import Iterable, Iterator, Mapping, Sequence


from common import plain_fleet

# On which host each guest is.
Place = dict[str, str]


class Fleet:
    """The contents and pages of guests, by their digests' texts; and the hosts' memory in pages."""

    def __init__(self, texts: Iterable[str], hosts: Sequence[str], memory: Mapping[str, int]) -> None:
        self.rows = {rows[0][0]: rows for rows in map(plain_fleet.rows_of, texts) if rows}
        self.zeros = {plain_fleet.digest(rows[0][1], plain_fleet.ZEROS) for rows in self.rows.values()}
        self.sample = next(iter(self.rows.values()))[0][3]
        self.hosts, self.memory = hosts, memory

    def frames_on(self, names: Iterable[str]) -> int:
        """The frames that these guests need on one host."""
        words = {row[4] for name in names for row in self.rows[name]}
        return sum(1 if word in self.zeros else self.sample for word in words)

    def on(self, place: Place, host: str) -> list[str]:
        return [name for name, own in place.items() if own == host]

    def frames(self, place: Place) -> int:
        return sum(self.frames_on(self.on(place, host)) for host in set(place.values()))

    def has_room(self, place: Place, spare: int | None = None) -> bool:
        """Whether each host has memory for its guests, or with `spare` for their frames and so many pages more."""
        for host in self.hosts:
            names = self.on(place, host)
            taken = sum(self.rows[name][0][2] for name in names) if spare is None else self.frames_on(names) + spare
            if names and taken > self.memory[host]:
                return False
        return True

    def moves(self, place: Place) -> Iterator[Place]:
        """The placements that one move of a guest leads to."""
        return ({**place, name: host} for name, host in itertools.product(place, self.hosts))


def order_faults(fleet: Fleet, start: Place, found: plain_fleet.Numbers, spare: int = 0) -> Iterator[str]:
    """What is wrong with the order of a plan's moves, and with what each reclaims."""
    place = dict(start)
    for move in found["moves"]:
        if place[move["guest"]] != move["from"]:
            yield f"{move} doesn't begin where the guest is"
        before = fleet.frames(place)
        place[move["guest"]] = move["to"]
        if before - fleet.frames(place) != move["reclaimed"]:
            yield f"{move} reclaims {before - fleet.frames(place)}"
        if fleet.frames_on(fleet.on(place, move["to"])) + spare > fleet.memory[move["to"]]:
            yield f"{move} takes the host over its memory"
    if place != {one["guest"]: one["host"] for one in found["guests"]}:
        yield "the moves don't lead to the plan"
