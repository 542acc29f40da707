"""All placements of a very small fleet that moves lead to, one after the other. Needs numpy."""
from __future__ import annotations

import functools
from collections.abc import Callable, Container, Iterable, Iterator, Sequence
from typing import TYPE_CHECKING

import numpy

if TYPE_CHECKING:
    from guests import Guests

MOST = 5000
# The host of each guest.
Place = tuple[int, ...]


class Reachable:
    """The placements that moves of one guest at a time lead to, so that no host is ever over its limit of frames."""

    def __init__(self, guests: Guests, start: Iterable[int], limits: Sequence[float], rivals: Sequence[set[int]]) -> None:
        self.guests, self.limits, self.rivals = guests, limits, rivals
        self.start = tuple(int(host) for host in start)
        self.frames_of = functools.lru_cache(None)(self.frames_of_subset)

    def frames_of_subset(self, members: tuple[int, ...]) -> float:
        """The frames of some guests on one host."""
        if not members:
            return 0.0
        inside = list(members)
        held = numpy.asarray(self.guests.copies[inside].sum(axis=0)).ravel() > 0
        return float(self.guests.own_frames[inside].sum() + self.guests.weight[held].sum())

    def on(self, place: Place, host: int) -> tuple[int, ...]:
        return tuple(guest for guest, own in enumerate(place) if own == host)

    def frames(self, place: Place) -> float:
        return sum(self.frames_of(self.on(place, host)) for host in set(place))

    def steps(self, place: Place, fixed: Container[int]) -> Iterator[tuple[Place, tuple[int, int]]]:
        """The placements one move away."""
        for guest in range(len(place)):
            if guest in fixed:
                continue
            for host in range(len(self.limits)):
                if host == place[guest] or any(place[other] == host for other in self.rivals[guest]):
                    continue
                after = (*place[:guest], host, *place[guest + 1 :])
                if self.frames_of(self.on(after, host)) <= self.limits[host] + 1e-6:
                    yield after, (guest, host)

    def best(self, holds: Callable[[Place], bool], fixed: Container[int]) -> tuple[numpy.ndarray, list[tuple[int, int]]] | None:
        """The placement that holds with the fewest frames, and then the fewest moves, and the moves to it; None if there is none."""
        came: dict[Place, tuple[Place, tuple[int, int]] | None] = {self.start: None}
        order = [self.start]
        for place in order:
            for after, move in self.steps(place, fixed):
                if after not in came:
                    came[after] = (place, move)
                    order.append(after)
        sound = [place for place in order if holds(place)]
        if not sound:
            return None
        found = min(sound, key=lambda place: (round(self.frames(place), 3), sum(a != b for a, b in zip(place, self.start))))
        moves: list[tuple[int, int]] = []
        step = came[found]
        while step:
            place, move = step
            moves.append(move)
            step = came[place]
        return numpy.array(found), moves[::-1]
