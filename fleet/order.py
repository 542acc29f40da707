"""The order of the moves of a plan. Needs numpy."""
from __future__ import annotations

import heapq
from collections.abc import Iterable, Sequence
from typing import TYPE_CHECKING

import numpy

if TYPE_CHECKING:
    from guests import Guests


class NoOrder(ValueError):
    """No order of the moves was found."""


class Frames:
    """The frames that each host needs, while guests move."""

    def __init__(self, guests: Guests, host_of: Sequence[int]) -> None:
        self.guests, self.host_of = guests, numpy.array(host_of)
        self.was = -1  # (where the guest was that was moved last)
        self.rows = [guests.copies.indices[a:b] for a, b in zip(guests.copies.indptr, guests.copies.indptr[1:])]
        self.counts = numpy.zeros((int(self.host_of.max(initial=0)) + 1, len(guests.weight)), "i4")
        self.frames = numpy.zeros(len(self.counts))
        for guest, host in enumerate(self.host_of):
            self.put(guest, host)

    def grow(self, host: int) -> None:
        more = host + 1 - len(self.counts)
        if more > 0:
            self.counts = numpy.vstack([self.counts, numpy.zeros((more, self.counts.shape[1]), "i4")])
            self.frames = numpy.r_[self.frames, numpy.zeros(more)]

    def brings(self, guest: int, host: int) -> float:
        """The frames that a guest needs on a host that hasn't got it."""
        self.grow(host)
        row = self.rows[guest]
        return float(self.guests.own_frames[guest] + self.guests.weight[row[self.counts[host, row] == 0]].sum())

    def put(self, guest: int, host: int) -> None:
        self.frames[host] += self.brings(guest, host)
        self.counts[host, self.rows[guest]] += 1

    def frees(self, guest: int) -> float:
        """The frames that the guest's host gets back if it leaves."""
        row = self.rows[guest]
        return float(self.guests.own_frames[guest] + self.guests.weight[row[self.counts[self.host_of[guest], row] == 1]].sum())

    def move(self, guest: int, host: int) -> float:
        """Moves a guest, and returns how many frames that reclaims."""
        self.was, freed = self.host_of[guest], self.frees(guest)
        self.counts[self.was, self.rows[guest]] -= 1
        self.frames[self.was] -= freed
        before = self.frames[host] if host < len(self.frames) else 0
        self.put(guest, host)
        self.host_of[guest] = host
        return float(freed - (self.frames[host] - before))

    def total(self) -> float:
        return float(self.frames.sum())


def rivals_of(groups: Iterable[Iterable[int]], count: int) -> list[set[int]]:
    """The guests that may not be with each guest."""
    rivals: list[set[int]] = [set() for _ in range(count)]
    for group in groups:
        for guest in group:
            rivals[guest] |= set(group) - {guest}
    return rivals


def ordered(
    guests: Guests, start: Sequence[int], target: Sequence[int], limits: Sequence[float], apart: Iterable[Iterable[int]],
) -> list[tuple[int, int]]:
    """The moves from one placement to another, as pairs of a guest and a host: those that reclaim most come first, as far as they are
    known when each is made. No move takes a host above its limit of frames, or puts a guest beside one that it may not be with. Where
    nothing else is possible a guest goes to a third host for a time."""
    frames, rivals, moves = Frames(guests, start), rivals_of(apart, len(start)), []
    waiting = {guest for guest in range(len(start)) if start[guest] != target[guest]}
    # (a gain that is no longer right is found when its turn comes)
    gains = [(-gain_of(frames, guest, int(target[guest])), guest) for guest in waiting]
    heapq.heapify(gains)
    while waiting:
        step = next_step(frames, gains, waiting, target, limits, rivals) or detour(frames, waiting, target, limits, rivals)
        if step is None:
            raise NoOrder("no order of the moves was found in which no host is over its memory: free memory on some host")
        guest, host = step
        frames.move(guest, host)
        moves.append((guest, host))
        if host == target[guest]:
            waiting.discard(guest)
    return moves


def gain_of(frames: Frames, guest: int, host: int) -> float:
    return frames.frees(guest) - frames.brings(guest, host)


def next_step(
    frames: Frames, gains: list[tuple[float, int]], waiting: set[int], target: Sequence[int], limits: Sequence[float],
    rivals: Sequence[set[int]],
) -> tuple[int, int] | None:
    """The move to a guest's target that fits and is known to reclaim most."""
    late = []
    found = None
    while gains and found is None:
        known, guest = heapq.heappop(gains)
        if guest not in waiting:
            continue
        host = int(target[guest])
        now = -gain_of(frames, guest, host)
        if now > known + 1e-6:
            heapq.heappush(gains, (now, guest))
        elif fits(frames, guest, host, limits, rivals):
            found = guest, host
        else:
            late.append((now, guest))
    for one in late:
        heapq.heappush(gains, one)
    return found


def fits(frames: Frames, guest: int, host: int, limits: Sequence[float], rivals: Sequence[set[int]]) -> bool:
    meets = any(frames.host_of[other] == host for other in rivals[guest])
    frames.grow(host)
    return not meets and frames.frames[host] + frames.brings(guest, host) <= limits[host] + 1e-6


def detour(
    frames: Frames, waiting: set[int], target: Sequence[int], limits: Sequence[float], rivals: Sequence[set[int]],
) -> tuple[int, int] | None:
    """A move of a waiting guest to a third host, from a host that another one waits for."""
    wanted = {int(target[guest]) for guest in waiting}
    for guest in sorted(waiting):
        if int(frames.host_of[guest]) in wanted:
            for host in range(len(limits)):
                if host not in (frames.host_of[guest], target[guest]) and fits(frames, guest, host, limits, rivals):
                    return guest, host
    return None
