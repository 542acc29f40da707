"""Guests on hosts: what a placement needs in frames, and which moves and swaps save some. Needs numpy and scipy."""
from __future__ import annotations

import dataclasses
import functools
from collections.abc import Iterable, Iterator, Sequence
from typing import Any

import numpy
from scipy import sparse


@dataclasses.dataclass
class Problem:
    """Units, which are guests that stay together, and hosts. All memory is in pages.

    `has[u, c]` is 1 where unit u has content c. Only contents that at least two units have are there; `own[u]` are the frames of the
    others. `weight[c]` is how many contents c stands for in the sample. `stays[u, h]` are unit u's guests that are on host h now, and
    `start[u]` is the host of most of them.
    """

    has: sparse.csr_matrix
    weight: numpy.ndarray
    own: numpy.ndarray
    pages: numpy.ndarray
    sizes: numpy.ndarray
    memory: numpy.ndarray
    start: numpy.ndarray
    stays: dict[tuple[int, int], int]
    apart: list[list[int]]
    fixed: numpy.ndarray
    spare: float | None
    most_moves: int | None

    def __post_init__(self) -> None:
        self.weighted = self.has.multiply(self.weight).tocsr().astype("f4")
        self.rows = [self.has.indices[a:b] for a, b in zip(self.has.indptr, self.has.indptr[1:])]
        self.rivals: list[set[int]] = [set() for _ in self.own]
        for group in self.apart:
            for unit in group:
                self.rivals[unit] |= set(group) - {unit}

    def moves(self, unit: int, host: int) -> int:
        """How many guests of a unit aren't on this host now."""
        return int(self.sizes[unit]) - self.stays.get((unit, int(host)), 0)

    def limits(self) -> numpy.ndarray:
        """What each host may hold: guests' pages, or with --spare frames."""
        return self.memory - (self.spare or 0)


class Placement:
    """Which host each unit is on, and what follows from it."""

    def __init__(self, problem: Problem, host_of: Sequence[int]) -> None:
        self.problem, self.host_of = problem, numpy.array(host_of)
        units, hosts = len(self.host_of), len(problem.memory)
        on = sparse.csr_matrix((numpy.ones(units), (self.host_of, range(units))), (hosts, units))
        self.counts = (on @ problem.has).toarray().astype("i4")
        self.pages = numpy.bincount(self.host_of, problem.pages, hosts)
        self.own = numpy.bincount(self.host_of, problem.own, hosts)
        self.moved = sum(problem.moves(unit, host) for unit, host in enumerate(self.host_of))

    # (these two cost most of all, and aren't needed to compare placements)
    @functools.cached_property
    def alone(self) -> numpy.ndarray:
        """The frames that its host gets back where each unit leaves, besides its own."""
        return numpy.array([self.freed(unit) for unit in range(len(self.host_of))])

    @functools.cached_property
    def added(self) -> numpy.ndarray:
        """The frames that each unit would add to each host, besides its own."""
        return self.added_to(slice(None))

    def added_to(self, hosts: Any) -> numpy.ndarray:
        return self.problem.weighted @ (self.counts[hosts] == 0).astype("f4").T

    def frames(self) -> Any:
        """The frames that all hosts need."""
        return self.own.sum() + ((self.counts > 0) @ self.problem.weight).sum()

    def freed(self, unit: int) -> Any:
        """The frames that its host gets back where a unit leaves, besides its own."""
        row = self.problem.rows[unit]
        return self.problem.weight[row[self.counts[self.host_of[unit], row] == 1]].sum()

    def moves_left(self) -> float:
        """How many more guests may be moved."""
        most = self.problem.most_moves
        return float("inf") if most is None else most - self.moved

    def cost(self, unit: int, host: int) -> int:
        """How many more guests are moved where a unit goes to a host."""
        return self.problem.moves(unit, host) - self.problem.moves(unit, self.host_of[unit])

    def move(self, unit: int, host: int, is_last: bool = True) -> None:
        """Moves a unit."""
        self.moved += self.cost(unit, host)
        old, row = self.host_of[unit], self.problem.rows[unit]
        for place, sign in ((old, -1), (host, 1)):
            self.counts[place, row] += sign
            self.pages[place] += sign * self.problem.pages[unit]
            self.own[place] += sign * self.problem.own[unit]
        self.host_of[unit] = host
        if is_last:
            self.settle({old, host})

    def settle(self, hosts: Iterable[int]) -> None:
        """Computes anew what depends on these hosts."""
        self.added[:, list(hosts)] = self.added_to(list(hosts))
        for unit in numpy.flatnonzero(numpy.isin(self.host_of, list(hosts))):
            self.alone[unit] = self.freed(unit)

    def swap(self, unit: int, other: int) -> None:
        """Swaps two units."""
        a, b = self.host_of[unit], self.host_of[other]
        self.move(unit, b, False)
        self.move(other, a, False)
        self.settle({a, b})

    def room_left(self) -> numpy.ndarray:
        """The memory that is left of each host: what no guest has, or with --spare what no frame needs."""
        if self.problem.spare is None:
            return self.problem.limits() - self.pages
        return self.problem.limits() - self.own - (self.counts > 0) @ self.problem.weight

    def room_on(self, host: int) -> Any:
        """The same of one host."""
        if self.problem.spare is None:
            return self.problem.limits()[host] - self.pages[host]
        return self.problem.limits()[host] - self.own[host] - self.problem.weight[self.counts[host] > 0].sum()

    def need(self) -> numpy.ndarray:
        """What each unit takes of the room on each host."""
        return self.problem.pages[:, None] if self.problem.spare is None else self.added + self.problem.own[:, None]

    def has_rival(self, unit: int, host: int, but: int = -1) -> bool:
        return any(self.host_of[it] == host and it != but for it in self.problem.rivals[unit])

    def is_sound(self) -> bool:
        """Whether every host has room, no two guests are together that may not be, and no more are moved than may be."""
        apart = all(not self.has_rival(unit, self.host_of[unit]) for unit in range(len(self.host_of)))
        return apart and self.moves_left() >= 0 and bool((self.room_left() >= -1e-6).all())

    def key(self) -> tuple[float, int]:
        """What a placement is compared by: it needs fewer frames, or moves fewer guests for as many."""
        return round(self.frames(), 3), self.moved


def both_have(placement: Placement, unit: int, other: int) -> Any:
    """What a swap saves less than the two moves alone would: of contents that both have, those that only one guest of a host has."""
    problem = placement.problem
    is_other = numpy.zeros(len(problem.weight), bool)
    is_other[problem.rows[other]] = True
    both = problem.rows[unit][is_other[problem.rows[unit]]]
    alone = (placement.counts[placement.host_of[unit], both] == 1).astype(int) + (placement.counts[placement.host_of[other], both] == 1)
    return (problem.weight[both] * alone).sum()


def best_moves(placement: Placement) -> Iterator[tuple[float, int, int]]:
    """The moves of a unit that save frames and that hold, the best first."""
    problem = placement.problem
    saved = placement.alone[:, None] - placement.added
    is_open = (placement.need() <= placement.room_left()[None, :] + 1e-6) & (saved > 1e-6) & ~problem.fixed[:, None]
    is_open[range(len(placement.host_of)), placement.host_of] = False
    found = numpy.argwhere(is_open)
    for unit, host in found[numpy.argsort(-saved[is_open], kind="stable")][:1000]:
        if not placement.has_rival(unit, host) and placement.cost(unit, host) <= placement.moves_left():
            yield saved[unit, host], unit, host


def best_swaps(placement: Placement, count: int) -> list[tuple[float, int, int]]:
    """The swaps of two units that may save frames, with a bound of what each saves, the best first: for each unit and host the best unit
    there."""
    problem, host_of = placement.problem, placement.host_of
    movable = numpy.flatnonzero(~problem.fixed)
    back = placement.alone[:, None] - placement.added
    order = movable[numpy.argsort(host_of[movable], kind="stable")]
    starts = numpy.flatnonzero(numpy.r_[True, numpy.diff(host_of[order]) > 0])
    most = numpy.full((len(problem.memory), len(problem.memory)), -numpy.inf, "f4")
    if len(order):
        most[host_of[order[starts]]] = numpy.maximum.reduceat(back[order], starts)
    bound = back + most.T[host_of]
    bound[range(len(host_of)), host_of] = -numpy.inf
    bound[problem.fixed] = -numpy.inf
    flat = numpy.argpartition(-bound, min(count, bound.size - 1), axis=None)[:count]
    flat = flat[numpy.argsort(-bound.ravel()[flat], kind="stable")]
    return [(bound.flat[it], it // bound.shape[1], it % bound.shape[1]) for it in flat if bound.flat[it] > 1e-6]


def swap_holds(placement: Placement, unit: int, other: int) -> bool:
    """Whether two units may be swapped: hosts keep room, and nobody meets a rival."""
    a, b = placement.host_of[unit], placement.host_of[other]
    if placement.problem.fixed[other] or placement.has_rival(unit, b, other) or placement.has_rival(other, a, unit):
        return False
    if placement.cost(unit, b) + placement.cost(other, a) > placement.moves_left():
        return False
    # (with --spare, what both have and only one guest of a host has isn't given back)
    kept = 0 if placement.problem.spare is None else both_have(placement, unit, other)
    return bool(takes_place(placement, unit, other, kept) and takes_place(placement, other, unit, kept))


def takes_place(placement: Placement, unit: int, other: int, kept: float) -> Any:
    """Whether a unit has room on another one's host once that one leaves."""
    problem, host = placement.problem, placement.host_of[other]
    if problem.spare is None:
        return problem.pages[unit] <= placement.room_on(host) + problem.pages[other] + 1e-6
    need = placement.added[unit, host] + problem.own[unit] + kept
    return need <= placement.room_on(host) + placement.alone[other] + problem.own[other] + 1e-6


def best_partner(placement: Placement, unit: int, host: int) -> tuple[float, int] | None:
    """The unit on a host whose swap with this one saves most, and how much; None if no swap holds."""
    others = numpy.flatnonzero(placement.host_of == host)
    back = placement.alone[others] - placement.added[others, placement.host_of[unit]]
    gains = placement.alone[unit] - placement.added[unit, host] + back
    best: tuple[float, int] | None = None
    for at in numpy.argsort(-gains, kind="stable"):
        if gains[at] <= (best[0] if best else 1e-6):
            break
        if swap_holds(placement, unit, others[at]):
            gain = gains[at] - both_have(placement, unit, others[at])
            if best is None or gain > best[0]:
                best = gain, int(others[at])
    return best
