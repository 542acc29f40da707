"""A search for a placement that needs few frames. Needs numpy and scipy."""
from __future__ import annotations

import copy
import dataclasses
from collections.abc import Callable, Iterable
from typing import Any

import numpy
from scipy import optimize, sparse

import greedy
from placing import Placement, Problem, best_moves, best_partner, best_swaps

# Whether time is over; and a generator of random numbers.
Late = Callable[[], bool]
Draw = Any


def part_of(whole: Problem, hosts: numpy.ndarray, host_of: numpy.ndarray) -> tuple[Problem, numpy.ndarray]:
    """The problem of these hosts and the units on them, with the hosts in this order; and the units."""
    place = {int(host): number for number, host in enumerate(hosts)}
    units = numpy.flatnonzero(numpy.isin(host_of, hosts))
    number = {int(unit): at for at, unit in enumerate(units)}
    has = whole.has[units]
    holders = numpy.bincount(has.indices, minlength=has.shape[1])
    common = numpy.flatnonzero(holders > 1)
    return Problem(
        has=has[:, common], weight=whole.weight[common], own=whole.own[units] + has @ (whole.weight * (holders == 1)),
        pages=whole.pages[units], sizes=whole.sizes[units], memory=whole.memory[hosts], stays={},
        start=numpy.array([place[int(host)] for host in host_of[units]]),
        apart=[[number[unit] for unit in group if unit in number] for group in whole.apart],
        fixed=whole.fixed[units], spare=whole.spare, most_moves=None,
    ), units


def copied(placement: Placement) -> Placement:
    """The same placement, apart from this one."""
    other = copy.copy(placement)
    other.__dict__.update((name, value.copy()) for name, value in vars(placement).items() if isinstance(value, numpy.ndarray))
    return other


def apply_moves(placement: Placement) -> float:
    """Makes the best moves, each of hosts that no other touched. Returns what they saved."""
    touched: set[int] = set()
    saved = 0.0
    for gain, unit, host in best_moves(placement):
        hosts = {placement.host_of[unit], host}
        if not hosts & touched and placement.cost(unit, host) <= placement.moves_left():
            placement.move(unit, host)
            touched |= hosts
            saved += gain
    return saved


def apply_swaps(placement: Placement, count: int = 2000) -> float:
    """Makes the best swaps, each of hosts that no other touched. Returns what they saved."""
    touched: set[int] = set()
    saved = 0.0
    for _bound, unit, host in best_swaps(placement, count):
        if {placement.host_of[unit], host} & touched:
            continue
        found = best_partner(placement, unit, host)
        if found and found[0] > 1e-6:
            hosts = {placement.host_of[unit], host}
            placement.swap(unit, found[1])
            touched |= hosts
            saved += found[0]
    return saved


def improve(placement: Placement, is_late: Late) -> None:
    """Moves and swaps units as long as that saves frames and time is left."""
    while not is_late():
        if apply_moves(placement) + apply_swaps(placement) < 1e-6:
            return


def take_steps(placement: Placement, is_late: Late, draw: Draw) -> None:
    """Makes the best moves and swaps as fleet/place.py does, some of them taken for less than they are, until none is left or time is over."""
    while not is_late() and greedy.take_best(placement, lambda: float(draw.uniform(0.8, 1))):
        pass


def take_back(placement: Placement, draw: Draw) -> bool:
    """Takes back a move, and then others as long as a host has no room. Returns whether that leads to a placement that holds."""
    problem = placement.problem
    moved = numpy.flatnonzero(placement.host_of != problem.start)
    unit = int(draw.choice(moved)) if len(moved) else None
    while unit is not None:
        placement.move(unit, problem.start[unit])
        over = numpy.flatnonzero(placement.room_left() < -1e-6)
        back = numpy.flatnonzero((placement.host_of != problem.start) & numpy.isin(placement.host_of, over))
        unit = int(draw.choice(back)) if len(back) else None
    return placement.is_sound()


def rechoose(best: Placement, is_late: Late, draw: Draw, most_failed: int = 300) -> Placement:
    """Takes back some moves of a placement and chooses others, until time is over or many tries were no better."""
    failed = 0
    while not is_late() and failed < most_failed:
        other = copied(best)
        if all(take_back(other, draw) for _ in range(int(draw.integers(1, 5)))):
            take_steps(other, is_late, draw)
        is_better = other.is_sound() and other.key() < best.key()
        best, failed = (other, 0) if is_better else (best, failed + 1)
    return best


def fill(problem: Problem, draw: Draw | None = None) -> numpy.ndarray | None:
    """A placement from nothing: host after host is filled with the unit that brings least that is new. None where a unit finds no room.
    With `draw` units come first, and are taken for better, at random."""
    host_of = numpy.where(problem.fixed, problem.start, -1)
    units_of = problem.has.T.tocsr()
    new = numpy.asarray(problem.weighted.sum(axis=1)).ravel().astype("f8")
    order = sorted(range(len(problem.memory)), key=lambda host: (-(host_of == host).sum(), -problem.memory[host], host))
    for host in order:
        fill_host(problem, units_of, host_of, new.copy(), host, draw)
    return host_of if (host_of >= 0).all() else None


def fill_host(
    problem: Problem, units_of: sparse.csr_matrix, host_of: numpy.ndarray, new: numpy.ndarray, host: int, draw: Draw | None,
) -> None:
    """Fills a host with units that have no host yet."""
    covered = numpy.zeros(len(problem.weight), bool)
    taken, inside = 0.0, list(numpy.flatnonzero(host_of == host))
    barred = set().union(*(problem.rivals[unit] for unit in inside)) if inside else set()
    waiting = list(inside)
    whole = new.copy() if draw is None else new * draw.uniform(0.8, 1, len(new))
    while True:
        for unit in waiting:
            row = problem.rows[unit]
            fresh = row[~covered[row]]
            taken += problem.pages[unit] if problem.spare is None else problem.own[unit] + problem.weight[fresh].sum()
            covered[fresh] = True
            new -= held_by_units(units_of, fresh, problem.weight)
        need = problem.pages if problem.spare is None else problem.own + new
        is_open = (host_of < 0) & (taken + need <= problem.limits()[host] + 1e-6)
        is_open[list(barred)] = False
        if not is_open.any():
            return
        # The first unit is the one with most to share; each other one brings the smallest part that is new.
        score = numpy.where(is_open, new / (whole + 1) if covered.any() else -whole, numpy.inf)
        unit = int(score.argmin())
        host_of[unit] = host
        barred |= problem.rivals[unit]
        waiting = [unit]


def held_by_units(units_of: sparse.csr_matrix, contents: numpy.ndarray, weight: numpy.ndarray) -> numpy.ndarray:
    """What each unit has of some contents."""
    counts = units_of.indptr[contents + 1] - units_of.indptr[contents]
    places = numpy.repeat(units_of.indptr[contents] - numpy.cumsum(counts) + counts, counts) + numpy.arange(counts.sum())
    return numpy.bincount(units_of.indices[places], numpy.repeat(weight[contents], counts), units_of.shape[1])


def renamed(placement: Placement) -> Placement:
    """The same groups of units, each on the host where most of its guests are now: among hosts with equal memory and without a unit that
    stays."""
    problem, host_of = placement.problem, placement.host_of.copy()
    pinned = set(placement.host_of[problem.fixed])
    for memory in numpy.unique(problem.memory):
        hosts = [host for host in numpy.flatnonzero(problem.memory == memory) if host not in pinned]
        place = {host: number for number, host in enumerate(hosts)}
        stays = numpy.zeros((len(hosts), len(hosts)))
        for (unit, host), guests in problem.stays.items():
            if placement.host_of[unit] in place and host in place:
                stays[place[placement.host_of[unit]], place[host]] += guests
        for group, host in zip(*optimize.linear_sum_assignment(-stays)):
            host_of[placement.host_of == hosts[group]] = hosts[host]
    return Placement(problem, host_of)


class Refill:
    """Empties a few hosts that have much in common, fills them anew, and keeps what is better."""

    def __init__(self, placement: Placement, draw: Draw) -> None:
        self.problem, self.draw, self.host_of = placement.problem, draw, placement.host_of.copy()
        self.present = (placement.counts > 0).astype("f4")
        self.needs = self.present @ self.problem.weight

    def few_hosts(self) -> numpy.ndarray:
        """Some hosts that need much and have much in common."""
        chance = self.needs - self.needs.min() + 0.01 * self.needs.max() + 1
        first = self.draw.choice(len(chance), p=chance / chance.sum())
        common = self.present @ (self.present[first] * self.problem.weight).astype("f4")
        common[first] = -1
        near = numpy.argsort(-common)[: min(12, len(common) - 1)]
        count = min(len(near), int(self.draw.integers(1, 4)))
        others = self.draw.choice(near, count, replace=False, p=chance[near] / chance[near].sum())
        return numpy.r_[first, others].astype(int)

    def once(self, is_late: Late) -> bool:
        """Tries some hosts. Returns whether that saved frames."""
        hosts = self.few_hosts()
        part, units = part_of(self.problem, hosts, self.host_of)
        found = fill(part, self.draw) if len(units) > 1 else None
        if found is None:
            return False
        placement = Placement(part, found)
        improve(placement, is_late)
        before = self.needs[hosts].sum() + self.problem.own[units].sum()
        if not placement.is_sound() or placement.frames() > before - 1e-6:
            return False
        self.host_of[units] = hosts[placement.host_of]
        self.settle(hosts)
        return True

    def settle(self, hosts: Iterable[int]) -> None:
        """Computes anew what these hosts have."""
        for host in hosts:
            held = numpy.asarray(self.problem.has[self.host_of == host].sum(axis=0)).ravel() > 0
            self.present[host] = held
            self.needs[host] = held @ self.problem.weight


def refilled(placement: Placement, is_late: Late, draw: Draw, most_failed: int = 3000) -> Placement:
    """A placement of which a few hosts at a time were filled anew, until time is over or many tries were no better."""
    refill, failed = Refill(placement, draw), 0
    while not is_late() and failed < most_failed and len(placement.problem.memory) > 1 and not placement.problem.fixed.all():
        failed = 0 if refill.once(is_late) else failed + 1
    return Placement(placement.problem, refill.host_of)


def from_nothing(problem: Problem, is_late: Late) -> Placement | None:
    """A placement that doesn't begin where the units are, but that has the same groups where most of their guests are; or None."""
    free = dataclasses.replace(problem, most_moves=None)
    host_of = fill(free)
    if host_of is None:
        return None
    placement = Placement(free, host_of)
    improve(placement, is_late)
    return renamed(placement)


def search(problem: Problem, is_late: Late, seed: int = 1) -> Placement:
    """The best placement that is found: with few moves from where the units are, and else from nothing."""
    draw, most = numpy.random.default_rng(seed), problem.most_moves
    is_free = most is None
    best = near = Placement(problem, problem.start)
    while not is_free and not is_late() and greedy.take_best(near):
        pass
    if most is None or 2 * most >= problem.sizes.sum():
        found = from_nothing(problem, is_late)
        best = near if found is None else better(near, found)
    if is_free and best is near:
        improve(near, is_late)
    if is_free or best is not near:
        return better(best, renamed(refilled(best, is_late, draw)))
    return better(best, rechoose(best, is_late, draw))


def better(one: Placement, other: Placement) -> Placement:
    """The placement that holds and needs fewer frames, or moves fewer guests for as many; the first one's moves are bounded."""
    other = Placement(one.problem, other.host_of)
    if not other.is_sound():
        return one
    return min(one, other, key=Placement.key) if one.is_sound() else other
