"""The greedy choice of hosts, so that guests meet whose pages are equal. Needs numpy.

1. A guest that may not stay, since its host has too little memory or a guest that it may not be with, goes to the host where that costs
   the fewest frames.
2. Of all moves of one guest and all swaps of two that keep what must hold, the one is made that saves most frames for each guest
   moved; then the next, until none saves a frame or no more guests may be moved.

Where many guests may be moved, a sixteenth of the moves that are left is chosen at once, of hosts that no other of them touches.
"""
from __future__ import annotations

import itertools
from collections.abc import Callable
from typing import Union

import numpy

from placing import Placement, Problem, best_moves, best_partner, best_swaps

AT_ONCE = 16
# What a step saves for each guest moved, a unit, a host, and for a swap a unit there.
Step = tuple[float, int, int, Union[int, None]]


def placed(problem: Problem) -> Placement:
    """The placement that the greedy choice leads to."""
    placement = Placement(problem, problem.start)
    while leave_one(placement):
        pass
    if not placement.is_sound():
        raise ValueError("no placement was found that holds what must hold")
    while take_best(placement):
        pass
    return placement


def leave_one(placement: Placement) -> bool:
    """Moves a unit that may not stay where it is. Returns whether there was one that could go."""
    problem, host_of = placement.problem, placement.host_of
    is_over = placement.room_left() < -1e-6
    if not is_over.any() and not any(problem.rivals):
        return False
    may_stay = [not is_over[host] and not placement.has_rival(unit, host) for unit, host in enumerate(host_of)]
    saved = placement.alone[:, None] - placement.added
    saved[(placement.need() > placement.room_left()[None, :] + 1e-6) | problem.fixed[:, None] | numpy.array(may_stay)[:, None]] = -numpy.inf
    saved[range(len(host_of)), host_of] = -numpy.inf
    for flat in numpy.argsort(-saved, axis=None, kind="stable"):
        unit, host = divmod(int(flat), len(problem.memory))
        if saved[unit, host] == -numpy.inf:
            return False
        if not placement.has_rival(unit, host) and placement.cost(unit, host) <= placement.moves_left():
            placement.move(unit, host)
            return True
    return False


def take_best(placement: Placement, trust: Callable[[], float] = lambda: 1) -> bool:
    """Makes the best steps. Returns whether there were any. `trust` is what each is multiplied by before they are compared."""
    count = max(1, int(min(placement.moves_left(), len(placement.host_of))) // AT_ONCE)
    touched: set[int] = set()
    for _gain, unit, host, other in best_steps(placement, count, trust):
        hosts = {placement.host_of[unit], host}
        if not hosts & touched and guests_of(placement, unit, host, other) <= placement.moves_left():
            placement.move(unit, host) if other is None else placement.swap(unit, other)
            touched |= hosts
    return bool(touched)


def best_steps(placement: Placement, count: int, trust: Callable[[], float]) -> list[Step]:
    """So many moves and swaps that save most for each guest moved, the best first."""
    found: list[Step] = []

    def add(gain: float, unit: int, host: int, other: int | None = None) -> None:
        found.append((trust() * gain / max(1, guests_of(placement, unit, host, other)), unit, host, other))

    for gain, unit, host in itertools.islice(best_moves(placement), count):
        add(gain, unit, host)
    for bound, unit, host in best_swaps(placement, 3000):
        # (nearly all swaps move two guests)
        if sum(one[0] >= bound / 2 for one in found) >= count:
            break
        # (without moves that are left, one of the two is elsewhere already, and the swap is there for each of them)
        if placement.moves_left() > 1 or placement.host_of[unit] != placement.problem.start[unit]:
            partner = best_partner(placement, unit, host)
            # (two that may not be together can't pass each other)
            if partner and partner[1] not in placement.problem.rivals[unit]:
                add(partner[0], unit, host, partner[1])
    return sorted((one for one in found if one[0] > 1e-6), key=lambda one: -one[0])[:count]


def guests_of(placement: Placement, unit: int, host: int, other: int | None) -> int:
    """How many more guests a move or a swap moves."""
    return placement.cost(unit, host) + (0 if other is None else placement.cost(other, placement.host_of[unit]))
