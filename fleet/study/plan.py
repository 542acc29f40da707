#!/usr/bin/python3
"""Chooses hosts as fleet/place.py does, but by exact solvers and a search, and prints a bound of what any plan could reclaim (README.md).

    fleet/study/plan.py [--seconds S] [the options of fleet/place.py] (DIGEST .. | --contents FILE)

--seconds is the time, by default 20, of which three fifths are for the search and the rest for the bound.
"""
from __future__ import annotations

import dataclasses
import pathlib
import sys
import time
from collections.abc import Sequence

sys.path.insert(1, str(pathlib.Path(__file__).resolve().parents[1]))
import place  # noqa: E402
import order  # noqa: E402
import bounds  # noqa: E402
import reachable  # noqa: E402
from exact import Program  # noqa: E402
from place import Asked, Plan  # noqa: E402
from placing import Placement, Problem  # noqa: E402
from search import search  # noqa: E402

MOST_EXACT = 30
# The rest of the time is for the bound.
PART_TO_SEARCH = 0.6


def solved(problem: Problem, seconds: float) -> tuple[Placement, float, str]:
    """The best placement that is found, a lower bound of its frames, and how that is known."""
    begun = time.monotonic()
    found = []
    candidates = [search(problem, lambda: time.monotonic() - begun > PART_TO_SEARCH * seconds)]
    if len(problem.start) <= MOST_EXACT:
        host_of, proved = Program(problem).solved(max(1, seconds / 2))
        found += [] if proved is None else [(proved, "a mixed-integer program")]
        candidates += [] if host_of is None else [Placement(problem, host_of)]
    sound = [one for one in candidates if one.is_sound()]
    if not sound:
        raise ValueError("no placement was found that holds what must hold")
    placement = min(sound, key=Placement.key)
    found.append(bounds.best(problem, placement.frames(), lambda: time.monotonic() - begun > seconds))
    return placement, *max(found)


def planned(asked: Asked) -> Plan:
    """The object of the best plan that is found, and each guest's host after it."""
    problem = asked.problem()
    if len(asked.hosts) ** len(asked.host_of) <= reachable.MOST:
        return planned_whole(asked, problem)
    limits, apart = asked.limits(), asked.groups(asked.words.apart)
    while True:
        placement, bound, how = solved(problem, asked.words.seconds)
        target = asked.spread(placement.host_of)
        try:
            moves = order.ordered(asked.guests, asked.host_of, target, limits, apart)
        except order.NoOrder:
            # (fewer moves may have an order)
            if placement.moved == 0:
                raise
            problem = dataclasses.replace(problem, most_moves=placement.moved // 2)
        else:
            return place.report(asked, moves, bound, how), target


def planned_whole(asked: Asked, problem: Problem) -> Plan:
    """The same for a fleet so small that all placements can be tried."""
    limits, groups = asked.limits(), asked.groups(asked.words.apart)
    whole = reachable.Reachable(asked.guests, asked.host_of, limits, order.rivals_of(groups, len(asked.host_of)))
    fixed = {guest for unit, inside in enumerate(asked.units) if problem.fixed[unit] for guest in inside if len(inside) == 1}

    def holds(hosts: Sequence[int]) -> bool:
        units = [[hosts[guest] for guest in inside] for inside in asked.units]
        if any(len(set(one)) > 1 for one in units):
            return False
        placement = Placement(problem, [one[0] for one in units])
        return (placement.host_of == problem.start)[problem.fixed].all() and placement.is_sound()

    found = whole.best(holds, fixed)
    if found is None:
        raise ValueError("no placement was found that holds what must hold")
    target, moves = found
    return place.report(asked, moves, whole.frames(tuple(target)), "trying all placements"), target


if __name__ == "__main__":
    options = place.options(__doc__.split("\n\n")[1].strip())
    options.add_argument("--seconds", type=float, default=20)
    sys.exit(place.run(options, planned))
