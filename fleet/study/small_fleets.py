#!/usr/bin/python3
"""Compares the bounds and the search with all placements of small random fleets, and prints what is wrong.

    fleet/study/small_fleets.py COUNT [SEED]

Guests are of a few kinds, each with parts of a block of contents that others of its kind have, too. Two to four hosts have memory for two
to four guests each. Needs numpy and scipy.
"""
from __future__ import annotations

import argparse
import dataclasses
import itertools
import pathlib
import sys
from collections.abc import Iterator

import numpy
from scipy import sparse

sys.path.insert(1, str(pathlib.Path(__file__).resolve().parents[1]))
import bounds  # noqa: E402
import kinds  # noqa: E402
from placing import Placement, Problem  # noqa: E402
from search import search  # noqa: E402

TRIES = 60
# Of so many fleets each bound is near the best for one.
ENOUGH = 40


def random_has(draw: numpy.random.Generator, guests: int) -> numpy.ndarray:
    """Which guest has which content: of a kernel, of a library, and a few that any have."""
    parts = []
    for count, size, chance in ((draw.integers(1, 3), 30, 0.8), (draw.integers(1, 4), 20, 0.6)):
        owner = draw.integers(0, count, guests)
        parts += [(owner == one)[:, None] & (draw.random((guests, size)) < chance) for one in range(count)]
    has = numpy.concatenate([*parts, draw.random((guests, 8)) < 0.3], axis=1)
    return has[:, has.sum(axis=0) > 1]


def random_problem(draw: numpy.random.Generator) -> Problem:
    """A fleet of up to 8 guests, the guests' hosts drawn so that they have room."""
    hosts, room = int(draw.integers(2, 5)), int(draw.integers(2, 5))
    guests = min(8, int(draw.integers(hosts, hosts * room + 1)))
    while hosts**guests > 5000:
        guests -= 1
    has, slots = random_has(draw, guests), numpy.repeat(numpy.arange(hosts), room)
    start = draw.permutation(slots)[:guests]
    fixed = draw.random(guests) < draw.choice([0, 0, 0.2])
    problem = Problem(
        has=sparse.csr_matrix(has.astype(float)), weight=numpy.full(has.shape[1], float(draw.choice([1, 16]))),
        own=draw.integers(0, 9, guests).astype(float), pages=numpy.full(guests, 100.0), sizes=numpy.ones(guests, int),
        memory=numpy.full(hosts, 100.0 * room), start=start, stays={(unit, int(host)): 1 for unit, host in enumerate(start)},
        apart=[], fixed=fixed, spare=None, most_moves=None if draw.integers(2) else int(draw.integers(1, guests + 1)),
    )
    if draw.integers(4):
        return problem
    # (with --spare, so that the guests' frames have room where they are)
    most, spare = frames_by_host(problem, has, start).max(), float(draw.integers(20))
    return dataclasses.replace(problem, memory=numpy.full(hosts, most * draw.choice([1, 1.5, 4]) + spare), spare=spare)


def frames_by_host(problem: Problem, has: numpy.ndarray, place: numpy.ndarray) -> numpy.ndarray:
    """The frames that each host needs."""
    held = [(problem.weight * has[place == host].any(axis=0)).sum() for host in range(len(problem.memory))]
    return numpy.array(held) + numpy.bincount(place, problem.own, len(problem.memory))


def fewest(problem: Problem) -> float:
    """The fewest frames of all placements that hold."""
    has = problem.has.toarray() > 0
    best = float("inf")
    for place in itertools.product(range(len(problem.memory)), repeat=len(problem.start)):
        place = numpy.array(place)
        is_far = problem.most_moves is not None and (place != problem.start).sum() > problem.most_moves
        if not is_far and (place == problem.start)[problem.fixed].all():
            frames = frames_by_host(problem, has, place)
            taken = numpy.bincount(place, problem.pages, len(frames)) if problem.spare is None else frames + problem.spare
            best = best if (taken > problem.memory + 1e-6).any() else min(best, float(frames.sum()))
    return best


def faults(problem: Problem, due: float) -> Iterator[str | dict[str, bool]]:
    """What is wrong with the bounds and with the search."""
    never, hosts = (lambda: False), bounds.hosts_needed(problem)
    known = {"contents": problem.own.sum() + (hosts * problem.weight).sum(), "moves": bounds.by_moves(problem)}
    known["kinds"] = kinds.bound_of(problem, hosts, never)
    yield from (f"the bound by {name} is {found}, and {due} frames are enough" for name, found in known.items() if found > due + 1e-6)
    left = [TRIES]

    def is_late() -> bool:
        left[0] -= 1
        return left[0] < 0

    placement = search(problem, is_late)
    if not placement.is_sound() or abs(placement.frames() - Placement(problem, placement.host_of).frames()) > 1e-6:
        yield "the search's placement doesn't hold, or its frames aren't those that it returned"
    if placement.frames() > 1.1 * due:
        yield f"the search finds {placement.frames()} frames, and {due} are enough"
    # (so that a bound that is always 0 isn't taken for one)
    yield {name: bool(found > 0.8 * due) for name, found in known.items()}


def least_faults(draw: numpy.random.Generator) -> Iterator[str]:
    """Where what so many units need of a block is more than what some do, or much less."""
    has = draw.random((int(draw.integers(2, 9)), 24)) < 0.5
    most = int(draw.integers(1, len(has) + 1))
    found = kinds.least_contents(has, most, lambda: False)
    for count in range(1, most + 1):
        due = min(has[list(some)].any(axis=0).sum() for some in itertools.combinations(range(len(has)), count))
        if found[count] != due:
            yield f"{count} units need at least {due} contents, and {found[count]} are returned"
    offset, slope = kinds.chord(found)
    if any(offset + slope * count > found[count] + 1e-9 for count in range(1, most + 1)) or offset < 0:
        yield f"{offset} + {slope} n is more than {found}"


def main() -> None:
    options = argparse.ArgumentParser(description=__doc__.splitlines()[0])
    options.add_argument("count", metavar="COUNT", type=int)
    options.add_argument("seed", metavar="SEED", nargs="?", type=int, default=1)
    given = options.parse_args()
    draw = numpy.random.default_rng(given.seed)
    sharp: dict[str, int] = {}
    for number in range(given.count):
        for what in least_faults(draw):
            print(f"block {number}: {what}")
        problem = random_problem(draw)
        for found in faults(problem, fewest(problem)):
            if isinstance(found, str):
                print(f"fleet {number}: {found}")
            else:
                sharp = {name: sharp.get(name, 0) + is_near for name, is_near in found.items()}
    for name, near in sharp.items():
        if near == 0 and given.count >= ENOUGH:
            print(f"the bound by {name} is never near the best")


if __name__ == "__main__":
    main()
