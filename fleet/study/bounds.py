"""Lower bounds of the frames that a placement needs. Needs numpy."""
from __future__ import annotations

from collections.abc import Callable

import numpy

import kinds
from placing import Placement, Problem

# So many units of a host are looked at in all their subsets.
MOST_IN_SUBSETS = 12


def hosts_needed(problem: Problem) -> numpy.ndarray:
    """The fewest hosts on which each content is: those with memory for its units, the largest hosts first, and one for each of the units
    that are apart."""
    room = numpy.cumsum(numpy.sort(problem.limits())[::-1])
    inside = problem.has.T @ (problem.pages if problem.spare is None else problem.own)
    hosts = numpy.maximum(numpy.searchsorted(room, inside - 1e-6) + 1, 1)
    for group in problem.apart:
        member = numpy.zeros(len(problem.own))
        member[group] = 1
        hosts = numpy.maximum(hosts, problem.has.T @ member)
    return hosts


def freed_by_subsets(problem: Problem, movable: numpy.ndarray, columns: numpy.ndarray, counts: int) -> numpy.ndarray:
    """The most frames that 0, 1, .. guests of a host free where they leave it, by all subsets: a content is freed if all that have it
    leave."""
    held = numpy.zeros(len(problem.weight), int)
    for bit, unit in enumerate(movable):
        held[problem.rows[unit]] |= 1 << bit
    subsets = numpy.bincount(held[columns], problem.weight[columns], 1 << len(movable))
    subsets[0] = 0
    guests = numpy.zeros(1 << len(movable), int)
    for bit, unit in enumerate(movable):
        halves = subsets.reshape(-1, 2, 1 << bit)
        halves[:, 1] += halves[:, 0]
        guests.reshape(-1, 2, 1 << bit)[:, 1] += problem.sizes[unit]
    most = numpy.zeros(counts + 1)
    numpy.maximum.at(most, guests, subsets)
    return most


def freed_by_parts(problem: Problem, movable: numpy.ndarray, is_free: numpy.ndarray, holders: numpy.ndarray, counts: int) -> numpy.ndarray:
    """The same bound more loosely: each unit that leaves frees its part of each content, which is the same for all that have it."""
    part, most = numpy.where(is_free, problem.weight / numpy.maximum(1, holders), 0), numpy.zeros(counts + 1)
    for unit in movable:
        size = int(problem.sizes[unit])
        most[size:] = numpy.maximum(most[size:], most[: counts + 1 - size] + part[problem.rows[unit]].sum())
    return most


def freed(problem: Problem, placement: Placement, host: int, least_unit: float) -> numpy.ndarray:
    """The most frames that 0, 1, .. guests of a host free where they leave it."""
    units = numpy.flatnonzero(placement.host_of == host)
    movable = units[~problem.fixed[units]]
    counts, holders = int(problem.sizes[movable].sum()), placement.counts[host].copy()
    is_free = holders > 0
    for unit in units[problem.fixed[units]]:
        is_free[problem.rows[unit]] = False
    if len(movable) <= MOST_IN_SUBSETS:
        most = freed_by_subsets(problem, movable, numpy.flatnonzero(is_free), counts)
    else:
        most = freed_by_parts(problem, movable, is_free, holders, counts)
    # (if all leave, others come if the other hosts have no memory for all guests)
    is_needed = problem.spare is None and problem.pages.sum() > problem.memory.sum() - problem.memory[host]
    if is_needed and counts and len(movable) == len(units):
        most[-1] = max(most[-2], most[-1] - least_unit)
    return numpy.maximum.accumulate(most)


def by_moves(problem: Problem) -> float:
    """A lower bound of the frames after the most moves: those of now, less the most that so many guests free. 0 if there is none."""
    if problem.most_moves is None or len(problem.stays) != len(problem.start):
        return 0.0
    placement, moves = Placement(problem, problem.start), min(problem.most_moves, int(problem.sizes.sum()))
    if not placement.is_sound():
        return 0.0
    least_unit, saved = float((problem.has @ problem.weight).min()), numpy.zeros(moves + 1)
    for host in range(len(problem.memory)):
        most, before = freed(problem, placement, host, least_unit), saved.copy()
        for guests in range(1, min(moves + 1, len(most))):
            saved[guests:] = numpy.maximum(saved[guests:], before[: moves + 1 - guests] + most[guests])
    return float(placement.frames() - saved[-1])


def best(problem: Problem, frames: float, is_late: Callable[[], bool]) -> tuple[float, str]:
    """The best bound of those that are known, and how it is got. None can be more than the frames of a placement that was found."""
    hosts = hosts_needed(problem)
    found = max(
        (float(problem.own.sum() + (hosts * problem.weight).sum()), "each content on as few hosts as have memory for its guests"),
        (float(by_moves(problem)), f"the most frames that {problem.most_moves} guests free where they leave"),
    )
    if found[0] > frames - 0.5:
        return found
    return max(found, (float(kinds.bound_of(problem, hosts, is_late)), "kinds of guests, each on as few hosts as have memory for them"))
