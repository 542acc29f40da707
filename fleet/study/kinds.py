"""A lower bound of the frames that any placement needs, by kinds of guests. Needs numpy and scipy.

1. A *block* is a set of contents that mostly the same units have, such as the pages of one kernel. Units that have parts of the same
   blocks are of one *kind*.
2. `least_contents` bounds how many contents of a block any n of its units have together. So a host needs at least a + b n frames for n
   of them (`chord`). A host with two kinds has the units of two blocks somewhere, so it pays `a` twice.
3. Each kind needs as many hosts as its units need memory for. `Filling` is the linear program over all ways to fill a host in which
   each unit has a place and each kind is on that many hosts. Its columns are made as they are needed, by a small integer program, which
   also bounds what the columns that were never made could save.
"""
from __future__ import annotations

from collections.abc import Callable, Sequence
from typing import Any, TYPE_CHECKING

import numpy
from scipy import optimize, sparse

if TYPE_CHECKING:
    from placing import Problem

MOST_TRIES = 80
MOST_ON_A_HOST = 64
MOST_SETS = 60000
MOST_GREEDY = 200
# Of so many kinds each two are tried together at first.
MOST_PAIRED = 40
# Contents are in one block if the cosine of their units and the block's is more than this.
ALIKE = 0.5
# Blocks of a smaller part of all that is shared don't count.
LIGHT = 0.005


def blocks_of(problem: Problem) -> list[numpy.ndarray]:
    """Blocks, as lists of their contents, the heaviest first."""
    columns = problem.has.tocsc().astype("f4")
    holders = numpy.diff(columns.indptr)
    mass, blocks = holders * problem.weight, []
    left, least = (holders > 2) & (problem.weight == problem.weight.max(initial=0)), LIGHT * mass.sum()
    for _ in range(MOST_TRIES):
        if mass[left].sum() <= least:
            break
        inside = block_around(columns, holders, left, int(numpy.argmax(mass * left)))
        left[inside] = False
        if mass[inside].sum() > least:
            blocks.append(inside)
    return blocks


def block_around(columns: sparse.csc_matrix, holders: numpy.ndarray, left: numpy.ndarray, first: int) -> numpy.ndarray:
    """The contents that have mostly the same units as one of them, and about as many."""
    inside = numpy.array([first])
    for _ in range(3):
        centre = numpy.asarray(columns[:, inside].mean(axis=1)).ravel()
        size = holders[inside].mean()
        alike = (columns.T @ centre) / numpy.sqrt(numpy.maximum(holders, 1) * (centre @ centre))
        found = numpy.flatnonzero(left & (alike > ALIKE) & (holders < 1.5 * size) & (1.5 * holders > size))
        inside = found if len(found) else inside
    return numpy.union1d(inside, [first])


def least_contents(has: numpy.ndarray, most: int, is_late: Callable[[], bool]) -> numpy.ndarray:
    """For n = 0, 1, .., `most`: at least so many contents any n of these units have together.

    Counts how many contents the units of a set all lack: in sets of 1, 2, .. units, each made from a smaller one by a later unit, as long
    as there aren't too many. Larger sets lack no more. A set that lacks no more than `floor` isn't made larger."""
    lacks = (1 - has).astype("f4")
    lacked, floor = numpy.full(most + 1, float(has.shape[1])), lacked_by_greed(lacks, most, is_late)
    sets = [(0, numpy.arange(has.shape[1]))]
    for size in range(most):
        one, two = 0.0, 0.0
        larger: list[tuple[int, numpy.ndarray]] = []
        for first, columns in sets:
            common = later_pairs(lacks, first, columns)
            alone = common.diagonal().copy()
            numpy.fill_diagonal(common, 0)
            one, two = max(one, alone.max(initial=0)), max(two, common.max(initial=0))
            if len(larger) <= MOST_SETS:
                larger += [(first + unit + 1, columns[lacks[first + unit, columns] > 0]) for unit in numpy.flatnonzero(alone > floor)]
            if size and is_late():
                return numpy.r_[0, has.shape[1] - lacked[1:]]
        lacked[size + 1:] = max(one, floor)
        lacked[size + 2:] = max(two, floor)
        if len(larger) > MOST_SETS:
            break
        sets = larger
    return numpy.r_[0, has.shape[1] - lacked[1:]]


def later_pairs(lacks: numpy.ndarray, first: int, columns: numpy.ndarray) -> numpy.ndarray:
    """How many of these contents each two units after a set both lack."""
    later = lacks[first:, columns]
    return later @ later.T


def lacked_by_greed(lacks: numpy.ndarray, most: int, is_late: Callable[[], bool]) -> float:
    """What some `most` units all lack: to each unit those are added that lack most of what is left."""
    best = 0.0
    for unit in range(min(len(lacks), MOST_GREEDY) if len(lacks) >= most else 0):
        common, is_free = lacks[unit].copy(), numpy.ones(len(lacks))
        is_free[unit] = 0
        for _ in range(most - 1):
            unit = int(((lacks @ common + 1) * is_free).argmax())
            is_free[unit] = 0
            common *= lacks[unit]
        best = max(best, float(common.sum()))
        if is_late():
            break
    return best


def chord(least: numpy.ndarray) -> tuple[float, float]:
    """Numbers a and b, so that any n units need at least a + b n, for n = 1, 2, .."""
    most = len(least) - 1
    slope = max(0.0, least[most] - least[1]) / max(1, most - 1)
    offset = (least[1:] - slope * numpy.arange(1, most + 1)).min()
    return (float(offset), float(slope)) if offset > 0 else (0.0, float((least[1:] / numpy.arange(1, most + 1)).min()))


class Filling:
    """The linear program. A way to fill a host has how many units of each kind are on it, and which kinds are."""

    def __init__(self, problem: Problem, is_in: numpy.ndarray, price: numpy.ndarray) -> None:
        self.kinds, kind_of = numpy.unique(is_in, axis=0, return_inverse=True)
        self.price, self.memory = price, problem.memory.max()
        self.count = numpy.bincount(kind_of)
        self.pages = numpy.array([max(1, problem.pages[kind_of == kind].min()) for kind in range(len(self.kinds))])
        room = numpy.maximum(1, numpy.floor(self.memory / self.pages + 1e-9))
        self.most, self.hosts = numpy.minimum(room, self.count), len(problem.memory)
        self.due = numpy.ceil(self.count / room)
        self.kind_of, every = kind_of, range(len(room))
        self.ways = [self.way(kind, []) for kind in every]
        if len(room) <= MOST_PAIRED:
            self.ways += [self.way(kind, [other]) for kind in every for other in every if other != kind]

    def way(self, kind: int, others: list[int]) -> numpy.ndarray:
        """A host with a unit of each of the others, and as many of one kind as have memory beside them."""
        counts = numpy.zeros(len(self.count))
        counts[others] = 1
        counts[kind] = max(0, min(self.most[kind], (self.memory - counts @ self.pages) // self.pages[kind]))
        return counts

    def cost(self, way: numpy.ndarray) -> Any:
        """What a way pays for the blocks that it has."""
        return (self.kinds[way > 0].any(axis=0) * self.price).sum()

    def solved(self) -> tuple[float, numpy.ndarray, numpy.ndarray, float] | None:
        """The least cost by the ways that are known, what a unit and a presence of each kind are worth, and what a host is."""
        ways = numpy.array(self.ways).T
        upper = numpy.vstack([-(ways > 0).astype(float), numpy.ones(ways.shape[1])])
        cost = [self.cost(way) for way in self.ways]
        done = optimize.linprog(cost, A_ub=upper, b_ub=numpy.r_[-self.due, self.hosts], A_eq=ways, b_eq=self.count, method="highs")
        if done.status != 0:
            return None
        return done.fun, done.eqlin.marginals, -done.ineqlin.marginals[:-1], done.ineqlin.marginals[-1]

    def best_way(self, unit: numpy.ndarray, presence: numpy.ndarray) -> tuple[numpy.ndarray | None, float | None]:
        """The way whose cost is least beside what it is worth, and a lower bound of that."""
        kinds, blocks = self.kinds.shape
        same, none = sparse.identity(kinds), sparse.csr_matrix
        of_block = [(kind, block) for kind in range(kinds) for block in numpy.flatnonzero(self.kinds[kind])]
        pick = none((numpy.ones(len(of_block)), (range(len(of_block)), [kind for kind, _ in of_block])), (len(of_block), kinds))
        need = none((numpy.ones(len(of_block)), (range(len(of_block)), [block for _, block in of_block])), (len(of_block), blocks))
        rows = sparse.bmat([
            [same, -same, None],
            [-same, sparse.diags(self.most), none((kinds, blocks))],
            [None, -pick, need],
            [-none(self.pages), None, None],
        ])
        low = numpy.r_[numpy.zeros(2 * kinds + len(of_block)), -self.memory]
        done = optimize.milp(
            numpy.r_[-unit, -presence, self.price], integrality=numpy.ones(2 * kinds + blocks),
            constraints=optimize.LinearConstraint(rows, low, numpy.inf),
            bounds=optimize.Bounds(0, numpy.r_[self.most, numpy.ones(kinds + blocks)]), options={"time_limit": 5},
        )
        return None if done.x is None else numpy.round(done.x[:kinds]), getattr(done, "mip_dual_bound", None)

    def bound(self, start: Sequence[int], is_late: Callable[[], bool]) -> float:
        """A lower bound of what all hosts pay for blocks. `start` is a placement, whose ways are possible."""
        ways = sparse.csr_matrix((numpy.ones(len(start)), (start, self.kind_of)), (self.hosts, len(self.kinds))).toarray()
        self.ways += list(numpy.unique(ways, axis=0))
        best = 0.0
        while not is_late():
            found = self.solved()
            if found is None:
                return best
            total, unit, presence, host = found
            way, least = self.best_way(unit, presence)
            if least is None or not numpy.isfinite(least):
                return best
            saved = min(0.0, least - host)
            best = max(best, total + self.hosts * saved)
            if way is None or saved > -1e-6 * max(1.0, total):
                return best
            self.ways.append(way)
        return best


def bound_of(problem: Problem, hosts: numpy.ndarray, is_late: Callable[[], bool]) -> Any:
    """A lower bound of all frames, or 0 if there are no blocks or no time. `hosts` are the fewest hosts on which each content is."""
    most = int(problem.memory.max() // max(1, problem.pages.min()))
    blocks = blocks_of(problem) if problem.spare is None and 1 < most <= MOST_ON_A_HOST and not is_late() else []
    whole, price, is_in = problem.own.sum() + (hosts * problem.weight).sum(), [], []
    for block in blocks:
        if is_late():
            return 0.0
        has, weight = problem.has[:, block].toarray(), problem.weight[block].min()
        inside = 2 * has.sum(axis=1) > has.sum(axis=1).max()
        offset, slope = chord(weight * least_contents(has[inside], min(most, int(inside.sum())), is_late))
        whole += inside.sum() * slope - (hosts[block] * problem.weight[block]).sum()
        price.append(offset)
        is_in.append(inside)
    if not blocks:
        return 0.0
    return whole + Filling(problem, numpy.array(is_in).T, numpy.array(price)).bound(problem.start, is_late)
