"""The best placement of a small fleet, by scipy's solver of mixed-integer programs."""
from __future__ import annotations

from typing import TYPE_CHECKING

import numpy
from scipy import optimize, sparse

if TYPE_CHECKING:
    from placing import Problem


def merged_columns(problem: Problem) -> list[tuple[tuple[int, ...], float]]:
    """The contents, those that the same units have as one with their weights added up."""
    columns = problem.has.tocsc()
    kinds: dict[tuple[int, ...], float] = {}
    for content in range(columns.shape[1]):
        units = tuple(sorted(columns.indices[columns.indptr[content]:columns.indptr[content + 1]]))
        kinds[units] = kinds.get(units, 0) + problem.weight[content]
    return list(kinds.items())


class Program:
    """Variables: for each unit and host whether it is there, then for each content and host whether it is needed."""

    def __init__(self, problem: Problem) -> None:
        self.problem = problem
        self.units, self.hosts = len(problem.own), len(problem.memory)
        self.contents = merged_columns(problem)
        self.size = (self.units + len(self.contents)) * self.hosts
        self.rows: list[list[tuple[int, float]]] = []
        self.low: list[float] = []
        self.high: list[float] = []

    def at(self, row: int, host: int) -> int:
        return row * self.hosts + host

    def add(self, terms: list[tuple[int, float]], low: float, high: float) -> None:
        self.rows.append(terms)
        self.low.append(low)
        self.high.append(high)

    def build(self) -> None:
        problem = self.problem
        for unit in range(self.units):
            self.add([(self.at(unit, host), 1) for host in range(self.hosts)], 1, 1)
        for number, (units, _weight) in enumerate(self.contents):
            for host in range(self.hosts):
                for unit in units:
                    self.add([(self.at(self.units + number, host), 1), (self.at(unit, host), -1)], 0, numpy.inf)
        for host in range(self.hosts):
            self.add_room(host)
            for group in problem.apart:
                self.add([(self.at(unit, host), 1) for unit in group], -numpy.inf, 1)
        if problem.most_moves is not None:
            stays: list[tuple[int, float]] = [(self.at(unit, host), -guests) for (unit, host), guests in problem.stays.items()]
            self.add(stays, -numpy.inf, problem.most_moves - problem.sizes.sum())

    def add_room(self, host: int) -> None:
        problem = self.problem
        if problem.spare is None:
            self.add([(self.at(unit, host), problem.pages[unit]) for unit in range(self.units)], -numpy.inf, problem.memory[host])
        else:
            terms = [(self.at(unit, host), problem.own[unit]) for unit in range(self.units)]
            terms += [(self.at(self.units + number, host), weight) for number, (_units, weight) in enumerate(self.contents)]
            self.add(terms, -numpy.inf, problem.memory[host] - problem.spare)

    def solved(self, seconds: float) -> tuple[numpy.ndarray | None, float | None]:
        """Where each unit goes, or None, and a lower bound of all frames, or None."""
        problem = self.problem
        self.build()
        entries = [(row, column, value) for row, terms in enumerate(self.rows) for column, value in terms]
        row, column, value = (numpy.array(part) for part in zip(*entries))
        matrix = sparse.csr_matrix((value.astype(float), (row, column)), (len(self.rows), self.size))
        cost = numpy.zeros(self.size)
        for number, (_units, weight) in enumerate(self.contents):
            cost[self.at(self.units + number, 0):self.at(self.units + number + 1, 0)] = weight
        whole = numpy.zeros(self.size)
        whole[: self.units * self.hosts] = 1
        low = numpy.zeros(self.size)
        for unit in numpy.flatnonzero(problem.fixed):
            low[self.at(unit, problem.start[unit])] = 1
        done = optimize.milp(
            cost, constraints=optimize.LinearConstraint(matrix, self.low, self.high), integrality=whole,
            bounds=optimize.Bounds(low, 1), options={"time_limit": seconds},
        )
        bound = getattr(done, "mip_dual_bound", None)
        bound = None if bound is None or not numpy.isfinite(bound) else bound + problem.own.sum()
        if done.x is None:
            return None, bound
        return done.x[: self.units * self.hosts].reshape(self.units, self.hosts).argmax(axis=1), bound
