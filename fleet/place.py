#!/usr/bin/python3
"""Chooses a host for each guest so that sharing reclaims more, and prints the moves (fleet/README.md).

    fleet/place.py [--hosts FILE] [--memory FILE] [--apart FILE] [--together FILE] [--fixed FILE] [--moves N] [--spare MIB]
                   [--json] [--plan FILE] [--svg FILE] (DIGEST .. | --contents FILE)

Where the guests are now is read from their names, or from --hosts, as `pageshare fleet` does it. --memory has the hosts' memory, as
CSV with the head host,memory, in MiB; by default a host has as much as the guests on it have now. The lines of --apart and --together
are guests with commas between them, which may not be on one host and which must be. --fixed has a guest on each line, which stays.
--moves is the most guests that are moved. Without --spare a host never gets more guest memory than it has; with it a host may get
more, as long as so many MiB are left beside the frames that sharing leaves. --plan writes the placement for `pageshare fleet --hosts`,
and --svg a picture of each host before and after. --contents is a table that fleet_dask.py wrote. greedy.py says how hosts are chosen.
Needs Debian's python3-numpy and python3-scipy.
"""
from __future__ import annotations

import argparse
import collections
import csv
import dataclasses
import json
import sys
from collections.abc import Callable, Iterable, Mapping, Sequence
from typing import Any, TextIO

try:
    import numpy
    from scipy import sparse
except ImportError:
    sys.exit("fleet/place.py needs numpy and scipy: apt-get install python3-numpy python3-scipy")

import digests
import greedy
import guests as of_guests
import order
import picture
from hosts import host_of, listed_hosts
from placing import Problem

PAGES_OF_A_MEBIBYTE = 256


def lines_of(path: str | None) -> list[list[str]]:
    """The lines of a file, each a list of fields; none where there is no file."""
    if path is None:
        return []
    with open(path, encoding="ascii", newline="") as file:
        return [row for row in csv.reader(file) if row]


def table_of(path: str | None, head: list[str]) -> dict[str, str]:
    """A table of two columns with this head, as a dictionary."""
    rows = lines_of(path)
    if path is None:
        return {}
    if not rows or rows[0] != head:
        raise ValueError(f"{path}: line 1: begin with the line {','.join(head)}")
    for number, row in enumerate(rows, 1):
        if len(row) != 2:
            raise ValueError(f"{path}: line {number}: give two fields with a comma between them")
    found = dict(rows[1:])
    if len(found) != len(rows) - 1:
        raise ValueError(f"{path}: give each {head[0]} once")
    return found


# The object of a plan, and each guest's host after it.
Plan = tuple[dict[str, Any], numpy.ndarray]


class Asked:
    """The guests, the hosts, and what must hold."""

    def __init__(self, words: argparse.Namespace) -> None:
        self.words = words
        self.guests = of_guests.of_table(words.contents) if words.contents else of_guests.of_digests(words.digests)
        if not self.guests.names:
            raise ValueError("no digest has a line")
        self.place = {name: number for number, name in enumerate(self.guests.names)}
        listed = listed_hosts(words.hosts)
        self.start = [host_of(name, listed) for name in self.guests.names]
        given = table_of(words.memory, ["host", "memory"])
        self.hosts = list(dict.fromkeys([*self.start, *given]))
        number = {host: at for at, host in enumerate(self.hosts)}
        self.host_of = numpy.array([number[host] for host in self.start])
        self.memory = numpy.bincount(self.host_of, self.guests.pages, len(self.hosts))
        for host, memory in given.items():
            self.memory[number[host]] = float(memory) * PAGES_OF_A_MEBIBYTE
        self.units = self.grouped(self.groups(words.together))

    def groups(self, path: str | None) -> list[list[int]]:
        """The groups of guests of a file. A guest that no digest has is left out."""
        return [[self.place[name] for name in row if name in self.place] for row in lines_of(path)]

    def grouped(self, groups: list[list[int]]) -> list[list[int]]:
        """The guests as units that stay together."""
        leader = list(range(len(self.guests.names)))

        def top(guest: int) -> int:
            while leader[guest] != guest:
                guest = leader[guest]
            return guest

        for group in groups:
            for guest in group[1:]:
                leader[top(guest)] = top(group[0])
        units: dict[int, list[int]] = {}
        for guest in range(len(leader)):
            units.setdefault(top(guest), []).append(guest)
        return list(units.values())

    def problem(self) -> Problem:
        """The problem of placing the units."""
        words, guests = self.words, self.guests
        unit_of = {guest: unit for unit, inside in enumerate(self.units) for guest in inside}
        rows = numpy.array([unit_of[guest] for guest in range(len(guests.names))])
        joined = sparse.csr_matrix((numpy.ones(len(rows)), (rows, range(len(rows)))), (len(self.units), len(rows)))
        has = (joined @ guests.has()).tocsr()
        has.data[:] = 1
        has.sort_indices()
        stays = collections.Counter(zip(rows.tolist(), self.host_of.tolist()))
        start, fixed = self.starts(unit_of, stays)
        return Problem(
            has=has, weight=guests.weight, own=joined @ guests.own_frames, pages=joined @ guests.pages,
            sizes=numpy.array([len(inside) for inside in self.units]), memory=self.memory, start=start, stays=stays, fixed=fixed,
            apart=[sorted({unit_of[guest] for guest in group}) for group in self.groups(words.apart)],
            spare=None if words.spare is None else words.spare * PAGES_OF_A_MEBIBYTE, most_moves=words.moves,
        )

    def starts(self, unit_of: Mapping[int, int], stays: Mapping[tuple[int, int], int]) -> tuple[numpy.ndarray, numpy.ndarray]:
        """The host on which each unit begins, that of most of its guests or of one that stays; and which units stay."""
        fixed, start = numpy.zeros(len(self.units), bool), numpy.zeros(len(self.units), int)
        for (unit, host), guests in sorted(stays.items()):
            if guests > stays.get((unit, int(start[unit])), 0):
                start[unit] = host
        for name in (name for row in lines_of(self.words.fixed) for name in row if name in self.place):
            unit, host = unit_of[self.place[name]], self.host_of[self.place[name]]
            if fixed[unit] and start[unit] != host:
                raise ValueError(f"{name}: stays, but is to be together with a guest that stays on another host")
            fixed[unit], start[unit] = True, host
        return start, fixed

    def limits(self) -> numpy.ndarray:
        """The frames that each host may need while guests are moved."""
        return self.memory - (self.words.spare or 0) * PAGES_OF_A_MEBIBYTE

    def spread(self, host_of: Sequence[int]) -> numpy.ndarray:
        """The host of each guest, from those of the units."""
        found = numpy.empty(len(self.guests.names), int)
        for unit, inside in enumerate(self.units):
            found[inside] = host_of[unit]
        return found


def report(asked: Asked, moves: Iterable[tuple[int, int]], bound: float, how: str) -> dict[str, Any]:
    """The object of a plan."""
    guests, hosts = asked.guests, asked.hosts
    frames = order.Frames(guests, asked.host_of)
    before, listed = frames.total(), []
    for guest, host in moves:
        saved = frames.move(guest, host)
        listed.append({"guest": guests.names[guest], "from": hosts[frames.was], "to": hosts[host], "reclaimed": round(saved)})
    pages = int(guests.pages.sum())
    return {
        "page_bytes": digests.PAGE_BYTES, "sample": guests.sample, "pages": pages, "moves": listed,
        "before": {"frames": round(before), "reclaimed": pages - round(before)},
        "after": {"frames": round(frames.total()), "reclaimed": pages - round(frames.total())},
        "bound": {"frames": round(min(bound, frames.total())), "by": how},
        "guests": [{"guest": name, "host": hosts[host]} for name, host in zip(guests.names, frames.host_of)],
    }


def print_table(found: Mapping[str, Any], out: TextIO = sys.stdout) -> None:
    """The plan as a table for people."""
    wide = max([5, *(len(move["guest"]) for move in found["moves"])])
    if found["sample"] > 1:
        print(f"An estimate from one content in {found['sample']}. Count the plan with whole digests before you rely on it.\n", file=out)
    print(f"{'guest':<{wide}}  {'from':<20}  {'to':<20}  {'reclaimed':>10}", file=out)
    for move in found["moves"]:
        print(f"{move['guest']:<{wide}}  {move['from']:<20}  {move['to']:<20}  {move['reclaimed']:>10}", file=out)
    before, after, bound = found["before"]["frames"], found["after"]["frames"], found["bound"]["frames"]
    print(f"\n{len(found['moves'])} moves: {before} frames before, {after} after, {before - after} reclaimed", file=out)
    print(f"no such plan needs fewer than {bound} frames, by {found['bound']['by']}", file=out)
    if after < before and bound < before:
        print(f"so this one reclaims at least {100 * (before - after) / (before - bound):.1f} % of what any such plan reclaims", file=out)


def planned(asked: Asked) -> Plan:
    """The object of a plan, and each guest's host after it."""
    problem, guests = asked.problem(), asked.guests
    pool = float(guests.own_frames.sum() + guests.weight.sum())
    while True:
        placement = greedy.placed(problem)
        target = asked.spread(placement.host_of)
        try:
            moves = order.ordered(guests, asked.host_of, target, asked.limits(), asked.groups(asked.words.apart))
        except order.NoOrder:
            # (fewer moves may have an order)
            if placement.moved == 0:
                raise
            problem = dataclasses.replace(problem, most_moves=placement.moved // 2)
        else:
            return report(asked, moves, pool, "one host with all guests"), target


def options(usage: str) -> argparse.ArgumentParser:
    """What the words may be."""
    words = argparse.ArgumentParser(usage=usage)
    for name in ("hosts", "memory", "apart", "together", "fixed", "plan", "svg", "contents"):
        words.add_argument(f"--{name}")
    words.add_argument("--moves", type=int)
    words.add_argument("--spare", type=float)
    words.add_argument("--json", action="store_true")
    words.add_argument("digests", nargs="*")
    return words


def run(options: argparse.ArgumentParser, planned: Callable[[Asked], Plan]) -> int:
    """Prints a plan as the words ask for it."""
    words = options.parse_args()
    if bool(words.contents) == bool(words.digests):
        options.error("give digests, or --contents")
    try:
        asked = Asked(words)
        found, target = planned(asked)
        if words.plan:
            with open(words.plan, "w", encoding="ascii") as out:
                out.write("guest,host\n")
                out.writelines(f"{one['guest']},{one['host']}\n" for one in found["guests"])
        if words.svg:
            with open(words.svg, "w", encoding="utf-8") as out:
                out.write(picture.text_of(asked.guests, asked.hosts, asked.host_of, target))
    except (digests.Fault, OSError, ValueError) as fault:
        print(fault, file=sys.stderr)
        return 1
    if words.json:
        print(json.dumps(found, separators=(",", ":")))
    else:
        print_table(found)
    return 0


if __name__ == "__main__":
    sys.exit(run(options(__doc__.split("\n\n")[1].strip()), planned))
