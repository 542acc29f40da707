"""The numbers of a fleet, from how often each kind of line and of content came. Standard library only.

A line is a content of one guest, with `copies`, how many of the guest's pages have it. A content has `copies` in all guests, and
`guests`, how many have it. The numbers are sums over lines or contents: with a sample K, those of zeros are whole, and each other
one stands for K, since K in K contents are as good as drawn at random. The variance of such a sum of x is estimated by K(K - 1)
times the kept x squared, and its standard error is the root of that, rounded down.
"""
from __future__ import annotations

import math
from collections.abc import Callable, Iterable, Iterator, Mapping, Sequence
from typing import Any, NamedTuple, TypeVar

from digests import PAGE_BYTES, Head

FOR_A_GUEST = ("distinct", "shared", "alone")
IN_TOTAL = ("shared", "frames", "reclaimed", "between")
# The members of an object, by their names.
Numbers = dict[str, Any]


class Line(NamedTuple):
    """A kind of line: of which file, whether it is of zeros, its copies, and whether another page of the fleet has its content."""

    file: int
    zero: bool
    copies: int
    shared: bool


class Content(NamedTuple):
    """A kind of content: whether it is zeros, its copies, and how many guests have it."""

    zero: bool
    copies: int
    guests: int


Kind = TypeVar("Kind", Line, Content)


def summed(kinds: Iterable[tuple[Kind, int]], sample: int, worth: Callable[[Kind], int]) -> tuple[int, int]:
    """The sum of what each line or content is worth, and its standard error. `kinds` has how often each kind came."""
    total = squares = 0
    for kind, times in kinds:
        value = worth(kind)
        total += value * times * (1 if kind.zero else sample)
        squares += 0 if kind.zero else value * value * times
    return total, math.isqrt(sample * (sample - 1) * squares)


def shared_pages(kind: Line) -> int:
    return kind.copies if kind.shared else 0


def with_errors(known: Mapping[str, Any], sums: Mapping[str, tuple[int, int]], sample: int) -> Numbers:
    """An object's members: what is known exactly, and what is summed; with a sample, the standard errors of the latter too."""
    members = dict(known)
    members.update((name, value) for name, (value, _error) in sums.items())
    if sample > 1:
        members["errors"] = {name: error for name, (_value, error) in sums.items()}
    return members


def guest_numbers(head: Head | None, kinds: Sequence[tuple[Line, int]], sample: int) -> Numbers:
    """The numbers of a guest, from its kinds of lines. A digest without lines has no name, no salt and no pages."""
    zero = sum(kind.copies * times for kind, times in kinds if kind.zero)
    known = {"guest": head and head.guest, "salt": head and head.salt, "pages": head.pages if head else 0, "zero": zero}
    worth: dict[str, Callable[[Line], int]] = {"distinct": lambda _: 1, "shared": shared_pages, "alone": lambda kind: kind.copies - 1}
    sums = {name: summed(kinds, sample, worth[name]) for name in FOR_A_GUEST}
    return with_errors(known, sums, sample)


def parts_of(zeros: int, kinds: Sequence[tuple[Content, int]], sample: int) -> tuple[dict[str, int], int]:
    """What could be reclaimed in parts that add up to it, and a bound of the standard error of the last one."""
    others = [(kind, times) for kind, times in kinds if not kind.zero]
    between = sum((kind.guests - 1) * times for kind, times in others)
    within = sum((kind.copies - kind.guests) * times for kind, times in others)
    squares = sum(((kind.copies - 1) ** 2 - (kind.guests - 1) ** 2) * times for kind, times in others)
    parts = {"zeros": zeros, "between": sample * between, "within": sample * within}
    return parts, math.isqrt(sample * (sample - 1) * squares)


def total_numbers(guests: Sequence[Numbers], kinds: Sequence[tuple[Content, int]], sample: int) -> Numbers:
    """The numbers of all guests, from the kinds of contents."""
    zero = sum(guest["zero"] for guest in guests)
    worth: dict[str, Callable[[Content], int]] = {
        "shared": lambda kind: kind.copies if kind.copies > 1 else 0, "frames": lambda _: 1,
        "reclaimed": lambda kind: kind.copies - 1, "between": lambda kind: kind.guests - 1,
    }
    sums = {name: summed(kinds, sample, worth[name]) for name in IN_TOTAL}
    known = {"pages": sum(guest["pages"] for guest in guests), "zero": zero}
    members = with_errors(known, sums, sample)
    order = ["pages", "zero", "shared", "frames", "reclaimed", "zero_reclaimed", "between", "parts", "errors"]
    members["zero_reclaimed"] = zero - sum(times for kind, times in kinds if kind.zero)
    members["parts"], error = parts_of(members["zero_reclaimed"], kinds, sample)
    if sample > 1:
        members["errors"]["within"] = error
    return {name: members[name] for name in order if name in members}


def class_numbers(kinds: Iterable[tuple[Content, int]], sample: int) -> Iterator[Numbers]:
    """The classes of copies, 1, 2, 3 to 4, 5 to 8 and so on, that have contents."""
    classes: dict[int, list[tuple[Content, int]]] = {}
    for kind, times in kinds:
        classes.setdefault((kind.copies - 1).bit_length(), []).append((kind, times))
    for number, own in sorted(classes.items()):
        known = {"from": (1 << number) // 2 + 1, "to": 1 << number}
        sums = {"contents": summed(own, sample, lambda _: 1), "pages": summed(own, sample, lambda kind: kind.copies)}
        yield with_errors(known, sums, sample)


def sum_of(rows: Sequence[Numbers], pool: Numbers) -> Numbers:
    """The sum of the hosts' numbers. A content is in the sample of all hosts or of none, so the standard errors are added up; but for frames
    they are at most the pool's, in which each content counts at least as much as on all hosts together."""
    members = {name: sum(row[name] for row in rows) for name in rows[0] if name not in ("parts", "errors")}
    members["parts"] = {name: sum(row["parts"][name] for row in rows) for name in rows[0]["parts"]}
    if "errors" in pool:
        sums = {name: sum(row["errors"][name] for row in rows) for name in pool["errors"]}
        members["errors"] = {name: total if name == "frames" else min(total, pool["errors"][name]) for name, total in sums.items()}
    return members


def host_members(
    guests: Sequence[Numbers], hosts: Sequence[tuple[int, str]], by_host: Mapping[int, Mapping[Content, int]], pool: Numbers, sample: int,
) -> Numbers:
    """The members of the object that are by host: each file's host is in `hosts`, and its kinds of contents in `by_host`."""
    rows: dict[int, tuple[str, list[Numbers]]] = {}
    for guest, (number, name) in zip(guests, hosts):
        if guest["guest"] is not None:
            rows.setdefault(number, (name, []))[1].append(guest)
    members: list[Numbers] = [
        {"host": name, "guests": len(own), "total": total_numbers(own, list(by_host.get(number, {}).items()), sample)}
        for number, (name, own) in sorted(rows.items())
    ]
    return {"hosts": members, "on_hosts": sum_of([row["total"] for row in members], pool)}


def fleet_numbers(
    heads: Sequence[Head | None], lines: Mapping[Line, int], contents: Mapping[Content, int], hosts: Sequence[tuple[int, str]] = (),
    by_host: Mapping[int, Mapping[Content, int]] | None = None,
) -> Numbers:
    """The object of a fleet: each file's head, None where it has no line, and how often each kind of line and of content came. With
    `hosts`, the number and the name of each file's host, and `by_host`, how often each kind of content came on each host, it has the
    numbers by host, too."""
    sample = next((head.sample for head in heads if head), 1)
    of_files: list[list[tuple[Line, int]]] = [[] for _ in heads]
    for kind, times in lines.items():
        of_files[kind.file].append((kind, times))
    guests = [guest_numbers(head, own, sample) for head, own in zip(heads, of_files)]
    kinds = list(contents.items())
    members: Numbers = {"page_bytes": PAGE_BYTES}
    if sample > 1:
        members.update(sample=sample, kept=sum(contents.values()))
    total = total_numbers(guests, kinds, sample)
    members.update(guests=guests)
    if hosts:
        members.update(host_members(guests, hosts, by_host or {}, total, sample))
    members.update(total=total, copies=list(class_numbers(kinds, sample)))
    return members
