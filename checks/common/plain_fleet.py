"""Digests written and counted plainly, for the checks of fleets: by hashlib, dictionaries and the definitions. Standard library only."""
from __future__ import annotations

import collections
import hashlib
import math
from collections.abc import Iterable, Iterator, Mapping, Sequence
from typing import Any, Union

PAGE = 4096
ZEROS = bytes(PAGE)
HEADER = "guest,salt,pages,sample,digest,copies\n"
# The numbers of a guest or a fleet, by their names in `fleet --json`.
Numbers = dict[str, Any]
# A line of a digest: the guest, its salt and pages, the sample, the digest and how many copies the guest has.
Row = tuple[str, int, int, int, str, int]
# Which host a list gives a guest; nothing where there is no list.
Listed = Union[Mapping[str, str], tuple[()], None]


def digest(salt: int, page: bytes) -> str:
    """The first 16 bytes of SHA-256 of the page, or of the salt's four big-endian bytes and the page, as digits."""
    return hashlib.sha256((salt.to_bytes(4, "big") if salt else b"") + page).hexdigest()[:32]


def is_kept(salt: int, sample: int, word: str) -> bool:
    return int(word[-4:], 16) % sample == 0 or word == digest(salt, ZEROS)


def text_of_copies(guest: str, salt: int, sample: int, copies: Mapping[str, int]) -> str:
    """The digest's text of a guest that has so many copies of each digest."""
    pages, zeros = sum(copies.values()), digest(salt, ZEROS)
    kept = sorted(word for word in copies if int(word[-4:], 16) % sample == 0 or word == zeros)
    return HEADER + "".join(f"{guest},{salt},{pages},{sample},{word},{copies[word]}\n" for word in kept)


def text_of_pages(guest: str, salt: int, sample: int, pages: Iterable[bytes]) -> str:
    copies: collections.Counter[str] = collections.Counter()
    for page, count in collections.Counter(pages).items():
        copies[digest(salt, page)] += count
    return text_of_copies(guest, salt, sample, copies)


class Amounts:
    """A sum over contents of what each adds: those of zeros once, each other one K times, with its standard error."""

    def __init__(self, sample: int) -> None:
        self.sample, self.exact = sample, 0
        self.added: list[int] = []

    def add(self, is_zero: bool, value: int) -> None:
        if is_zero:
            self.exact += value
        else:
            self.added.append(value)

    def value(self) -> int:
        return self.exact + self.sample * sum(self.added)

    def error(self) -> int:
        return math.isqrt(self.sample * (self.sample - 1) * sum(value * value for value in self.added))


def members(known: Numbers, amounts: Mapping[str, Amounts], sample: int) -> Numbers:
    numbers = {**known, **{name: amount.value() for name, amount in amounts.items()}}
    if sample > 1:
        numbers["errors"] = {name: amount.error() for name, amount in amounts.items()}
    return numbers


def rows_of(text: str) -> list[Row]:
    rows = [line.split(",") for line in text.splitlines()[1:]]
    return [(guest, int(salt), int(pages), int(sample), word, int(own)) for guest, salt, pages, sample, word, own in rows]


def guest_of(rows: Sequence[Row], copies: Mapping[str, int], sample: int) -> Numbers:
    """The numbers of one guest, by its lines and by how many copies the fleet has of each digest."""
    amounts = {name: Amounts(sample) for name in ("distinct", "shared", "alone")}
    zero, zeros = 0, {salt: digest(salt, ZEROS) for salt in {row[1] for row in rows}}
    for _guest, salt, _pages, _sample, word, own in rows:
        is_zero = word == zeros[salt]
        zero += own if is_zero else 0
        amounts["distinct"].add(is_zero, 1)
        amounts["shared"].add(is_zero, own if copies[word] > 1 else 0)
        amounts["alone"].add(is_zero, own - 1)
    named = dict(zip(("guest", "salt", "pages"), rows[0][:3] if rows else (None, None, 0)))
    return members({**named, "zero": zero}, amounts, sample)


def total_of(guests: Sequence[Numbers], copies: Mapping[str, int], owners: Mapping[str, int], zeros: set[str], sample: int) -> Numbers:
    names = ("shared", "frames", "reclaimed", "between")
    amounts = {name: Amounts(sample) for name in names}
    for word, count in copies.items():
        adds = (count if count > 1 else 0, 1, count - 1, owners[word] - 1)
        for name, value in zip(names, adds):
            amounts[name].add(word in zeros, value)
    zero = sum(guest["zero"] for guest in guests)
    known = {"pages": sum(guest["pages"] for guest in guests), "zero": zero, "zero_reclaimed": zero - len(zeros & set(copies))}
    numbers = members(known, amounts, sample)
    others = [(count, owners[word]) for word, count in copies.items() if word not in zeros]
    numbers["parts"] = {
        "zeros": known["zero_reclaimed"], "between": sample * sum(own - 1 for _count, own in others),
        "within": sample * sum(count - own for count, own in others),
    }
    if sample > 1:
        # (an upper bound: each content's own square is at most the difference of the two)
        squares = sum((count - 1) ** 2 - (own - 1) ** 2 for count, own in others)
        assert squares >= sum((count - own) ** 2 for count, own in others)
        numbers["errors"]["within"] = math.isqrt(sample * (sample - 1) * squares)
    order = ("pages", "zero", "shared", "frames", "reclaimed", "zero_reclaimed", "between", "parts", "errors")
    return {name: numbers[name] for name in order if name in numbers}


def classes_of(copies: Mapping[str, int], zeros: set[str], sample: int) -> Iterator[Numbers]:
    """The classes 1, 2, 3 to 4, 5 to 8 and so on that have contents."""
    classes = collections.defaultdict(list)
    for word, count in copies.items():
        classes[next(n for n in range(65) if count <= 2**n)].append((word, count))
    for number, inside in sorted(classes.items()):
        amounts = {"contents": Amounts(sample), "pages": Amounts(sample)}
        for word, count in inside:
            amounts["contents"].add(word in zeros, 1)
            amounts["pages"].add(word in zeros, count)
        yield members({"from": 2**number // 2 + 1, "to": 2**number}, amounts, sample)


def in_common(own: Mapping[str, int], other: Mapping[str, int], zeros: set[str], sample: int) -> Iterator[int]:
    """What two guests have in common, by how many copies they have of each digest: its fields as they are written."""
    contents, pages = Amounts(sample), Amounts(sample)
    for word in own.keys() & other.keys():
        contents.add(word in zeros, 1)
        pages.add(word in zeros, own[word] + other[word] - 1)
    for amount in (contents, pages):
        yield amount.value()
        if sample > 1:
            yield amount.error()


def pairs_text(texts: Iterable[str]) -> str:
    """What each two guests of a fleet of digests with one sample, given as texts, have in common, as CSV."""
    files = [rows_of(text) for text in texts]
    rows = [row for own in files for row in own]
    sample = rows[0][3] if rows else 1
    zeros = {digest(salt, ZEROS) for salt in {row[1] for row in rows}}
    guests = [(own[0][0] if own else "", {row[4]: row[5] for row in own}) for own in files]
    fields = ("contents", "contents_error", "pages", "pages_error") if sample > 1 else ("contents", "pages")
    lines: list[tuple[object, ...]] = [("guest", "guest", *fields)]
    for place, (name, own) in enumerate(guests):
        lines += [(name, other_name, *in_common(own, other, zeros, sample)) for other_name, other in guests[place + 1:]]
    return "".join(",".join(map(str, line)) + "\n" for line in lines)


def host_of(guest: str, listed: Listed) -> str:
    """A guest's host: as a list says, and else what comes before the first dot of its name."""
    return (listed or {}).get(guest, guest.split(".")[0])


def by_host(texts: Iterable[str], listed: Listed) -> dict[str, list[str]]:
    """The texts of each host's digests, by the hosts' names. None if there are fewer than two hosts, or if there is no list and no host has
    two guests of different names."""
    found: dict[str, list[str]] = {}
    guests = set()
    for text in texts:
        rows = rows_of(text)
        if rows:
            found.setdefault(host_of(rows[0][0], listed), []).append(text)
            guests.add(rows[0][0])
    return found if len(found) > 1 and (listed is not None or len(guests) > len(found)) else {}


def on_hosts(texts: Iterable[str], listed: Listed, pool: Numbers) -> Numbers:
    """The members of a fleet's object that are by host: each host's fleet by itself, and their sum."""
    hosts = [{"host": name, "guests": len(own), "total": counted(own, None)["total"]} for name, own in by_host(texts, listed).items()]
    if not hosts:
        return {}
    rows = [host["total"] for host in hosts]
    total = {name: sum(row[name] for row in rows) for name in rows[0] if name not in ("parts", "errors")}
    total["parts"] = {name: sum(row["parts"][name] for row in rows) for name in rows[0]["parts"]}
    if "errors" in pool:
        total["errors"] = {name: sum(row["errors"][name] for row in rows) for name in pool["errors"]}
        for name in total["errors"].keys() - {"frames"}:
            total["errors"][name] = min(total["errors"][name], pool["errors"][name])
    return {"hosts": hosts, "on_hosts": total}


def counted(texts: Sequence[str], listed: Listed = ()) -> Numbers:
    """The object of a fleet of digests with one sample, given as texts. `listed` are the hosts that a list gives to guests; by default they
    are those of the names, and with None nothing is by host."""
    files = [rows_of(text) for text in texts]
    rows = [row for own in files for row in own]
    sample = rows[0][3] if rows else 1
    copies: collections.Counter[str] = collections.Counter()
    owners: collections.Counter[str] = collections.Counter()
    for _guest, _salt, _pages, _sample, word, own in rows:
        copies[word] += own
        owners[word] += 1
    zeros = {digest(salt, ZEROS) for salt in {row[1] for row in rows}}
    guests = [guest_of(own, copies, sample) for own in files]
    found = {"page_bytes": PAGE}
    if sample > 1:
        found |= {"sample": sample, "kept": len(copies)}
    total = total_of(guests, copies, owners, zeros, sample)
    hosts = {} if listed is None else on_hosts(texts, listed or None, total)
    return {**found, "guests": guests, **hosts, "total": total, "copies": list(classes_of(copies, zeros, sample))}
