#!/usr/bin/env python3
"""Looks that one tenant's guests get the same verdicts whether or not another tenant's guests ask anything (`salts_apart_law`).

    checks/tenants.py [COUNT [SEED [PROGRAM]]]

COUNT random journals, by default 1,000, follow from SEED, by default 1. In each the guests of two tenants have two salts. The journal
is replayed whole, and without the second tenant's entries. Where both premises of the law hold, the lines of the first tenant's
guests must be the same, but for the numbers of `totals`. The premises are worked out here, from the requests and their verdicts:

- none of these lines is `no-frame`;
- no key under which one of these guests proposed a private page is one under which a guest of the second tenant did. A key is
  the low half of the first eight bytes of SHA-256 over salt and page (docs/MODEL.md, *Hash types*), and the page is what the
  stores and releases before have left.

At the end of each journal the first tenant's guests load, propose and release each page, so that its state is compared, too. Other
journals aren't compared; the output says how many of them have other lines. PROGRAM is by default out/pageshare (`make build`). Leaves the
first journal with a wrong line at out/tenants.journal. The last line is `N passed, M failed`, of journals that met both premises
(status 0 where there are some and all passed, else 1).
"""
from __future__ import annotations

import argparse
import collections
import concurrent.futures
import hashlib
import os
import random
import sys
from collections.abc import Iterator, Sequence

from common.plain_fleet import PAGE
from common.random_texts import header, request, text_of
from harness import PROGRAM, Tally, leave, run

# For two salts the first bytes of pages, zeros behind them, that have different hashes and one key.
CLASH = {0: bytes.fromhex("0000aa3c"), 7: bytes.fromhex("0000a6aa")}
DONE = {"mapped", "stored", "copied", "taken"}
NOT_PRIVATE = {"no-page", "unmapped", "already"}


def hash_of(salt: int, page: bytes) -> int:
    salted = (salt.to_bytes(4, "big") if salt else b"") + page
    return int.from_bytes(hashlib.sha256(salted).digest()[:8], "big")


def key_of(salt: int, page: bytes) -> int:
    return hash_of(salt, page) % 2**32


def guest_of(line: str) -> int:
    return int(line.split(" ", 1)[0])


def case(seed: int, nth: int) -> tuple[list[str], list[str], list[int], set[int]]:
    """Journal number nth: its first lines, its requests, its salts, and the first tenant's guests."""
    rng = random.Random(f"{seed} {nth}")
    tenants = rng.sample(sorted(CLASH), 2) if rng.random() < 0.5 else rng.sample(range(2**32), 2)
    owners = [0, 1] + [rng.randrange(2) for _ in range(rng.randrange(5))]
    rng.shuffle(owners)
    salts = [tenants[owner] for owner in owners]
    pages = [rng.randint(1, 4) for _ in owners]
    frames = sum(pages) if rng.random() < 0.5 else rng.randint((sum(pages) + 1) // 2, sum(pages))
    requests = []
    for _ in range(rng.choice([20, 60, 200])):
        line = request(rng, pages)
        guest = guest_of(line)
        if salts[guest] in CLASH and rng.random() < 0.04:
            line = f"{guest} store {rng.randrange(pages[guest])} 0 {CLASH[salts[guest]].hex()}"
        requests.append(line)
    first = {guest for guest, owner in enumerate(owners) if owner == 0}
    for guest in sorted(first):
        for ppn in range(pages[guest]):
            requests += [f"{guest} load {ppn} 0 64", f"{guest} propose {ppn}", f"{guest} release {ppn}"]
    return header("journal", True, frames, pages, salts), requests, salts, first


def replayed(program: str, text: str) -> list[str]:
    """A verdict for each request, without the guest's number; without the numbers of `totals`, which count both tenants' pages."""
    done = run([program, "replay"], text)
    if done.returncode != 0 or not done.stdout.endswith(b"\n"):
        return [f"status {done.returncode}, {done.stdout[-80:]!r}"]
    verdicts = [line.split(" ", 1)[1] for line in done.stdout.decode().splitlines()[:-1]]
    return ["totals" if verdict.startswith("totals ") else verdict for verdict in verdicts]


def keys_proposed(requests: Sequence[str], verdicts: Sequence[str], salts: Sequence[int]) -> dict[int, set[int]]:
    """For each salt the keys under which its guests proposed private pages."""
    pages: dict[tuple[str, str | None], bytes] = collections.defaultdict(lambda: bytes(PAGE))
    keys: dict[int, set[int]] = collections.defaultdict(set)
    for line, verdict in zip(requests, verdicts):
        guest, kind, *words = line.split()
        page, salt = (guest, words[0] if words else None), salts[int(guest)]
        if kind == "store" and verdict in DONE:
            at, data = int(words[1]), bytes.fromhex(words[2])
            pages[page] = pages[page][:at] + data + pages[page][at + len(data) :]
        elif kind == "release" and verdict.startswith("released"):
            del pages[page]
        elif kind == "propose" and verdict not in NOT_PRIVATE:
            keys[salt].add(key_of(salt, pages[page]))
    return keys


def failing_premises(
    lines: Sequence[str], requests: Sequence[str], verdicts: Sequence[str], salts: Sequence[int], first: set[int],
) -> Iterator[str]:
    """The premises of the law that fail, in words."""
    own = {salts[guest] for guest in first}
    keys = keys_proposed(requests, verdicts, salts)
    ours = set().union(*(it for salt, it in keys.items() if salt in own))
    theirs = set().union(*(it for salt, it in keys.items() if salt not in own))
    if any(guest_of(line) in first and verdict == "no-frame" for line, verdict in zip(requests, verdicts)):
        yield "a store of the first tenant's got no frame"
    if ours & theirs:
        yield "a key is both tenants'"


def compared(program: str, seed: int, nth: int) -> tuple[int, str, bool]:
    """Which premises a journal doesn't meet, and whether the first tenant's lines are the same without the second one's entries."""
    lines, requests, salts, first = case(seed, nth)
    verdicts = replayed(program, text_of(lines, requests))
    own = [line for line in requests if guest_of(line) in first]
    whole = [verdict for line, verdict in zip(requests, verdicts) if guest_of(line) in first]
    is_same = len(verdicts) == len(requests) and whole == replayed(program, text_of(lines, own))
    return nth, " and ".join(failing_premises(lines, requests, verdicts, salts, first)), is_same


def wrong_lines(seed: int, nth: int, is_first: bool) -> str:
    """What to print of a journal with a wrong line, the first of which is left."""
    lines, requests, _salts, first = case(seed, nth)
    place = f"; it is at {leave('tenants.journal', text_of(lines, requests))}" if is_first else ""
    return f"guests {sorted(first)} get other lines without the others{place}"


def assert_clash() -> None:
    """The two pages of CLASH have one key and two hashes, so that journals come in which a premise fails."""
    zero, seven = ((salt, start + bytes(PAGE - len(start))) for salt, start in CLASH.items())
    assert key_of(*zero) == key_of(*seven) and hash_of(*zero) != hash_of(*seven)


def main() -> int:
    options = argparse.ArgumentParser(description=__doc__.splitlines()[0])
    options.add_argument("count", metavar="COUNT", nargs="?", type=int, default=1000)
    options.add_argument("seed", metavar="SEED", nargs="?", type=int, default=1)
    options.add_argument("program", metavar="PROGRAM", nargs="?", default=PROGRAM)
    given = options.parse_args()
    count, seed, program = given.count, given.seed, given.program
    assert_clash()
    tally = Tally()
    unmet: collections.Counter[str] = collections.Counter()
    other: collections.Counter[str] = collections.Counter()
    with concurrent.futures.ThreadPoolExecutor(os.cpu_count()) as pool:
        for nth, fails, is_same in pool.map(lambda nth: compared(program, seed, nth), range(count)):
            if fails:
                unmet[fails] += 1
                other[fails] += not is_same
            else:
                tally.case(f"journal {nth} of seed {seed}", [] if is_same else [wrong_lines(seed, nth, tally.failed == 0)])
    met = tally.passed + tally.failed
    print(f"{count} journals of seed {seed}: {met} met both premises, and {sum(unmet.values())} didn't")
    for fails, times in sorted(unmet.items()):
        print(f"{times:8} where {fails}; in {other[fails]} of them lines are others")
    if met == 0:
        tally.case("all journals", ["none met both premises"])
    return tally.close()


if __name__ == "__main__":
    sys.exit(main())
