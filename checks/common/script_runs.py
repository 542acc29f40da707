"""What must hold of a script, however its threads meet: it's looked at beside what the program writes of it in other ways."""
from __future__ import annotations

import itertools
from collections.abc import Iterable, Mapping, Sequence

from harness import run

KINDS = {
    "propose": {"no-page", "unmapped", "already", "joined", "paired", "hinted", "kept", "replaced", "ineligible"},
    "store": {"no-page", "mapped", "stored", "copied", "taken", "no-frame"},
    "load": {"no-page", "bytes"},
    "release": {"no-page", "unmapped", "released"},
    "count": {"totals"},
    "close": {"closed"},
}
SECONDS = 300


class Differs(Exception):
    """What differs."""


def say(program: str, words: list[str], text: str) -> list[str]:
    """The lines that a command writes of a text."""
    done = run([program, *words], text, seconds=SECONDS)
    if done.returncode != 0:
        raise Differs(f"{' '.join(words)}: status {done.returncode}: {done.stdout[:200]!r}{done.stderr[:200]!r}")
    if not done.stdout.endswith(b"\n"):
        raise Differs(f"{' '.join(words)}: a last line without a line feed")
    return done.stdout.decode().splitlines()


def by_guest(lines: Iterable[str]) -> dict[int, list[str]]:
    """Each guest's lines, without its number."""
    lists: dict[int, list[str]] = {}
    for line in lines:
        guest, rest = line.split(" ", 1)
        lists.setdefault(int(guest), []).append(rest)
    return lists


def requests_of(journal: list[str]) -> tuple[list[str], list[str]]:
    """The request lines of a journal, and its other lines before them."""
    start = 4 if journal[0].endswith(" 2") else 3
    return journal[start:-1], journal[:start]


def expect(what: str, one: object, other: object) -> None:
    """Two that must be equal."""
    if one != other:
        raise Differs(what)


def serial_order(lists: Mapping[int, Sequence[str]], guests: int) -> list[str]:
    """One request of each guest in turn, guest 0 first, guests that have ended left out."""
    turns = itertools.zip_longest(*([(guest, line) for line in lists[guest]] for guest in range(guests)))
    return [f"{pair[0]} {pair[1]}" for turn in turns for pair in turn if pair]


def expect_verdicts(guest: int, asked: Sequence[str], *answered: Sequence[str]) -> None:
    """A guest's close comes last, and each list of verdicts has one for each request, of the kinds that it can get."""
    kinds = [line.split()[0] for line in asked]
    expect(f"the close of guest {guest}", kinds.index("close"), len(kinds) - 1)
    for lines in answered:
        expect(f"the number of guest {guest}'s verdicts", len(lines), len(kinds))
        expect(f"the kinds of guest {guest}'s verdicts", all(v.split()[0] in KINDS[k] for v, k in zip(lines, kinds)), True)


def look(program: str, text: str, is_apart: bool) -> int:
    """Looks at one script, and returns the number of its requests. Guests that are apart can't see one another."""
    journal = say(program, ["run", "--journal"], text)
    asked_lines, head = requests_of(journal)
    guests, asked = len(head[2].split()) - 1, by_guest(asked_lines)
    # The script's own requests, in order: its serial journal is the same script with one guest after the other.
    replayed = say(program, ["replay"], "\n".join(journal) + "\n")
    expect("the replay's report", replayed[-1].split()[2], str(len(asked_lines)))
    answers, got = by_guest(replayed[:-1]), by_guest(say(program, ["run"], text)[:-1])
    order = serial_order(asked, guests)
    serial = "\n".join([*head, *order, f"end {len(order)}"]) + "\n"
    expect("serial", say(program, ["serial"], text), say(program, ["replay"], serial))
    for guest in range(guests):
        expect_verdicts(guest, asked[guest], answers[guest], got[guest])
        if is_apart:
            expect(f"guest {guest}'s verdicts", got[guest], answers[guest])
    return len(asked_lines)
