"""Windows that come and go as chance has it, beside a list of which numbers are taken; and transfers beside a list."""
from __future__ import annotations

import random

from common.compared import Compared
from common.window_library import Library
from harness import Tally

# The numbers that there may be, the windows, and the moves.
NUMBERS, WINDOWS, MOVES = 512, 8, 5_000
PLACES = 3


def numbers(library: Library, seen: Compared, chance: random.Random) -> None:
    """A new window gets the least numbers in a row that are free."""
    windows = [(0, 0)] * WINDOWS
    for _ in range(MOVES):
        place, count = chance.randrange(WINDOWS), 1 + chance.randrange(20)
        windows[place] = (0, 0)
        if chance.random() < 0.5:
            taken = {number for base, many in windows for number in range(base, base + many)}
            due = next(base for base in range(NUMBERS) if not taken & set(range(base, base + count)))
            base = library.make("uint32_t")
            seen.holds("find_numbers", library.call("find_numbers", library.array("taken", windows), WINDOWS, count, base))
            seen.equal("a base", base.value, due)
            windows[place] = (due, count)


def transfers(library: Library, seen: Compared, chance: random.Random) -> None:
    """Transfers have the first free place, or are counted."""
    table, elsewhere = library.array("transfer", [()] * PLACES), library.make("uint64_t")
    known: list[tuple[int, int] | None] = [None] * PLACES
    many = 0
    for _ in range(MOVES):
        begin = chance.randrange(40)
        end = begin + chance.randrange(10)
        if chance.random() < 0.5:
            place = known.index(None) if None in known else PLACES
            seen.equal("begin_transfer", library.call("begin_transfer", table, PLACES, elsewhere, begin, end), place)
            many += place == PLACES
            known[place : place + 1] = [(begin, end)] if place < PLACES else []
        else:
            place = chance.randrange(PLACES + 1)
            library.call("end_transfer", table, PLACES, elsewhere, place)
            many = max(many - (place == PLACES), 0)
            known[place : place + 1] = [None] if place < PLACES else []
        seen.equal("elsewhere", elsewhere.value, many)
        seen.equal("transfers", [(it.begin, it.end) if it.is_there else None for it in table], known)


def run(tally: Tally, library: Library) -> None:
    """Numbers and transfers."""
    seen, chance = Compared(tally, "numbers and transfers as chance has it"), random.Random(1)
    for part in (numbers, transfers):
        part(library, seen, chance)
    seen.close()
