"""Ranges that are offered and taken out as chance has it, beside a list of whose each page is."""
from __future__ import annotations

import random
from typing import Optional

from common.compared import Compared
from common.window_library import Library, values_of
from harness import Tally

# The pages, the places of the table, and the moves.
PAGES, PLACES, MOVES = 64, 6, 3_000
# Whose a page is, and its number there.
Owner = Optional[tuple[int, int]]


def find(library: Library, table: tuple[object, int], begin: int, end: int) -> tuple[int, ...] | None:
    """The first piece between two pages: its place, its pages, its window and its first page there."""
    piece = library.make("piece")
    return tuple(values_of(piece)) if library.call("next_piece", *table, begin, end, piece) else None


def run(tally: Tally, library: Library) -> None:
    """Before and after each move every page is the window's that the list says, under its number there."""
    seen, chance = Compared(tally, "ranges as chance has it"), random.Random(1)
    owners: list[Owner] = [None] * PAGES
    ranges, count = library.array("range", [()] * PLACES), library.make("size_t")
    for turn in range(MOVES):
        begin, window = chance.randrange(PAGES), turn + 1
        end = min(begin + chance.randrange(12), PAGES)
        some = [it for it in owners[begin:end] if it]
        if chance.random() < 0.5:
            due = begin < end and count.value < PLACES and not some
            seen.equal("add_range", library.call("add_range", ranges, PLACES, count, begin, end, window), due)
            if due:
                ranges[count.value - 1].window = window
                owners[begin:end] = [(window, number) for number in range(end - begin)]
        else:
            found = find(library, (ranges, count.value), begin, end)
            seen.equal("a piece", found is not None, bool(some))
            if found:
                place, at, to, of, first = found
                seen.equal("its pages", owners[at:to], [(of, first + number) for number in range(to - at)])
                seen.equal("what comes before it", [it for it in owners[begin:at] if it], [])
                is_split = ranges[place].begin < at and to < ranges[place].end
                due = not is_split or count.value < PLACES
                seen.equal("take_out", library.call("take_out", ranges, PLACES, count, place, at, to), due)
                if due:
                    owners[at:to] = [None] * (to - at)
        windows = {it[0] for it in owners if it}
        for number in range(PAGES):
            found = find(library, (ranges, count.value), number, number + 1)
            seen.equal(f"whose {number} is", found and (found[3], found[4]), owners[number])
        bounds = library.make("range_bounds")
        library.call("bounds", ranges, count.value, bounds)
        owned = [number for number, it in enumerate(owners) if it]
        seen.equal("bounds", values_of(bounds), (owned[0], owned[-1] + 1) if owned else (0, 0))
        seen.equal("is_part_left", library.call("is_part_left", ranges, count.value, window), window in windows)
        if count.value:
            place = chance.randrange(count.value)
            one = ranges[place]
            others = [ranges[it].window for it in range(count.value) if it != place]
            due = one.window not in others
            seen.equal("is_all_left", library.call("is_all_left", ranges, count.value, place, one.begin, one.end), due)
    seen.close()
