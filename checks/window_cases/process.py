"""A process with several windows, which gets any call as chance has it, beside a plain one (common/plain_process.py).

What the library returns, writes, knows of each page and of each part, and counts of mappings is what is due. Before a process is made, and once it is
freed, its handle refuses all calls.
"""
from __future__ import annotations

import collections
import random
from collections.abc import Callable, Iterable, Sequence
from typing import Any

from common.compared import Compared
from common.plain_looks import AGAIN, PART, Look, PartConfig, PartFound, fingerprint_of
from common.plain_page import CHOSEN, COPIED, EQUAL, FACTS, HOMES, PRIVATE, READY, SHOWING, ZEROS, Facts, Page
from common.plain_process import (
    END_WATCH, GIVE_BACK, GUARDED, MAP, NO_FRAME, NOTICES, NOT_TAKEN, OVER, PAGE_NOTICES, QUESTIONS, STUCK, TAKEN, TAKEN_ASIDE, WATCHED, Plain,
    ProcessFacts,
)
from common.window_library import Library, built_process
from common.window_process import Process
from harness import Tally

# Processes, and moves of each; its windows; the frames of the host's file; and with which page of a part a window may begin, and how many it has. Those of
# 520 pages have a part whose pages are all there.
PROCESSES, MOVES, WINDOWS, FRAMES, SMALL = 6, 2_500, 4, 50, 64
SHAPES = [(5, 3), (509, 8), (511, 9), (510, 14), (0, 6), (511, 1), (509, 520), (509, 520), (509, 520)]
UNKNOWN = 99
# What has to come up how often, so that the calls are worth something.
LEAST = {
    "TO_ASK 1": 100, "TO_ASK 3": 20, "TO_ASK 4": 20, "ANSWERED 1": 100, "ANSWERED 4": 20, "TO_COPY 1": 20, "TO_COPY 2": 20, "TO_COPY 3": 20,
    "COPIED 1": 100, "LOANED 0": 20, "LOANED 2": 20, "LOANED 4": 20, "LOANED 5": 20, "LOANED 8": 20, "LOANED 9": 100, "TO_HOLD 1": 100,
    "TO_GIVE_BACK 1": 100, "TO_GIVE_BACK 4": 10, "found": 40, "heard": 100, "stuck": 20, "whole": 20, "split": 20, "taken out": 20, "refused": 500,
    "mapped": 50, "home": 20, "rests": 20, "again": 100, "left out": 100, "followed": 20,
}


class Life:
    """A process, and the plain one."""

    def __init__(self, library: Library, seen: Compared, chance: random.Random, counted: collections.Counter[str]) -> None:
        self.windows, self.seen, self.chance, self.counted = library, seen, chance, counted
        self.process, self.plain, self.look = Process(built_process()), Plain(), 0
        # Pages that are held, by their window and the first of them, with their bytes; and what to_release has found and nobody has heard of.
        self.rows: list[tuple[int, int, Sequence[int]]] = []
        self.found: list[tuple[int, Sequence[int]]] = []
        self.touched: set[int] = set()

    def both(self, name: str, *words: Any, **more: Any) -> Any:
        """A call of both."""
        self.touched |= {words[0]} if words and isinstance(words[0], int) else set()
        due = getattr(self.plain, name)(*words, **more)
        found = getattr(self.process, name)(*words, **more)
        self.seen.equal(f"{name} {words} {more}", found, due)
        self.counted["refused"] += due is False or (isinstance(due, tuple) and due[0] is False)
        return due

    # ---- what a call is about ----

    def odds(self, odds: float) -> bool:
        return self.chance.random() < odds

    def some_window(self) -> int:
        """A window, or a place where none is."""
        there = [place for place, it in enumerate(self.plain.windows) if it]
        return self.chance.choice(there) if there and self.odds(0.98) else self.chance.randrange(WINDOWS + 2)

    def pages(self, window: int) -> list[Page]:
        it = self.plain.window(window)
        return it.pages if it else [Page(), Page()]

    def hot(self, window: int) -> list[int]:
        """Pages of a window that calls are about: the first ones and the last ones."""
        count = len(self.pages(window))
        return [place for place in range(count) if place < 6 or place >= count - 8]

    def row(self, window: int) -> tuple[int, int]:
        """Pages in a row, which may not all be there."""
        first, count = self.chance.choice(self.hot(window)), len(self.pages(window))
        if self.odds(0.02):
            return self.chance.choice([(first, count), (count, 1), (first, 2**64 - 1), (2**64 - 1, 1), (count, 0), (count + 1, 0)])
        return first, min(self.chance.choice([1, 1, 1, 2, 2, 3, 8, count]), count - first)

    def numbers(self, window: int, *beliefs: int) -> list[int]:
        """Some pages, most of which this is believed of; maybe one twice, and maybe one that isn't there."""
        pages, hot = self.pages(window), self.hot(window)
        wanted = [place for place in hot if pages[place].belief in beliefs]
        chosen = self.chance.sample(wanted, min(len(wanted), self.chance.choice([1, 2, 4, 8])))
        return [*chosen, *[self.chance.choice([*hot, len(pages)]) for _ in range(self.chance.choice([0, 0, 1, 3]))]]

    def some_kind(self, kinds: Sequence[str]) -> Any:
        return self.chance.choice(kinds) if self.odds(0.98) else UNKNOWN

    def some_facts(self) -> Facts:
        return Facts(*[self.odds(0.08) for _ in FACTS])

    def some_look(self, is_calm: bool = False) -> Look:
        """Another look. A calm one takes no page that rests, but in its turn."""
        self.look += self.chance.choice([0, 1, 1, 1, 64])
        look = self.look if self.odds(0.97) else self.chance.choice([0, 2**32 - 1])
        if is_calm:
            return Look(70, 2**64 - 1, look, 16, 7)
        return Look(self.chance.choice([0, 70]), self.chance.choice([2**64 - 1] * 6 + [0, 5]), look, self.chance.choice([0, 1, 4, 16]),
                    self.chance.choice([0, 3, 7, 255]), self.odds(0.15))

    # ---- windows ----

    def offer(self) -> None:
        """A window comes, if there aren't many."""
        number, count = self.chance.choice(SHAPES)
        if not self.plain.is_live or self.plain.windows.count(None) or len(self.plain.windows) < WINDOWS:
            self.both("offer", number + 512 * self.chance.randrange(9), count, self.chance.choice([0, 0, 3]), self.odds(0.05), self.odds(0.05))

    def go(self) -> None:
        """A window ends, or is taken out, mostly once its slots are released."""
        window = self.some_window()
        self.both("end", window)
        if self.odds(0.7):
            self.release_all(window)
        self.counted["taken out"] += self.both("take_out", window)

    def release_all(self, window: int) -> None:
        """Its rows are over, and its slots are released, as far as they may be."""
        count = len(self.pages(window))
        for kind in ("GIVEN_UP", "UNMAPPED", "DETACHED"):
            self.both("note", window, 0, count, kind)
        _, places = self.both("to_release", window, 0, count, 4)
        self.both("released", window, places, True)

    def set_facts(self) -> None:
        """Other things are so. Mostly little is, so that pages are lent."""
        most = max(0, self.plain.mappings() + self.chance.choice([-1, 0, 1, 2, 3, 1_000, 1_000, 1_000]))
        bits = [self.odds(0.03) for _ in range(3)]
        self.both("set_facts", ProcessFacts(most, self.chance.choice([0] * 9 + [2]), *bits))
        window = self.some_window()
        self.both("set_state", window, self.odds(0.05), self.odds(0.05))
        self.both("pin", window, *self.row(window), self.odds(0.3))
        it = self.plain.window(window)
        pinned = [place for place, pins in enumerate(it.pins) if pins] if it else []
        if pinned:
            self.both("pin", window, self.chance.choice(pinned), 1, False)

    # ---- what becomes of pages ----

    def note(self) -> None:
        """Anything is noted of any pages."""
        window, kind = self.some_window(), self.some_kind(NOTICES)
        first, count = self.row(window)
        count = min(count, 1) if kind in ("UNMAPPED", "LEFT") else count
        frame = self.chance.choice([self.chance.randrange(2**31), 32768 * self.chance.randrange(1, 4) - 2, first])
        self.both("note", window, first, count, kind, flag=self.odds(0.5), frame=frame, why=self.some_facts())

    def go_home(self) -> None:
        """Pages that show frames are to get memory of their own, and get it or don't."""
        window = self.some_window()
        its = [place for place, page in enumerate(self.pages(window)) if page.belief in SHOWING] or [0]
        first = self.chance.choice(its)
        self.both("note", window, first, 1, "CALLED_HOME", why=Facts(leaves=self.odds(0.7), pinned=self.odds(0.3)))
        if self.odds(0.8):
            self.counted["home"] += self.pages(window)[first].belief in HOMES
            self.both("note", window, first, 1, self.chance.choice(["MOVED_HOME", "COPIED_HOME", "REFUSED_HOME"]))

    def note_page(self) -> None:
        window = self.some_window()
        self.both("note_page", window, self.row(window)[0], self.some_kind(PAGE_NOTICES), flag=self.odds(0.5))

    def ask(self) -> None:
        """What changes nothing."""
        window = self.some_window()
        first, count = self.row(window)
        for kind in QUESTIONS:
            if count or kind not in ("WANT_ZEROS", "LIE_OVER"):
                self.both("may", window, first, count, self.some_kind([kind]), flag=self.odds(0.5), why=self.some_facts())
        self.both("find_staying", window, first, [self.odds(0.5) for _ in range(min(count, 600))], self.some_facts())
        kinds = self.chance.choice([self.chance.randrange(64), 7, 15, 1 << self.chance.randrange(6)])
        self.both("next_run", window, first, self.chance.choice([first + count, len(self.pages(window)), 2**64 - 1]), kinds)
        first, count = self.chance.choice(self.hot(window)), len(self.pages(window))
        self.both("glance_numbers", window, first, [self.chance.randrange(count - first) for _ in range(3)])

    # ---- lists ----

    def go_through(self, window: int, kind: str, *beliefs: int, **more: Any) -> None:
        """A list of pages, most of which this is believed of, with arrays of what is chosen by page."""
        numbers, beyond = self.numbers(window, *beliefs), int(self.odds(0.01))
        given = {name: [of(window, number) for number in numbers] for name, of in more.items() if callable(of)}
        if given and self.odds(0.01):
            self.chance.choice([*given.values()]).append(1)
        others = {name: of for name, of in more.items() if not callable(of)}
        is_done, answers = self.both("go_through", window, self.some_kind([kind]), numbers, beyond, **given, **others)
        self.counted.update(f"{kind} {answer}" for answer in answers if is_done)

    def print_of(self, window: int, number: int) -> int:
        """A page's fingerprint as it is kept, or another one."""
        pages = self.pages(window)
        return fingerprint_of(pages[number]) if number < len(pages) and self.odds(0.7) else 5

    def of(self, *values: int) -> Callable[[int, int], int]:
        return lambda window, number: self.chance.choice(values)

    def slot_of(self, window: int, number: int) -> int:
        return self.chance.choice([self.chance.randrange(64) << 32 | self.chance.randrange(2**26)] * 6 + [self.chance.randrange(2**40), 2**26, 64 << 32])

    def frame_of(self, window: int, number: int) -> int:
        """A frame, mostly so that frames of pages in a row are in a row."""
        return self.chance.choice([number % FRAMES] * 6 + [FRAMES - 1, FRAMES, NO_FRAME, self.chance.randrange(FRAMES)])

    def lists(self) -> None:
        """A list of any kind, and mostly what follows it."""
        self.chance.choice([self.ask_about, self.copy, self.copy, self.copy, self.lend, self.give_back])(self.some_window())

    def ask_about(self, window: int) -> None:
        self.go_through(window, "TO_ASK", PRIVATE, look=self.some_look())
        self.go_through(window, "ANSWERED", PRIVATE, fingerprints=self.print_of, given=self.of(0, 0, 1, 7))

    def copy(self, window: int) -> None:
        self.go_through(window, "TO_COPY", PRIVATE, given=self.of(0, 1, 1, 1), fingerprints=self.print_of)
        if self.odds(0.8):
            self.go_through(window, "COPIED", CHOSEN, given=self.of(0, 1, 1, 1, 1, 1, 1, 2, 3, 4))
            self.lend(window)

    def lend(self, window: int) -> None:
        if self.odds(0.8):
            is_heard = self.odds(0.9)
            self.go_through(window, "LOANED", COPIED, slots=self.slot_of, frames=self.frame_of, file_frames=FRAMES, is_heard=is_heard)
        if self.odds(0.8):
            self.go_through(window, "TO_HOLD", READY)
            self.hold(window)

    def give_back(self, window: int) -> None:
        self.go_through(window, "TO_GIVE_BACK", PRIVATE)
        if self.odds(0.8):
            self.hold(window)

    def release(self) -> None:
        """Pages are found whose slots are to be released, and the host hears of some of those that were found, or doesn't."""
        window = self.some_window()
        found, places = self.both("to_release", window, *self.row(window), self.chance.randrange(4))
        self.counted["found"] += found
        self.found.append((window, places))
        if self.odds(0.8):
            window, places = self.found.pop(self.chance.randrange(len(self.found)))
            is_heard = self.odds(0.8)
            self.counted["heard"] += self.both("released", window, [*places, 2**64 - 1], is_heard) and is_heard

    # ---- rows ----

    def hold(self, window: int) -> None:
        """Pages in a row are held, mostly those that are ordered to be."""
        pages, (first, count) = self.pages(window), self.row(window)
        ready = [place for place in self.hot(window) if pages[place].belief in (READY, READY | ZEROS) and pages[place].ordered]
        if ready and self.odds(0.95):
            first, count = self.chance.choice(ready), 1
            while first - 1 in ready:
                first -= 1
            while first + count in ready:
                count += 1
        takings = [self.chance.choice([NOT_TAKEN, WATCHED, *[TAKEN] * 4, *[TAKEN_ASIDE] * 4]) for _ in range(min(count, 600))]
        is_begun, row = self.both("begin_row", window, first, takings, int(self.odds(0.01)))
        if is_begun:
            self.rows.append((window, first, row))

    def go_on(self) -> None:
        """Carries out the next order of a row with some of its pages. Those that are stuck in the end are in rows of their own."""
        if not self.rows:
            self.hold(self.some_window())
            return
        window, first, row = self.rows.pop(self.chance.randrange(len(self.rows)))
        begin, count, step = order = self.both("next_of_row", window, first, row)
        if step == OVER:
            for behind, byte in enumerate(row):
                if byte >= STUCK and self.odds(0.7):
                    self.seen.equal("row_again", self.windows.call("row_again", byte), byte - STUCK)
                    self.rows.append((window, first + behind, [byte - STUCK]))
                    self.counted["stuck"] += 1
            return
        done = self.chance.choice([count, count, self.chance.randrange(count + 1)])
        refused = self.chance.randrange(count - done + 1) if self.odds(0.95) else len(row) + 1
        self.put(window, first + begin, done, step, row[begin])
        _, row = self.both("row_done", window, first, row, order, done, refused)
        self.rows.append((window, first, row))

    def put(self, window: int, first: int, count: int, step: int, byte: int) -> None:
        """What a step puts at pages' places is noted."""
        page = self.pages(window)[first]
        if not count or self.odds(0.1):
            return
        if step == MAP:
            self.counted["mapped"] += count
            self.both("note", window, first, count, "COVERED", frame=page.frame)
        elif step == GIVE_BACK:
            self.both("note", window, first, count, "ZEROS_MAPPED", flag=self.odds(0.5))
        elif step == END_WATCH and page.belief == EQUAL | ZEROS and byte != GUARDED:
            self.both("note_page", window, first, "GIVEN_BACK", flag=True)

    # ---- parts ----

    def look_at(self, window: int, first: int, count: int, alike: float, is_calm: bool = False) -> None:
        """A look at pages of a part, with whatever it finds, to its end or nearly. With these odds a page is as it always is."""
        look, pages = self.some_look(is_calm), self.pages(window)
        memory = [1 if self.odds(alike) else self.chance.choice([0, 1, 2, 3]) for _ in range(count + int(self.odds(0.01)))]
        is_begun, row = self.both("scan", window, self.some_kind(["SCAN_BEGIN"]), first, look, [9] * count, memory=memory)
        self.counted["left out"] += is_begun and sum(byte == 0 and kind == 1 for byte, kind in zip(row, memory))
        for _ in range(self.chance.choice([3] if is_calm else [1, 3, 4]) if is_begun else 0):
            outcomes = [(40 + place if self.odds(alike) else self.chance.choice([5, look.zeros, 2**64 - 1]),
                         9 if self.odds(alike) else self.chance.choice([1, 65535, pages[place].clue]), self.odds(0.3))
                        for place in range(first, first + count)]
            _, row = self.both("scan", window, "SCAN_DONE", first, look, row, outcomes=outcomes + [(0, 0, False)] * int(self.odds(0.01)))
            self.counted["again"] += sum(byte & AGAIN > 0 for byte in row)
            if self.odds(0.5):
                before, (_, row) = row, self.both("scan", window, "SCAN_FOLLOW", first, look, row, memory=memory[:count])
                self.counted["followed"] += row != before

    def scan(self) -> None:
        """Looks at pages. Or they stay as they are, others don't have them, and their part rests, so that looks leave them out."""
        window = self.some_window()
        first, count = self.row(window)
        count = min(count, 12)
        if self.odds(0.75):
            self.look_at(window, first, count, 0.8)
            return
        count = max(0, min(len(self.pages(window)) - first, 8))
        for _ in range(5):
            self.look_at(window, first, count, 1, True)
        for _ in range(self.chance.choice([0, 1, 3, 3])):
            self.both("go_through", window, "ANSWERED", range(first, first + count), fingerprints=range(40 + first, 40 + first + count), given=[0] * count)
        for _ in range(self.chance.choice([0, 2, 5])):
            self.both("note_part", window, first, "RESTS", changes=self.chance.choice([0, 0, 1]), own=PART, look=self.some_look(True))
        for _ in range(6):
            self.look_at(window, first, count, 0.85, True)

    def part(self) -> None:
        """Something is noted of a part, and what is to be done with it is done."""
        window, chance = self.some_window(), self.chance
        first = chance.choice(self.hot(window))
        begins = [place for place in self.hot(window) if self.is_all(window, place)]
        it, which = self.plain.window(window), chance.randrange(12)
        if which < 5:
            bits = [self.odds(odds) for odds in (0.5, 0.9, 0.9, 0.9, 0.25, 0.8, 0.8)]
            found = PartFound(chance.choice([400, 508, 511, 512]), chance.choice([0, 1, 15, 16, 20]), *bits)
            config = PartConfig(chance.choice([0, 1, 16, 600]), chance.choice([0, 1, 4, 16]), chance.choice([0, 0, 1, 255]), chance.choice([0, 1]))
            _, order = self.both("note_part", window, begins[0] if begins and self.odds(0.8) else first, "SETTLED", config=config, found=found)
            self.counted.update({1: ["split"], 2: ["whole"]}.get(order, []))
        elif which < 8:
            for _ in range(chance.choice([1, 1, 4])):
                own = chance.choice([16, 512, 512, 512])
                changes = chance.choice([0, 0, 0, 1, own // 16, own // 16 + 1])
                self.both("note_part", window, first, "RESTS", changes=changes, own=own, look=self.some_look())
            self.counted["rests"] += bool(it and it.parts[it.part(first)].rest > 1)
        elif which < 9:
            self.both("note_part", window, first, self.some_kind(["WOKEN", "HUGE", "FORGOTTEN"]), flag=self.odds(0.5))
        else:
            is_set, _ = self.both("note_part", window, begins[0] if begins and self.odds(0.9) else first, "WHOLE", flag=self.odds(0.7))
            self.counted["set"] += is_set

    def is_all(self, window: int, first: int) -> bool:
        """Whether a page begins a part whose pages are all there."""
        it = self.plain.window(window)
        return bool(it and (it.lead + first) % PART == 0 and first + PART <= len(it.pages))

    # ---- all of them ----

    def move(self) -> None:
        moves: dict[Callable[[], None], float] = {
            self.lists: 40, self.go_on: 60, self.scan: 24, self.release: 12, self.note: 12, self.go_home: 6, self.note_page: 4,
            self.ask: 8, self.part: 16, self.set_facts: 8, self.offer: 4, self.go: 1.5, self.lender_goes: 0.3,
        }
        self.chance.choices([*moves], [*moves.values()])[0]()

    def lender_goes(self) -> None:
        """No slot of any page counts any more."""
        for window, it in enumerate(self.plain.windows):
            if it:
                self.both("note", window, 0, len(it.pages), "DETACHED")

    def compare(self, windows: Iterable[int], is_all: bool) -> None:
        """How many mappings are taken, and what is known of windows: of large ones the pages that calls are about, or all."""
        self.both("mappings")
        for window in windows:
            it, count = self.plain.window(window), len(self.pages(window))
            is_whole = is_all or count <= SMALL
            for first, many in [(0, count)] if is_whole else [(0, 6), (count - 8, 8)]:
                self.both("read_pages", window, first, many)
            for part in range(len(it.parts) if it and is_whole else 0):
                self.both("read_part", window, min(max(part * PART - it.lead, 0), count - 1) if it else 0)

    def run(self) -> None:
        for _ in range(20):
            self.move()
        self.both("make", ProcessFacts(most=1_000))
        self.both("make", ProcessFacts())
        for move in range(MOVES):
            self.touched = set()
            self.move()
            self.compare(range(WINDOWS + 1) if move % 16 == 0 else [*self.touched], move % 16 == 0)
            if self.seen.wrong > 3:
                break
        self.both("free")
        self.both("free")
        self.rows, self.found = [], []
        for _ in range(20):
            self.move()


def pins(seen: Compared) -> None:
    """A page is pinned as often as there are numbers of 16 bits, and unpinned as often."""
    process, many = Process(built_process()), range(65535)
    process.make(ProcessFacts())
    process.offer(0, 3)
    for is_more in (True, False):
        seen.holds(f"pinned, {is_more}", all(process.pin(0, 1, 1, is_more) for _ in many))
        seen.holds(f"once more, {is_more}", not process.pin(0, 0, 3, is_more))
    seen.holds("freed", process.free())


def run(tally: Tally, library: Library) -> None:
    """Processes, one after another."""
    seen, counted = Compared(tally, "windows of a process as chance has it"), collections.Counter[str]()
    for seed in range(PROCESSES):
        Life(library, seen, random.Random(seed), counted).run()
    for what, least in LEAST.items():
        seen.holds(f"{what}: {counted[what]} times, {least} are due", counted[what] >= least)
    pins(seen)
    seen.close()
