"""All windows of a process, and what each call makes of them: the rules of window/pageshare_process.h and docs/MONITOR.md, in plain Python.

Each call of `Plain` has the name and the words of one of `Process` (common/window_process.py), and returns what is due of it.
"""
from __future__ import annotations

import dataclasses
from collections.abc import Sequence
from typing import Optional, Union

from common import plain_looks
from common.plain_looks import PART, Look, Part, PartConfig, PartFound, Scan
from common.plain_mappings import Mappings, has_room
from common.plain_page import (
    COPY, DONE, EQUAL, HELD, HOLD, LEND, LENT, NONE, READY, REFUSED, RELEASE, UNKNOWN, WAITING, ZEROS, Facts, Page, sums,
)

NO_PLACE, NO_FRAME = 2**64 - 1, 2**32 - 1
# What is done next with pages that are held, where their memory is, and what came of the attempt to hold one.
OVER, COMPARE, COMPARE_ZEROS, MAP, GIVE_BACK, PUT_BACK, END_WATCH = range(7)
FREE, GUARDED, ASIDE, REPLACED, STUCK = range(5)
NOT_TAKEN, WATCHED, TAKEN, TAKEN_ASIDE = range(4)
# What is noted of pages, and what becomes of each then. PUT: other memory lies at their places, and the page behind them begins what was moved.
PUT = ("COVERED", "UNCOVERED", "MOVED_THERE", "ZEROS_MAPPED", "ONE_MEMORY")
BECOMES = {
    "UNMAPPED": Page.unmap, "DETACHED": Page.detach, "GIVEN_UP": Page.give_up, "LEFT": Page.leave, "MOVED_HOME": Page.moved_home,
    "COPIED_HOME": Page.copied_home, "REFUSED_HOME": Page.refused_home,
}
NOTICES, QUESTIONS = (*PUT, *BECOMES, "CALLED_HOME"), ("GO_ON", "GIVE_UP", "EXCHANGE", "TAKE_ZEROS", "WANT_ZEROS", "LIE_OVER")
PAGE_NOTICES = ("ASKED_AT_ONCE", "HELD", "GIVEN_BACK")
PART_NOTICES = ("SETTLED", "RESTS", "WOKEN", "HUGE", "FORGOTTEN", "WHOLE")
# What is done with lists, and which arrays each reads.
LISTS = {
    "TO_ASK": (), "ANSWERED": ("fingerprints", "given"), "TO_COPY": ("given", "fingerprints"), "COPIED": ("given",), "LOANED": ("slots", "frames"),
    "TO_HOLD": (), "TO_GIVE_BACK": (),
}
Kind = Union[str, int]
Wrote = tuple[bool, list[int]]


@dataclasses.dataclass
class ProcessFacts:
    """What is so of a process."""

    most: int = 0
    elsewhere: int = 0
    may_pin: bool = False
    locked: bool = False
    is_over: bool = False


class Window:
    """A window: its pages, its parts, and how often each page was pinned."""

    def __init__(self, number: int, count: int, seams: int, inherited: bool, ends: bool) -> None:
        self.lead, self.seams, self.inherited, self.ends, self.has_ended = number % PART, seams, inherited, ends, False
        self.pages, self.pins = [Page() for _ in range(count)], [0] * count
        self.parts = [Part() for _ in range(-(-(self.lead + count) // PART))]

    def part(self, place: int) -> int:
        return (self.lead + place) // PART

    def mappings(self) -> Mappings:
        return Mappings(self.pages, [it.whole for it in self.parts], self.lead)

    def taken(self) -> int:
        """How many mappings it takes: none that count once it has ended."""
        return 0 if self.has_ended else self.mappings().begun(0, len(self.pages)) + self.seams

    def counts(self, part: int) -> tuple[int, ...]:
        return sums(self.pages[max(part * PART - self.lead, 0) : max((part + 1) * PART - self.lead, 0)])

    def kept(self, number: int) -> int:
        """The fingerprint that is kept of a page."""
        return plain_looks.fingerprint_of(self.pages[number]) if number < len(self.pages) else 0


def step_of(page: Page, byte: int) -> int:
    """What is done next with a held page, by where its memory is."""
    if byte >= STUCK:
        return OVER
    at_once = {HELD: COMPARE, EQUAL: MAP, HELD | ZEROS: COMPARE_ZEROS}
    if page.belief in at_once:
        return at_once[page.belief]
    if page.belief == EQUAL | ZEROS:
        return {FREE: OVER, GUARDED: GIVE_BACK, ASIDE: END_WATCH, REPLACED: END_WATCH}[byte]
    return {FREE: OVER, GUARDED: END_WATCH, ASIDE: PUT_BACK, REPLACED: END_WATCH}[byte]


def came_of(page: Page, byte: int, is_done: bool) -> int:
    """A held page's step was done, or was refused, which changes nothing. Returns its byte: one that the system doesn't let go is stuck."""
    step, waits = step_of(page, byte), page.belief in WAITING
    says = {COMPARE: True, COMPARE_ZEROS: True, MAP: True, GIVE_BACK: not is_done, PUT_BACK: waits and not is_done, END_WATCH: waits}
    if says.get(step, False):
        page.take(DONE if is_done else REFUSED)
    if is_done:
        return {MAP: REPLACED, GIVE_BACK: REPLACED, PUT_BACK: GUARDED, END_WATCH: FREE}.get(step, byte)
    if step == END_WATCH and byte == ASIDE:
        byte = REPLACED
    return byte + STUCK if step in (PUT_BACK, END_WATCH) else byte


class Plain:
    """A handle, which holds a process once one was made."""

    def __init__(self) -> None:
        self.windows: list[Optional[Window]] = []
        self.facts, self.is_live = ProcessFacts(), False
        self.taken: Optional[int] = None

    def window(self, window: int) -> Optional[Window]:
        return self.windows[window] if window < len(self.windows) else None

    def row_of(self, window: int, first: int, count: int) -> Optional[list[Page]]:
        """Pages in a row, if they are all there."""
        it = self.window(window)
        return it.pages[first : first + count] if it and first + count <= len(it.pages) else None

    def facts_of(self, window: Window, place: int, why: Facts = NONE) -> Facts:
        """What is so of a page, and this besides."""
        its, is_pinned = self.facts, place < len(window.pins) and window.pins[place] > 0
        return Facts(why.called, why.pinned or is_pinned, why.may_pin or its.may_pin or its.elsewhere > 0, why.inherited or window.inherited,
                     why.locked or its.locked, why.leaves, why.ended or window.ends or its.is_over)

    def has_room(self, more: int, taken: int = 0) -> bool:
        """Whether windows may take so many mappings more, where so many are spoken for."""
        return has_room(self.facts.most, self.mappings() + taken, more)

    # ---- the process and its windows ----

    def make(self, facts: ProcessFacts) -> bool:
        if self.is_live:
            return False
        self.facts, self.is_live = facts, True
        return True

    def free(self) -> bool:
        was_live, self.is_live, self.windows, self.taken = self.is_live, False, [], None
        return was_live

    def offer(self, number: int, count: int, seams: int = 0, inherited: bool = False, ends: bool = False) -> int:
        if not self.is_live:
            return NO_PLACE
        place = self.windows.index(None) if None in self.windows else len(self.windows)
        self.windows[place : place + 1], self.taken = [Window(number, count, seams, inherited, ends)], None
        return place

    def end(self, window: int) -> bool:
        it = self.window(window)
        if not it or it.has_ended:
            return False
        it.has_ended, it.ends, self.taken = True, True, None
        return True

    def take_out(self, window: int) -> bool:
        it = self.window(window)
        if not it or not it.has_ended or any(page.to_release() for page in it.pages):
            return False
        self.windows[window] = None
        return True

    def set_facts(self, facts: ProcessFacts) -> bool:
        self.facts = facts if self.is_live else self.facts
        return self.is_live

    def set_state(self, window: int, inherited: bool, ends: bool) -> bool:
        it = self.window(window)
        if not it or it.has_ended:
            return False
        it.inherited, it.ends = inherited, ends
        return True

    def mappings(self) -> int:
        if self.taken is None:
            self.taken = sum(it.taken() for it in self.windows if it)
        return self.taken

    # ---- pages ----

    def note(self, window: int, first: int, count: int, kind: Kind, flag: bool = False, frame: int = 0, why: Facts = NONE) -> bool:
        it, pages = self.window(window), self.row_of(window, first, count)
        if not it or pages is None or kind not in NOTICES:
            return False
        self.taken = None
        alone = count > 0 and it.mappings().are_alone(first, count)
        moved = kind in ("MOVED_THERE", "ONE_MEMORY") or (kind == "ZEROS_MAPPED" and (alone or not flag))
        for behind, page in enumerate(pages):
            if kind == "CALLED_HOME":
                page.order_home(self.facts_of(it, first + behind, why))
            elif kind == "COVERED":
                page.cover(frame + behind)
            elif kind in PUT:
                if kind == "ONE_MEMORY":
                    page.one_memory()
                page.uncover(moved, moved and behind == 0)
            else:
                BECOMES[str(kind)](page)
        if kind in PUT and count and first + count < len(it.pages):
            it.pages[first + count].begin()
        return True

    def note_page(self, window: int, page: int, kind: Kind, flag: bool = False) -> bool:
        pages = self.row_of(window, page, 1)
        if pages is None or kind not in PAGE_NOTICES:
            return False
        if kind == "ASKED_AT_ONCE":
            pages[0].asks, pages[0].seen = 0, False
        elif kind == "HELD":
            pages[0].looks, pages[0].asks = (0, 0) if flag else (1, 3)
        else:
            pages[0].give_back(flag)
        return True

    def may(self, window: int, first: int, count: int, kind: Kind, flag: bool = False, why: Facts = NONE) -> bool:
        it, pages = self.window(window), self.row_of(window, first, count)
        if not it or pages is None:
            return False
        mappings = it.mappings()
        if kind in ("GO_ON", "GIVE_UP", "EXCHANGE"):
            its = [self.facts_of(it, first + behind, why if kind == "GO_ON" else NONE) for behind in range(count)]
            if kind == "EXCHANGE":
                return all(map(Page.is_movable, pages, its))
            return all(map(Page.may_go_on, pages, its if kind == "GO_ON" else [NONE] * count))
        if kind == "LIE_OVER":
            return any(page.over for page in pages[:1])
        is_wanted = kind == "TAKE_ZEROS" or (kind == "WANT_ZEROS" and (any(page.over for page in pages[:1]) or (not flag and mappings.begun(first, count) > 2)))
        return is_wanted and self.has_room(mappings.zeros_more(first, count))

    def find_staying(self, window: int, first: int, copies: Sequence[bool], why: Facts = NONE) -> tuple[bool, list[bool]]:
        it, pages = self.window(window), self.row_of(window, first, len(copies))
        if not it or pages is None:
            return False, [*copies]
        return True, [page.stays(self.facts_of(it, first + at, why), copies[at]) for at, page in enumerate(pages)]

    def next_run(self, window: int, first: int, end: int, kinds: int) -> Optional[tuple[int, int, int]]:
        it = self.window(window)
        numbers = [page.counts_as(kinds) for page in it.pages[:end]] if it else []
        begins = next((at for at in range(first, len(numbers)) if numbers[at]), None)
        if begins is None:
            return None
        return begins, [*[at == numbers[begins] for at in numbers[begins:]], False].index(False), numbers[begins]

    def read_pages(self, window: int, first: int, count: int) -> Optional[list[tuple[int, ...]]]:
        pages = self.row_of(window, first, count)
        return None if pages is None else [page.bytes() for page in pages]

    def pin(self, window: int, first: int, count: int, is_more: bool) -> bool:
        it, by = self.window(window), 1 if is_more else -1
        if not it or self.row_of(window, first, count) is None or any(not 0 <= pins + by <= 65535 for pins in it.pins[first : first + count]):
            return False
        it.pins[first : first + count] = [pins + by for pins in it.pins[first : first + count]]
        return True

    # ---- lists ----

    def go_through(self, window: int, kind: Kind, numbers: Sequence[int], beyond: int = 0, look: Look = Look(), file_frames: int = 0,
                   is_heard: bool = False, **given: Sequence[int]) -> Wrote:
        it = self.window(window)
        arrays = [given.get(name, ()) for name in LISTS.get(str(kind), ())]
        if not it or kind not in LISTS or beyond or any(len(array) != len(numbers) for array in arrays):
            return False, [9] * (len(numbers) + beyond)
        self.look, self.file_frames, self.is_heard, self.spoken_for = look, file_frames, is_heard, 0
        does = getattr(self, f"one_{str(kind).lower()}")
        return True, [int(does(it, number, it.pages[number], *more)) if number < len(it.pages) else 0 for number, *more in zip(numbers, *arrays)]

    def one_to_ask(self, it: Window, number: int, page: Page) -> int:
        """Whether a page may be asked about."""
        part, mappings = it.parts[it.part(number)], it.mappings()
        if not page.is_free(self.facts_of(it, number)):
            return 0
        if not part.whole and not self.has_room(mappings.more(number)):
            page.asks = 3
            return 4
        part.by = self.look
        return 3 if part.is_in_passing(page, self.look.look, number) else 1

    def one_answered(self, it: Window, number: int, page: Page, fingerprint: int, is_other: int) -> int:
        """What a host's answer means. A page that may be lent takes room."""
        part, more = it.parts[it.part(number)], it.mappings().more(number)
        if is_other and not part.whole:
            is_room = self.has_room(more, self.spoken_for)
            self.spoken_for += more if is_room else 0
            page.asks = page.asks if is_room else 3
            return 1 if is_room else 4
        page.asks = min(page.asks + 1, 3)
        if part.whole and page.looks == 3 and fingerprint == it.kept(number):
            page.seen = is_other > 0
        return 0

    def one_to_copy(self, it: Window, number: int, page: Page, there: int, fingerprint: int) -> int:
        """How it is seen that a copy is of the page that was found, where it is to be copied; it has its order then."""
        facts, is_kept = self.facts_of(it, number), fingerprint == it.kept(number)
        by_reading = page.over or (page.looks, page.asks) == (3, 3)
        if not there or it.parts[it.part(number)].whole or page.ordered or not page.choose(facts, False):
            return 0
        return (1 if by_reading else 2 if is_kept else 3) if page.next(facts) == COPY else 0

    def one_copied(self, it: Window, number: int, page: Page, outcome: int) -> int:
        """What came of a copy: 1 if a loan is to be asked for."""
        if outcome not in (1, 2, 3):
            return 0
        page.take(DONE if outcome == 1 else REFUSED)
        if outcome == 2:
            page.forget()
        return int(outcome == 1 and page.next(self.facts_of(it, number)) == LEND)

    def one_loaned(self, it: Window, number: int, page: Page, slot: int, frame: int) -> int:
        """What a host said of a page."""
        if not self.is_heard or frame == NO_FRAME or slot >> 32 >= 64 or slot & 0xFFFFFFFF >= 2**26:
            page.take(REFUSED)
            page.asks = 3 if self.is_heard else page.asks
            return (2 if frame == NO_FRAME else 4) if self.is_heard else 0
        is_taken = page.take(LENT, (slot >> 32) * 2**26 + slot % 2**32, frame)
        return is_taken + (8 if frame < self.file_frames else 4)

    def one_to_hold(self, it: Window, number: int, page: Page) -> int:
        """Whether a page that has its loan is held. The loan of another one isn't needed any more."""
        if page.ordered or page.belief != READY:
            return 0
        if page.next(self.facts_of(it, number)) == HOLD and not it.parts[it.part(number)].whole:
            return 1
        page.take(REFUSED)
        return 0

    def one_to_give_back(self, it: Window, number: int, page: Page) -> int:
        """Whether a page is held to be given back as zeros."""
        facts = self.facts_of(it, number)
        if page.ordered or it.parts[it.part(number)].whole or not page.is_free(facts):
            return 0
        if not self.has_room(it.mappings().zeros_more(number, 1)):
            page.asks = 3
            return 4
        return int(page.choose(facts, True) and page.next(facts) == HOLD | ZEROS)

    def is_to_release(self, page: Page, facts: Facts) -> bool:
        if not page.to_release() or page.ordered or page.belief in WAITING or facts.pinned:
            return False
        order = page.next(facts)
        if order == HOLD:
            page.take(REFUSED)
            order = page.next(facts)
        return order == RELEASE

    def to_release(self, window: int, first: int, count: int, room: int) -> tuple[int, list[int]]:
        it, pages, found = self.window(window), self.row_of(window, first, count), list[int]()
        for place, page in enumerate(pages or [], first):
            if it and len(found) < room and self.is_to_release(page, self.facts_of(it, place)):
                found.append(place)
        return len(found), found + [9] * (room - len(found))

    def released(self, window: int, numbers: Sequence[int], is_heard: bool) -> bool:
        it = self.window(window)
        for number in numbers:
            if it and number < len(it.pages):
                it.pages[number].take(DONE if is_heard else REFUSED)
        return it is not None

    # ---- rows ----

    def begin_row(self, window: int, first: int, takings: Sequence[int], beyond: int = 0) -> Wrote:
        pages = self.row_of(window, first, len(takings))
        if pages is None or beyond:
            return False, [9] * (len(takings) + beyond)
        for page, taking in zip(pages, takings):
            if page.belief in (READY, READY | ZEROS):
                page.take({NOT_TAKEN: REFUSED, WATCHED: UNKNOWN}.get(taking, DONE))
        return True, [{NOT_TAKEN: FREE, WATCHED: GUARDED, TAKEN: GUARDED, TAKEN_ASIDE: ASIDE}[it] for it in takings]

    def next_of_row(self, window: int, first: int, row: Sequence[int]) -> tuple[int, int, int]:
        """The first step that is due of any page, in order, and how many pages in a row one call can do it with."""
        it, pages = self.window(window), self.row_of(window, first, len(row))
        if not it or not pages:
            return 0, 0, OVER
        for behind, page in enumerate(pages):
            if page.belief in WAITING and row[behind] < STUCK:
                page.next(self.facts_of(it, first + behind))
        steps = [*map(step_of, pages, row)]
        step = min((it for it in steps if it != OVER), default=OVER)
        if step == OVER:
            return 0, 0, OVER
        begin, end = steps.index(step), steps.index(step) + 1
        while end < len(steps) and steps[end] == step and (step != MAP or pages[end].frame == pages[end - 1].frame + 1):
            end += 1
        return begin, end - begin, step

    def row_done(self, window: int, first: int, row: Sequence[int], order: tuple[int, int, int], done: int, refused: int) -> Wrote:
        pages, begin, after = self.row_of(window, first, len(row)), order[0], [*row]
        if pages is None or begin + done + refused > len(row):
            return False, after
        for behind in range(begin, begin + done + refused):
            after[behind] = came_of(pages[behind], row[behind], behind < begin + done)
        return True, after

    # ---- parts ----

    def scan(self, window: int, kind: Kind, first: int, look: Look, row: Sequence[int], memory: Sequence[int] = (),
             outcomes: Sequence[tuple[int, int, bool]] = ()) -> Wrote:
        it, pages, given = self.window(window), self.row_of(window, first, len(row)), outcomes if kind == "SCAN_DONE" else memory
        if not it or pages is None or len(given) != len(row) or kind not in ("SCAN_BEGIN", "SCAN_DONE", "SCAN_FOLLOW"):
            return False, [*row]
        number = it.part(first)
        part = it.parts[number] if number < len(it.parts) else Part()
        part.by = look
        scan = Scan(part, first, [self.facts_of(it, first + behind) for behind in range(len(row))], pages, memory)
        if kind == "SCAN_BEGIN":
            return True, scan.begin(it.counts(number)[3] > 0)
        return True, scan.done(row, outcomes) if kind == "SCAN_DONE" else scan.follow(row)

    def glance_numbers(self, window: int, first: int, places: Sequence[int]) -> list[int]:
        def number(place: int) -> int:
            pages = self.row_of(window, place, 1)
            return 9 if not pages else place if pages[0].looks == 0 else plain_looks.fingerprint_of(pages[0])

        return [number(first + place) for place in places]

    def read_part(self, window: int, first: int) -> Optional[tuple[tuple[int, ...], tuple[int, ...]]]:
        it = self.window(window)
        number = it.part(first) if it else 0
        return (it.parts[number].known(), it.counts(number)) if it and number < len(it.parts) else None

    def note_part(self, window: int, first: int, kind: Kind, flag: bool = False, changes: int = 0, own: int = 0, look: Look = Look(),
                  config: PartConfig = PartConfig(), found: PartFound = PartFound()) -> tuple[bool, int]:
        it = self.window(window)
        number = it.part(first) if it else 0
        if not it or number >= len(it.parts) or kind not in PART_NOTICES:
            return False, 9
        part, is_all = it.parts[number], (it.lead + first) % PART == 0 and self.row_of(window, first, PART) is not None
        if kind == "SETTLED":
            return True, part.settle(config, found)
        if kind == "RESTS":
            part.by = look
            part.set_rest(changes, own)
        elif kind == "WOKEN":
            part.rest = part.left = 0
        elif kind == "HUGE":
            part.is_huge = flag
        elif kind == "FORGOTTEN":
            part.forget()
        elif is_all:
            part.whole, self.taken = flag, None
        return kind != "WHOLE" or is_all, 9
