"""What a look does with a page and a part, in plain Python: the rules of docs/MONITOR.md, step by step.

A page is idle once it was found alike as often as STILL says. Numbers of steps are those of window/pageshare_window.h.
"""
from __future__ import annotations

import dataclasses
from collections.abc import Sequence

from common.plain_page import SHOWING, WITH_SLOT, Facts, Page

OVER, FIND_COPY, GLANCE, READ, COUNT, IDLE, ZEROS = range(7)
COUNTED = (READ, COUNT, IDLE, ZEROS)
# What a scan keeps of a page, beside its step.
TAKEN, CHANGED, AGAIN, MEMORY, YOUNG = 8, 16, 32, 64, 128
PASS, MEET, KEEP, TO_READ = "pass", "meet", "keep", "read"
STILL = 3
# How often a question in vain counts at most, and how many looks apart the turns of a page are then, but for one that was asked so often.
ASKS_MOST, APART = 3, (1, 2, 4, 8)
# How many looks apart they are of that one where nobody says; how often more in a whole part; and how many pages have them together.
TURNS, WHOLE_TURNS, TOGETHER = 8, 2, 64
# Of so many turns one reads an idle page, or one over a frame in a part where nothing changes; and one question is noted.
READ_EACH, READ_EACH_OVER, PASSING_EACH = 16, 2, 4
# Next to nothing is one page in so many.
CALM_PART = 16
# What is to be done with a part, which has so many pages.
STAY, SPLIT, MAKE_WHOLE = range(3)
PART = 512


@dataclasses.dataclass(frozen=True)
class Look:
    """A look, and how often it takes what."""

    zeros: int = 0
    ready: int = 0
    look: int = 0
    turns: int = 0
    rest_most: int = 0
    is_return: bool = False


@dataclasses.dataclass(frozen=True)
class PartConfig:
    """When parts are split, and when they are made whole."""

    huge_from: int = 0
    alone_part: int = 0
    alone: int = 0
    pause: int = 0


@dataclasses.dataclass(frozen=True)
class PartFound:
    """What a look found of a part."""

    own: int = 0
    shareable: int = 0
    is_huge: bool = False
    may_be_huge: bool = False
    may_lend: bool = False
    has_mappings: bool = False
    may_pin: bool = False
    is_loose: bool = False
    is_movable: bool = False


@dataclasses.dataclass
class Part:
    """What is known of a part, and the look at it."""

    whole: bool = False
    pause: int = 0
    alone: int = 0
    rest: int = 0
    left: int = 0
    is_still: bool = False
    is_huge: bool = False
    own: int = 0
    by: Look = Look()

    def known(self) -> tuple[int, ...]:
        """Its members as the library has them."""
        return (self.whole, self.pause, self.alone, self.rest, self.left, self.is_still, self.is_huge, self.own)

    # ---- what is done with it ----

    def is_to_change(self, config: PartConfig, found: PartFound) -> bool:
        """It is to be split, or made whole, unless it was a short time ago."""
        if self.whole:
            least = config.huge_from if found.is_huge else 1
            return found.is_loose and found.may_lend and found.has_mappings and 0 < found.shareable >= least
        share = min(config.huge_from, PART)
        is_alone = config.alone_part < config.huge_from and (PART - found.own) * config.alone_part < share
        self.alone = min(self.alone + 1, 255) if is_alone else 0
        return found.may_be_huge and found.may_lend and found.is_movable and not found.may_pin and self.alone >= config.alone

    def settle(self, config: PartConfig, found: PartFound) -> int:
        """A look found this of it. Returns what is to be done with it."""
        if self.pause:
            self.pause -= 1
        elif self.is_to_change(config, found):
            self.pause, self.alone = config.pause, 0
            return SPLIT if self.whole else MAKE_WHOLE
        return STAY

    def forget(self) -> None:
        """What looks have found of it counts no more."""
        self.pause = self.alone = self.rest = self.left = self.own = 0
        self.is_still = False

    # ---- which pages a look takes ----

    def idle_apart(self) -> int:
        turns = self.by.turns or TURNS
        return max(turns * WHOLE_TURNS if self.whole else turns, self.rest + 1)

    def looks_apart(self, page: Page) -> int:
        """Of so many looks one is the page's turn."""
        if page.looks == 0:
            return 1
        return self.idle_apart() if is_again(page) else APART[page.asks]

    def is_in_sample(self, look: int, number: int) -> bool:
        return (look + number) % (self.rest + 1) == 0

    def takes(self, page: Page, look: int, number: int) -> bool:
        """Whether it isn't left out: it isn't idle, is asked about often, has its turn, or is in the sample."""
        has_turn = (look + number // TOGETHER) % self.idle_apart() == 0
        return has_turn or not is_again(page) or self.is_in_sample(look, number)

    def is_in_passing(self, page: Page, look: int, number: int) -> bool:
        turn = (look + number // TOGETHER) // self.looks_apart(page)
        return self.whole and page.asks > 0 and turn % PASSING_EACH != 0

    # ---- what it does with one ----

    def act(self, page: Page, look: int, number: int) -> str:
        """What comes of a look, if no glance says that the page has changed."""
        if page.looks == 0 and not page.over:
            return MEET
        turn, rest = divmod(look + number // TOGETHER, self.looks_apart(page))
        if rest:
            return PASS
        each = (READ_EACH_OVER if self.is_still else 1) if page.over else READ_EACH
        return KEEP if is_again(page) and turn % each else TO_READ

    def glances(self, page: Page, act: str, look: int, number: int) -> bool:
        if page.over or act == MEET:
            return False
        return {PASS: page.looks >= STILL, KEEP: self.is_in_sample(look, number), TO_READ: True}[act]

    def found(self, fingerprint: int) -> int:
        """What an idle page with this fingerprint is."""
        return (COUNT if self.whole else ZEROS) if fingerprint == self.by.zeros else IDLE

    def begin(self, page: Page, facts: Facts, look: int, number: int, memory: int, is_ready: bool) -> int:
        """What is done first. Memory is none, some, or some that is swapped out."""
        has_memory, is_there = memory in (1, 2), memory == 1 or page.shows_past()
        if page.given_back() and has_memory and not page.out:
            page.same = False
        if not page.out and has_memory and (page.belief in SHOWING or page.shows_past()):
            return FIND_COPY
        if not (is_there and is_ready and page.is_free(facts)):
            return OVER
        act = self.act(page, look, number)
        if act == MEET or self.glances(page, act, look, number):
            return GLANCE
        return {PASS: OVER, KEEP: self.found(fingerprint_of(page)), TO_READ: READ}[act]

    def done(self, page: Page, step: int, look: int, number: int, fingerprint: int, glance: int, is_own: bool) -> int:
        """What comes of a step, and what is done next."""
        if step == FIND_COPY and is_own:
            page.written()
            page.stop_past()
        if step == GLANCE:
            act = self.act(page, look, number)
            if self.glances(page, act, look, number) and glance != page.clue:
                act = MEET
            if act == MEET:
                met(page, number, glance)
            return {PASS: OVER, MEET: OVER, KEEP: self.found(fingerprint_of(page)), TO_READ: READ}[act]
        if step == READ:
            read(page, fingerprint, glance)
            return self.found(fingerprint) if page.looks >= STILL else OVER
        if step == COUNT:
            page.asks, page.seen = more(page.asks), True
        return OVER

    # ---- what becomes of its rest ----

    def set_rest(self, changes: int, own: int) -> None:
        """A look found so many idle pages that have changed, and so many with memory of their own. It rests longer where next to nothing has."""
        changes += max(own - self.own, 0)
        if changes * CALM_PART > own:
            self.rest = self.left = 0
        elif self.left == 0:
            self.rest = self.left = min(self.rest * 2 + 1, self.by.rest_most)
        else:
            self.left -= 1
        self.own, self.is_still = own, changes == 0


def more(asks: int) -> int:
    return min(asks + 1, ASKS_MOST)


def is_again(page: Page) -> bool:
    """It is idle, and was asked about in vain most often."""
    return page.looks >= STILL and page.asks >= ASKS_MOST


def fingerprint_of(page: Page) -> int:
    return page.slot | page.frame << 32


def note(page: Page, fingerprint: int) -> None:
    """Its fingerprint, which has no place where it has a slot."""
    if page.belief not in WITH_SLOT:
        page.slot, page.frame = fingerprint & 0xFFFFFFFF, fingerprint >> 32


def met(page: Page, number: int, glance: int) -> None:
    """A glance found that it has changed, or that it is new."""
    note(page, number if page.looks == 0 else fingerprint_of(page))
    page.asks = more(page.asks) if 0 < page.looks < STILL else 0
    page.clue, page.looks, page.seen = glance % 32768, 1, False


def read(page: Page, fingerprint: int, glance: int) -> None:
    """It was read. What has memory of its own was glanced at before, so that this counts as well."""
    was_read, first = page.looks > (0 if page.over else 1), 1 if page.over else 2
    if not page.over:
        page.clue = glance % 32768
    if was_read and fingerprint == fingerprint_of(page):
        page.asks = 0 if page.looks < STILL else page.asks
        page.looks = min(page.looks + 1, STILL)
    else:
        page.asks = more(page.asks) if was_read and page.looks < STILL else 0
        page.looks = first
        note(page, fingerprint)
    page.seen = page.seen and page.looks > first


def is_young(page: Page) -> bool:
    """It may be idle soon, and doesn't change always."""
    return page.looks < STILL and page.asks == 0


@dataclasses.dataclass
class Scan:
    """A scan of pages in a row, of which the first has a number: what it keeps of each page."""

    part: Part
    first: int
    facts: Sequence[Facts]
    pages: Sequence[Page]
    memory: Sequence[int] = ()

    def take(self, place: int) -> int:
        """It takes a page. Returns its byte."""
        page, number, memory = self.pages[place], self.first + place, self.memory[place]
        step = self.part.begin(page, self.facts[place], self.part.by.look, number, memory, number < self.part.by.ready)
        has_memory = memory in (1, 2)
        again = AGAIN if is_again(page) and step in COUNTED else 0
        return step + TAKEN + again + (MEMORY if has_memory else 0) + (YOUNG if has_memory and is_young(page) else 0)

    def begin(self, takes_all: bool) -> list[int]:
        def is_taken(place: int) -> bool:
            page = self.pages[place]
            if not takes_all and self.memory[place] not in (1, 2):
                return False
            return is_young(page) if self.part.by.is_return else self.part.rest == 0 or self.part.takes(page, self.part.by.look, self.first + place)

        return [self.take(place) if is_taken(place) else 0 for place in range(len(self.pages))]

    def done(self, row: Sequence[int], outcomes: Sequence[tuple[int, int, bool]]) -> list[int]:
        """What came of the steps."""

        def after(place: int) -> int:
            page, byte, step = self.pages[place], row[place], row[place] & 7
            if step in (OVER, IDLE, ZEROS):
                return byte
            was_idle, was_again = page.looks >= STILL, is_again(page)
            following = self.part.done(page, step, self.part.by.look, self.first + place, *outcomes[place])
            byte = byte & (TAKEN | CHANGED | AGAIN | MEMORY) | following
            byte |= CHANGED if was_idle and page.looks < STILL else 0
            byte |= AGAIN if was_again and following in COUNTED else 0
            return byte | (YOUNG if byte & MEMORY and is_young(page) else 0)

        return [after(place) for place in range(len(row))]

    def follow(self, row: Sequence[int]) -> list[int]:
        """Pages are taken that are beside changed ones, and were left out."""

        def is_taken(place: int) -> bool:
            beside = any(0 <= at < len(row) and row[at] & CHANGED for at in (place - 1, place + 1))
            left_out = not self.part.takes(self.pages[place], self.part.by.look, self.first + place)
            return not row[place] & TAKEN and beside and self.memory[place] == 1 and left_out

        return [self.take(place) if is_taken(place) else row[place] for place in range(len(row))]
