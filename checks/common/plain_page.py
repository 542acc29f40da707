"""A page of a window with a field for each fact, and what each call makes of it: the rules of docs/MONITOR.md and of the headers, in plain Python.

Numbers of beliefs, orders and outcomes are those of window/pageshare_window.h.
"""
from __future__ import annotations

import dataclasses
from collections.abc import Iterable

PRIVATE, CHOSEN, COPIED, READY, HELD, EQUAL, LETTING_GO, SHOWN, HOMING_IN_PLACE, HOMING, LEAVING = range(11)
WAIT, COPY, LEND, HOLD, COMPARE, MAP, LET_GO, COPY_IN_PLACE, TAKE_HOME, RELEASE = range(10)
# What is added to both where a page's target is zeros, and not a frame.
ZEROS = 16
DONE, REFUSED, LENT, UNKNOWN = "done", "refused", "lent", "unknown"


def either(rows: dict[int, int]) -> dict[int, int]:
    """These rows for a page whose target is a frame, and for one whose target is zeros."""
    return {before | target: after | target for target in (0, ZEROS) for before, after in rows.items()}


# What is to be done with a page of which this is believed; and what is believed once that was done, or wasn't.
DUE = {CHOSEN: COPY, COPIED: LEND, HOMING_IN_PLACE: COPY_IN_PLACE, HOMING: TAKE_HOME, LEAVING: RELEASE} | either(
    {READY: HOLD, HELD: COMPARE, EQUAL: MAP, LETTING_GO: LET_GO})
IF_DONE = {
    CHOSEN: COPIED, EQUAL: SHOWN, EQUAL | ZEROS: PRIVATE, LETTING_GO: LEAVING, LETTING_GO | ZEROS: PRIVATE, HOMING_IN_PLACE: LEAVING,
    HOMING: LEAVING, LEAVING: PRIVATE,
} | either({READY: HELD, HELD: EQUAL})
# A page that isn't to show its target any more.
DROPPED = {READY: LEAVING, READY | ZEROS: PRIVATE} | either({HELD: LETTING_GO, EQUAL: LETTING_GO})
IF_REFUSED = {CHOSEN: PRIVATE, COPIED: PRIVATE, HOMING_IN_PLACE: SHOWN, HOMING: SHOWN, LEAVING: LEAVING} | DROPPED | either(
    {LETTING_GO: LETTING_GO})
# And if nothing is known of that: of copies to the buffer, comparisons and mappings it is, and without an answer an order to the host stays open.
IF_UNKNOWN = {HOMING_IN_PLACE: SHOWN, HOMING: SHOWN} | either({READY: LETTING_GO, LETTING_GO: LETTING_GO})
# Once nothing may be lent of it any more; and once its content was given up.
IF_BARRED = {CHOSEN: PRIVATE, COPIED: PRIVATE} | DROPPED
IF_GIVEN_UP = {CHOSEN: PRIVATE, SHOWN: LEAVING, HOMING_IN_PLACE: LEAVING, HOMING: LEAVING} | DROPPED
# It is to get memory of its own; it shows its frame.
HOMES = {HOMING_IN_PLACE, HOMING}
SHOWING = {SHOWN} | HOMES
WITH_FRAME = {READY, HELD, EQUAL, LETTING_GO} | SHOWING
WITH_SLOT = WITH_FRAME | {LEAVING}
# Writes to the page may wait.
WAITING = set(either({HELD: HELD, EQUAL: EQUAL, LETTING_GO: LETTING_GO}))
# Orders that are carried out at the host alone.
AT_HOST = {LEND, RELEASE}
FACTS = ("called", "pinned", "may_pin", "inherited", "locked", "leaves", "ended")


@dataclasses.dataclass
class Facts:
    """What is so of a page, as far as it keeps the page from being lent."""

    called: bool = False
    pinned: bool = False
    may_pin: bool = False
    inherited: bool = False
    locked: bool = False
    leaves: bool = False
    ended: bool = False


NONE = Facts()


@dataclasses.dataclass
class Page:
    """What is known of a page. `slot` and `frame` are the halves of its fingerprint while it has no slot."""

    belief: int = PRIVATE
    slot: int = 0
    frame: int = 0
    ordered: bool = False
    over: bool = False
    past: bool = False
    out: bool = False
    same: bool = False
    moved: bool = False
    begins: bool = False
    clue: int = 0
    looks: int = 0
    asks: int = 0
    seen: bool = False

    def bytes(self) -> tuple[int, int, int, int, int]:
        """Its slot, frame, clue, belief and looks as the library has them."""
        place = self.over << 5 | self.past << 6 | self.out << 7
        bits = self.ordered | self.same << 1 | self.moved << 2 | self.begins << 3
        return (self.slot, self.frame, self.clue | self.seen << 15, self.belief | place, bits | self.looks << 4 | self.asks << 6)

    # ---- what is so of it ----

    def shows_past(self) -> bool:
        """It shows a frame of a lender that is gone."""
        return self.over and self.same

    def given_back(self) -> bool:
        """It was given back as zeros, and has no memory since."""
        return self.same and not self.over

    def to_release(self) -> bool:
        return self.belief in WITH_SLOT - SHOWING

    def counted(self) -> tuple[int, int, int, int, int]:
        """What it adds to the counts of its part."""
        return (self.to_release(), self.belief in SHOWING, self.given_back(), self.shows_past(), self.seen)

    def pinned(self, facts: Facts) -> bool:
        """Devices may hold its memory: where they may hold any copy over a frame, that is one."""
        return facts.pinned or (facts.may_pin and self.over and not self.same and self.belief not in SHOWING)

    def must_own(self, facts: Facts) -> bool:
        """It must not show a frame."""
        return self.pinned(facts) or facts.inherited or facts.locked or self.out or facts.leaves or facts.ended

    def barred(self, facts: Facts) -> bool:
        return facts.called or self.must_own(facts)

    def busy(self) -> bool:
        """An order is open that touches it."""
        return self.ordered and DUE.get(self.belief, WAIT) not in AT_HOST | {WAIT}

    def is_free(self, facts: Facts) -> bool:
        return self.belief == PRIVATE and not self.barred(facts)

    def may_go_on(self, facts: Facts) -> bool:
        return not self.busy() and self.belief not in WAITING and not (self.must_own(facts) and self.belief in SHOWING)

    def is_movable(self, facts: Facts) -> bool:
        return not self.busy() and self.belief not in WAITING and not self.barred(facts)

    def stays(self, facts: Facts, is_copy: bool) -> bool:
        return self.belief == HOMING_IN_PLACE or (is_copy and (facts.pinned or facts.may_pin))

    # ---- what becomes of it ----

    def forget(self) -> None:
        """What looks have found counts no more."""
        self.looks, self.asks, self.seen = 0, 0, False

    def believe(self, belief: int) -> None:
        """This is believed from now on. A frame's number is kept until writes wait no longer for what it may have come to show."""
        was, self.belief = self.belief, belief
        if belief in WITH_SLOT - WITH_FRAME:
            self.frame = 0
        if (was in SHOWING and belief not in SHOWING) or (was not in WITH_SLOT and belief in WITH_SLOT):
            self.forget()

    def choose(self, facts: Facts, is_zeros: bool) -> bool:
        if not self.is_free(facts):
            return False
        self.believe(READY | ZEROS if is_zeros else CHOSEN)
        return True

    def next(self, facts: Facts) -> int:
        """Its next order."""
        if self.ordered:
            return WAIT
        if self.belief in SHOWING:
            in_place = HOMING_IN_PLACE if self.pinned(facts) else HOMING
            self.believe(in_place if self.must_own(facts) else SHOWN)
        elif self.barred(facts):
            self.believe(IF_BARRED.get(self.belief, self.belief))
        order = DUE.get(self.belief, WAIT)
        self.ordered = order != WAIT
        return order

    def take(self, outcome: str, slot: int = 0, frame: int = 0) -> bool:
        """What came of its order. Returns whether one is open that can have this outcome."""
        then = {DONE: IF_DONE, REFUSED: IF_REFUSED, UNKNOWN: IF_UNKNOWN, LENT: {COPIED: READY}}[outcome]
        if not self.ordered or self.belief not in then:
            return False
        self.ordered = False
        if outcome == LENT:
            self.slot, self.frame = slot, frame
        self.believe(then[self.belief])
        return True

    def written(self) -> bool:
        """A copy over its frame was found."""
        if self.busy():
            return False
        if self.belief in SHOWING:
            self.believe(LEAVING)
        return True

    def put_memory(self, over: bool, moved: bool, begins: bool) -> None:
        """Something else lies at its place."""
        if self.shows_past():
            self.forget()
        self.over, self.past, self.same, self.moved, self.begins = over, False, False, moved, begins

    def cover(self, frame: int) -> None:
        """A frame was mapped there: its clue is made of the frame's number."""
        self.put_memory(True, False, False)
        self.clue = (frame + frame // 32768 * 30645) % 32768

    def uncover(self, moved: bool, begins: bool) -> None:
        """Memory of its own was put there. A clue of a frame counts no more."""
        self.clue = 0 if self.over else self.clue
        self.put_memory(False, moved, begins)

    def one_memory(self) -> None:
        """Memory with what it contained is moved to its place: its lender hears that, and one over a frame is forgotten."""
        if self.over:
            self.forget()
        self.written()

    def begin(self) -> None:
        """It begins what was moved, if it was moved."""
        self.begins = self.begins or self.moved

    def give_back(self, is_zeros: bool) -> None:
        if not self.over:
            self.same = is_zeros

    def stop_past(self) -> None:
        if self.shows_past():
            self.same = False
            self.forget()

    def comes_home(self) -> bool:
        """A copy in its place brings it home to its window."""
        return not self.out and (self.belief in HOMES or self.shows_past())

    def is_left_over(self) -> bool:
        """It has a copy of its own over a frame of this lender, in its window, and was asked about in vain most often."""
        is_copy = self.over and not self.out and not self.same and self.belief == PRIVATE
        return is_copy and (self.looks, self.asks) == (3, 3)

    def counts_as(self, kinds: int) -> int:
        """The number of its kind, of those in this sum: 32 if it is left over, 16 if it comes home, and else by its place. 0: of none."""
        place = (4 if self.over else 8) if self.out else 2 if self.over else 1
        kind = 32 if kinds & 32 and self.is_left_over() else 16 if kinds & 16 and self.comes_home() else place
        return kinds & kind

    def order_home(self, facts: Facts) -> None:
        """It gets its order, if it shows its frame."""
        if self.belief in SHOWING:
            self.next(facts)

    def take_home(self, outcome: str) -> None:
        """What came of its order to get memory of its own."""
        if self.belief in HOMES:
            self.take(outcome)

    def moved_home(self) -> None:
        self.take_home(DONE)
        self.forget()

    def copied_home(self) -> None:
        self.take_home(DONE)
        self.stop_past()

    def refused_home(self) -> None:
        self.take_home(REFUSED)

    def give_up(self) -> None:
        """Its content was given up."""
        if not self.busy():
            self.believe(IF_GIVEN_UP.get(self.belief, self.belief))
        self.same = False
        self.forget()

    def unmap(self) -> None:
        self.give_up()
        self.out = True
        self.put_memory(False, False, False)

    def leave(self) -> None:
        self.give_back(False)
        self.out = True
        self.forget()

    def detach(self) -> None:
        """Its lender is gone. Writes to it may wait still."""
        waits = self.belief in WAITING
        self.past, self.same = self.over, self.same or (self.over and self.belief in SHOWING)
        self.ordered = False
        self.belief = LETTING_GO | ZEROS if waits else PRIVATE
        self.forget()


def sums(pages: Iterable[Page]) -> tuple[int, ...]:
    """The counts of a part with these pages."""
    return tuple(map(sum, zip((0, 0, 0, 0, 0), *[page.counted() for page in pages])))
