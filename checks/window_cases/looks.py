"""Looks at a page of a window: what they are worth, worked out by hand, or told by what the page contains."""
from __future__ import annotations

import random

from common.compared import Compared
from common.plain_looks import COUNT, FIND_COPY, GLANCE, IDLE, KEEP, PART, READ, TAKEN, TO_READ, ZEROS, Look
from common.plain_process import ProcessFacts
from common.window_library import Library, built_process
from common.window_process import Process
from harness import Tally

LOOKS, NUMBER, MOST = 20_000, 100, 1_000
# How many of 256 looks at the page read it, for how many its last fingerprint counts, and how many glance at it; with no glance that differs. First: how
# often it was asked about in vain (-1: it is new), whether it is over a frame, what its part leaves out, and whether nothing changes there. Of the sixteen
# turns of the page that was asked about most often one reads it. Where the part rests, the 36 looks that have it in the sample glance at it, and that one.
WAYS = [
    ((-1, False, 0, False), (0, 0, 256)), ((-1, True, 0, False), (256, 0, 0)), ((2, False, 0, False), (64, 0, 256)),
    ((3, False, 0, False), (1, 15, 256)), ((3, False, 6, False), (1, 15, 37)), ((3, True, 0, False), (16, 0, 0)), ((3, True, 0, True), (8, 8, 0)),
]
# How many of 64 looks read or keep a page that was asked about so often in vain, in a part that is whole or leaves out so many.
TURNS = [((0, False, 0), 64), ((1, False, 0), 32), ((2, False, 0), 16), ((3, False, 0), 4), ((3, True, 0), 2), ((3, False, 31), 2)]


class Looked:
    """A page of a window that has one part."""

    def __init__(self, asks: int = -1, over: bool = False, rest: int = 0, is_still: bool = False, whole: bool = False, number: int = NUMBER) -> None:
        self.process, self.number, self.rest_most = Process(built_process()), number, rest
        self.process.make(ProcessFacts(most=MOST))
        self.process.offer(0, PART)
        if over:
            self.process.note(0, number - 1, 4, "COVERED", frame=5)
        for _ in range(3 if asks >= 0 else 0):
            self.look_at(0, (5, 6, False))
        for _ in range(asks):
            self.asked()
        if whole:
            self.process.note_part(0, 0, "WHOLE", flag=True)
        while rest or is_still:
            self.process.note_part(0, 0, "RESTS", changes=int(not is_still), own=PART, look=self.look(0))
            part, _ = self.process.read_part(0, 0) or ((), ())
            if part[3] == rest and part[5] == is_still:
                break

    def look(self, look: int) -> Look:
        return Look(zeros=70, ready=PART, look=look, turns=16, rest_most=self.rest_most)

    def begin(self, look: int) -> int:
        """What is done first; `taken` is whether the scan takes the page."""
        _, row = self.process.scan(0, "SCAN_BEGIN", self.number, self.look(look), [9], memory=[1])
        self.taken = bool(row[0] & TAKEN)
        return row[0] & 7

    def done(self, step: int, look: int, outcome: tuple[int, int, bool]) -> int:
        return self.process.scan(0, "SCAN_DONE", self.number, self.look(look), [step], outcomes=[outcome])[1][0] & 7

    def look_at(self, look: int, outcome: tuple[int, int, bool]) -> int:
        """A look that finds this. Returns its last step."""
        step = self.begin(look)
        while step in (FIND_COPY, GLANCE, READ):
            step = self.done(step, look, outcome)
        return step

    def looks(self) -> int:
        """How often it was found alike."""
        return (self.process.read_pages(0, self.number, 1) or [(0,) * 5])[0][4] >> 4 & 3

    def asked(self) -> None:
        """It was asked about in vain."""
        self.process.go_through(0, "ANSWERED", [self.number], fingerprints=[0], given=[0])

    def changed(self) -> None:
        """It isn't what was found: that counts no more."""
        self.process.go_through(0, "COPIED", [self.number], given=[2])

    def answer(self, look: int, most: int = MOST) -> int:
        """Whether it may be asked about, where windows may take so many mappings."""
        self.process.set_facts(ProcessFacts(most=most))
        return self.process.go_through(0, "TO_ASK", [self.number], look=self.look(look))[1][0]


def is_idle_by_reads(seen: Compared, over: bool) -> None:
    """A page is idle exactly if its last two reads since it was met were alike, and one over a frame if the last three were."""
    chance, reads, idle, looked = random.Random(3), list[int](), 0, Looked(over=over)
    for _ in range(LOOKS):
        if not over and not reads:
            looked.done(GLANCE, 0, (0, chance.randrange(2, 9), False))
        fingerprint = chance.randrange(2)
        step = looked.done(READ, 0, (fingerprint, 1, False))
        reads = [fingerprint, *reads][:3]
        alike = len(reads) >= (3 if over else 2) and len(set(reads[: 3 if over else 2])) == 1
        idle += alike
        seen.equal("a read", step == IDLE, alike)
        which = chance.randrange(16)
        if which == 0:
            looked.changed()
            reads = []
        elif which == 1:
            looked.process.note_page(0, NUMBER, "HELD", True)
            reads = []
        elif which == 2:
            if chance.random() < 0.5:
                looked.asked()
            else:
                seen.equal("it is crowded", looked.answer(0, 0), 4)
        elif which == 3 and over:
            # (one that couldn't be held: its last read counts still)
            looked.process.note_page(0, NUMBER, "HELD", False)
            reads = reads[:1]
    seen.holds("pages that are idle", idle > LOOKS // 10)


def stays(seen: Compared) -> None:
    """A page that changes by chance: what was idle is met at the next look, and what stays is idle after 17."""
    chance, looked, content, stayed, count, met = random.Random(6), Looked(), 1, 0, 0, 0
    for look in range(LOOKS):
        before = looked.looks()
        looked.look_at(look, (content, content % 1000, False))
        now = looked.looks()
        if now == 3:
            looked.asked()
        stayed += 1
        seen.holds(f"idle at look {look}", stayed < 17 or now == 3)
        seen.holds(f"met at look {look}", stayed > 1 or before != 3 or now == 1)
        count, met = count + (now == 3), met + (before != 1 and now == 1)
        if chance.randrange(24) == 0:
            content, stayed = content + 1, 0
    seen.holds("idle, and met", count > 5000 and met > 300)


def ways(seen: Compared) -> None:
    """What looks do with a page, worked out by hand."""
    for (asks, over, rest, is_still), due in WAYS:
        came = {TO_READ: 0, KEEP: 0, GLANCE: 0}
        for look in range(256):
            looked = Looked(asks, over, rest, is_still)
            step = looked.begin(look)
            if step == GLANCE:
                came[GLANCE] += 1
                step = looked.done(step, look, (0, 6, False))
            came[TO_READ] += step == READ
            came[KEEP] += step == IDLE
            looked.process.free()
        seen.equal(f"the ways of {asks, over, rest, is_still}", (came[TO_READ], came[KEEP], came[GLANCE]), due)
    for (asks, whole, rest), turns in TURNS:
        count = 0
        for look in range(64):
            looked = Looked(asks, rest=rest, whole=whole)
            step = looked.begin(look)
            step = looked.done(step, look, (0, 6, False)) if step == GLANCE else step
            count += step in (READ, IDLE, COUNT, ZEROS)
            looked.process.free()
        seen.equal(f"the turns of {asks, whole, rest}", count, turns)


def samples(seen: Compared) -> None:
    """Where a part rests each page is taken in its turn, worked out by hand: of 80 looks 16 glance at it and five are its turns, one of them both."""
    for number in range(64):
        again, young = Looked(3, rest=4, number=number), Looked(2, rest=4, number=number)
        left_out = left_young = 0
        for look in range(80):
            again.begin(look)
            young.begin(look)
            left_out, left_young = left_out + (not again.taken), left_young + (not young.taken)
        seen.equal(f"samples of {number}", left_out, 60)
        seen.equal(f"a page that is asked about, {number}", left_young, 0)
    passing = Looked(1, whole=True)
    seen.equal("in passing", sum(passing.answer(look) == 3 for look in range(256)), 192)


def run(tally: Tally, library: Library) -> None:
    """What looks are worth."""
    seen = Compared(tally, "what looks are worth")
    for over in (False, True):
        is_idle_by_reads(seen, over)
    stays(seen)
    ways(seen)
    samples(seen)
    seen.close()
