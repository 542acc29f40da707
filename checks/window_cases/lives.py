"""Lives of pages of a window: lists, rows, ways home, facts and others' events come as chance has it, and the events of what is done are played.

The library says what is done with each page. Each event for which an order stands must be possible by the protocol of windows
(common/plain_windows.py), and after each move what is believed of each page is right of it, and is what the host has for it.
"""
from __future__ import annotations

import collections
import dataclasses
import random
from collections.abc import Sequence
from typing import Any, Optional

from common.compared import Compared
from common.plain_page import (
    CHOSEN, COPIED, EQUAL, HELD, HOMES, HOMING, HOMING_IN_PLACE, LEAVING, LETTING_GO, PRIVATE, READY, SHOWING, SHOWN, WITH_FRAME, WITH_SLOT, ZEROS,
    Facts,
)
from common.plain_looks import MAKE_WHOLE, PART, PartConfig, PartFound
from common.plain_process import (
    ASIDE, COMPARE, COMPARE_ZEROS, END_WATCH, GIVE_BACK, MAP, NO_FRAME, NOT_TAKEN, OVER, STUCK, TAKEN, TAKEN_ASIDE, WATCHED, ProcessFacts,
)
from common.plain_windows import Event, Window, Windows
from common.window_library import Library, built_process
from common.window_process import Process
from harness import Tally

# The first pages of the window are 1 to 4, and the others of their part do nothing. Page 0 has another lender. A host's file has two frames for them.
PAGES, FIRST, FRAMES = 4, 1, 2
SEEDS, MOVES = 2, 20_000
LEAST = {
    "mapped": 50, "released": 100, "given back": 50, "home": 10, "refused at once": 50, "in vain": 80, "crowded": 10, "stuck": 20, "lost": 50,
    "goes on": 100, "splits": 10, "wholes": 10,
}


def is_right(belief: int, frame: int, page: Window) -> bool:
    """Whether what is believed is right of a page."""
    if belief in (PRIVATE, CHOSEN, COPIED, READY, READY | ZEROS):
        return page.held is None and not page.is_bare() and not page.guarded
    if belief in (HELD, HELD | ZEROS, LETTING_GO | ZEROS):
        return page.held is None and not page.is_bare()
    if belief == EQUAL:
        return page.held == frame and not page.is_bare()
    if belief == EQUAL | ZEROS:
        return page.held is None and not page.is_bare() and page.copy == 0
    if belief in (SHOWN, HOMING, HOMING_IN_PLACE):
        return page.held == frame and not page.guarded
    return not page.is_bare() and (belief == LETTING_GO or not page.guarded)


@dataclasses.dataclass(eq=False)
class Row:
    """Pages that are held: the first one, and the library's byte of each."""

    first: int
    bytes: Sequence[int]


class Life:
    """A window of one part, a host's own account of each, and what the pages show."""

    def __init__(self, library: Library, seen: Compared, seed: int) -> None:
        self.library, self.seen, self.chance = library, seen, random.Random(seed)
        self.process, self.facts, self.state, self.why = Process(built_process()), ProcessFacts(), (False, False), Facts()
        self.process.make(self.facts)
        self.process.offer(0, PART)
        self.pins, self.whole, self.config = [False] * PAGES, False, PartConfig(16, 4, 2, 3)
        self.known: Optional[list[tuple[int, ...]]] = None
        # what the host has given for each page: a slot with a frame
        self.given: list[Optional[tuple[int, int]]] = [None] * PAGES
        self.slots = 0
        self.rows: list[Row] = []
        self.windows = Windows([1] * (PAGES + 1), [0, 1, 1])
        self.tally: collections.Counter[str] = collections.Counter()
        self.make_whole(True)

    def page(self, place: int) -> tuple[int, ...]:
        """What the library knows of a page: its slot, frame, clue, belief and looks."""
        if self.known is None:
            self.known = self.process.read_pages(0, 0, PAGES)
        return self.known[place] if self.known else ()

    def belief(self, place: int) -> int:
        return self.page(place)[3] & 31

    def frame(self, place: int) -> int:
        return self.page(place)[1]

    def window(self, place: int) -> Window:
        return self.windows.pages[FIRST + place]

    def shown(self, place: int) -> int:
        return self.windows.shown(FIRST + place)

    def is_over(self, place: int) -> bool:
        """Whether a frame lies under a page, for all that is known."""
        return bool(self.page(place)[3] & 32)

    def some(self) -> list[int]:
        """Some pages, one after another."""
        return [place for place in range(PAGES) if self.chance.random() < 0.75]

    # ---- calls ----

    def call(self, name: str, *words: Any, **more: Any) -> Any:
        self.known = None
        return getattr(self.process, name)(*([] if name == "set_facts" else [0]), *words, **more)

    def go_through(self, kind: str, places: list[int], **more: Any) -> list[int]:
        """A call for a list of pages. Returns its answers."""
        is_done, answers = self.call("go_through", kind, places, **more)
        self.seen.holds(kind, is_done)
        return list(answers)

    def note(self, kind: str, place: int, count: int = 1, **more: Any) -> None:
        """A call for pages in a row."""
        self.seen.holds(kind, self.call("note", place, count, kind, **more))

    def make_whole(self, whole: bool) -> None:
        self.whole = whole
        self.seen.equal("WHOLE", self.call("note_part", 0, "WHOLE", flag=whole), (True, 9))

    def must(self, word: str, place: int, *more: int) -> None:
        """An event of a page that must be possible."""
        event: Event = (word, FIRST + place, *more)
        self.seen.holds(f"{event} is possible", self.windows.apply(event))

    # ---- loans ----

    def copy(self) -> None:
        """Pages are copied to the lender's buffer; some are others than those that were found."""
        places = self.some()
        there, prints = [int(self.chance.random() < 0.9) for _ in places], [0 for _ in places]
        checks = self.go_through("TO_COPY", places, given=there, fingerprints=prints)
        self.others()
        outcomes = [self.chance.choice([1, 1, 1, 1, 2, 3]) if check else 0 for check in checks]
        answers = self.go_through("COPIED", places, given=outcomes)
        self.seen.equal("loans that are to be asked for", answers, [int(it == 1) for it in outcomes])

    def lend(self) -> None:
        """A host is asked for loans of what was copied. If its reply is lost the orders stay open until it has no loan for the pages."""
        places, is_heard = [it for it in range(PAGES) if self.belief(it) == COPIED], self.chance.random() < 0.75
        for place in places:
            if self.chance.random() < 0.75:
                self.slots += 1
                alike = [it for it in range(FRAMES) if self.windows.frames[it] == self.shown(place)]
                self.given[place] = (self.slots, self.chance.choice([*range(FRAMES), *alike * 2]))
        if not is_heard:
            self.others()
            for place in places:
                self.tally["lost"] += self.given[place] is not None
                self.given[place] = None
        loans = [self.given[place] or (0, NO_FRAME) for place in places]
        slots, frames = [slot for slot, _ in loans], [frame for _, frame in loans]
        answers = self.go_through("LOANED", places, slots=slots, frames=frames, file_frames=FRAMES, is_heard=is_heard)
        self.seen.equal("the loans", answers, [(9 if self.given[place] else 2) if is_heard else 0 for place in places])

    def release(self) -> None:
        """Slots are released, or the host has them still. If the reply is lost the orders stay open until one comes."""
        room, ready = self.chance.randrange(1, PAGES + 1), self.ready()
        is_gone, (found, numbers) = self.chance.random() < 0.5, self.call("to_release", 0, PAGES, room)
        self.refused(ready)
        for place in numbers[:found]:
            given = self.given[place]
            self.seen.equal("the slot", given and given[0], self.page(place)[0])
            if is_gone:
                self.given[place] = None
                self.must("release", place)
        if self.chance.random() < 0.3:
            self.others()
        self.seen.holds("released", self.call("released", numbers[:found], is_gone))
        self.tally["released"] += found if is_gone else 0

    # ---- pages that are held ----

    def ready(self) -> list[int]:
        return [place for place in range(PAGES) if self.belief(place) == READY]

    def refused(self, ready: list[int]) -> None:
        """These pages had their loans. Counts those that aren't needed any more."""
        self.tally["refused at once"] += sum(self.belief(place) == LEAVING for place in ready)

    def show(self) -> None:
        """Pages that have their loans are held, to show their frames."""
        places, ready = self.some(), self.ready()
        answers = self.go_through("TO_HOLD", places)
        for place, answer in zip(places, answers):
            self.seen.holds("a loan is held or isn't needed", place not in ready or answer == 1 or self.belief(place) == LEAVING)
        self.refused(ready)
        self.hold(places, answers)

    def give_back(self) -> None:
        """Pages are held, to be given back as zeros. For some of them there is no room, maybe."""
        places, self.facts.most = self.some(), self.process.mappings() + self.chance.choice([0, 9])
        self.call("set_facts", self.facts)
        answers = self.go_through("TO_GIVE_BACK", places)
        self.tally["crowded"] += answers.count(4)
        self.hold(places, answers)

    def hold(self, places: list[int], answers: list[int]) -> None:
        """Pages are held that are to be. Some of those that aren't what they are to show are refused before."""
        if self.chance.random() < 0.3:
            self.others()
        ordered = [place for place, answer in zip(places, answers) if answer == 1]
        kept = [place for place in ordered if self.chance.random() < (0.9 if self.seems_equal(place) else 0.75)]
        for place in ordered:
            self.seen.holds("what is to be held may be lent", not self.whole and not self.is_barred(place))
        self.go_through("COPIED", places, given=[2 if it in ordered and it not in kept else 0 for it in places])
        self.tally["refused at once"] += len(ordered) - len(kept)
        while kept:
            count = next((n for n in range(len(kept)) if kept[n] != kept[0] + n), len(kept))
            self.begin(kept[0], count)
            kept = kept[count:]

    def seems_equal(self, place: int) -> bool:
        content = 0 if self.belief(place) & ZEROS else self.windows.frames[self.frame(place)]
        return bool(self.shown(place) == content)

    def begin(self, first: int, count: int) -> None:
        """Pages in a row are held, or aren't, and then writes to them may wait all the same. Only what has no frame under it is moved aside."""
        takings = list[int]()
        for place in range(first, first + count):
            taking = self.chance.choice([NOT_TAKEN, WATCHED, *[TAKEN] * 5, *[TAKEN_ASIDE] * 5])
            if taking >= TAKEN or (taking == WATCHED and self.chance.random() < 0.5):
                self.must("guard", place)
            takings.append(TAKEN if taking == TAKEN_ASIDE and self.is_over(place) else taking)
        is_begun, row = self.call("begin_row", first, takings)
        self.seen.holds("begin_row", is_begun)
        self.rows.append(Row(first, row))

    def can(self, place: int, step: int, byte: int) -> bool:
        """Whether a step can be done: a comparison finds a guarded page equal, and what replaces a page stood guarded since."""
        page, frame = self.window(place), self.frame(place)
        if step == COMPARE:
            return page.guarded and self.windows.frames[frame] == self.shown(place)
        if step == COMPARE_ZEROS:
            return page.guarded and self.shown(place) == 0
        if step == GIVE_BACK or (step == END_WATCH and byte == ASIDE):
            return page.copy_fresh
        return page.frame_fresh if step == MAP else True

    def carry_out(self, place: int, step: int, byte: int) -> None:
        """The events of a step, each of which must be possible, and what was put at the page's place."""
        frame, belief, shown = self.frame(place), self.belief(place), self.shown(place)
        if step in (COMPARE, COMPARE_ZEROS):
            self.must("copy", place)
        if step == COMPARE:
            self.must("lend", place, frame)
        elif step == MAP:
            self.must("map", place)
            self.note("COVERED", place, frame=frame)
        elif step == GIVE_BACK or (step == END_WATCH and byte == ASIDE):
            self.must("discard", place)
        elif step == END_WATCH and belief & ~ZEROS == LETTING_GO:
            self.must("unguard", place)
        if step == GIVE_BACK:
            self.note("ZEROS_MAPPED", place, flag=True)
        if step == END_WATCH and belief == EQUAL | ZEROS:
            self.seen.holds("GIVEN_BACK", self.call("note_page", place, "GIVEN_BACK", True))
            self.tally["given back"] += 1
        self.tally["mapped"] += step == MAP
        self.seen.equal(f"what the page shows after {step}", self.shown(place), shown)

    def go_on_with(self, row: Row) -> None:
        """Carries out the next order of a row with some of its pages. Once it is over each page that is stuck is in a row of its own."""
        chance, order = self.chance, self.call("next_of_row", row.first, row.bytes)
        begin, count, step = order
        if step == OVER:
            self.rows.remove(row)
            for behind, byte in enumerate(row.bytes):
                if byte & STUCK:
                    self.rows.append(Row(row.first + behind, [self.library.call("row_again", byte)]))
                    self.tally["stuck"] += 1
            return
        if chance.random() < 0.3:
            self.others()
        if chance.random() < 0.1:
            self.write_anew(row.first + begin)
        done = 0
        for behind in range(begin, begin + count):
            can = self.can(row.first + behind, step, row.bytes[behind])
            self.tally["in vain"] += step == COMPARE and not can
            if not can or chance.random() < 0.125:
                break
            self.carry_out(row.first + behind, step, row.bytes[behind])
            done += 1
        refused = chance.randint(0, count - done)
        is_done, row.bytes = self.call("row_done", row.first, row.bytes, order, done, refused)
        self.seen.holds("row_done", is_done)

    # ---- ways home ----

    def order_home(self, place: int) -> None:
        """Pages from one on are to get memory of their own, if something says so."""
        self.note("CALLED_HOME", place, PAGES - place, why=self.why)

    def come_home(self) -> None:
        """Pages that are to get memory of their own get it, or don't. What has to stay where it is gets it there."""
        copies = [self.is_over(place) and not self.window(place).is_bare() for place in range(PAGES)]
        is_found, stays = self.call("find_staying", 0, copies, self.why)
        self.seen.holds("find_staying", is_found)
        for place in range(PAGES):
            self.seen.holds("a copy that a device may hold stays", stays[place] or not copies[place] or not self.pins[place])
            if self.belief(place) not in HOMES:
                continue
            if self.chance.random() < 0.125:
                self.note("REFUSED_HOME", place)
                continue
            self.must("write", place, self.shown(place))
            if not stays[place]:
                self.note("MOVED_THERE", place)
            self.note("COPIED_HOME" if stays[place] else "MOVED_HOME", place)
            self.tally["home"] += 1

    # ---- what else happens ----

    def is_barred(self, place: int) -> bool:
        """Something that the lender was told keeps a page from being lent, but for a call of the monitor."""
        return self.pins[place] or any(self.state) or self.facts.locked or self.facts.is_over

    def set_facts(self, place: int) -> None:
        """Other things are so from now on, of all pages or of those from one on; and a call of the monitor comes, or ends."""
        number = self.chance.randrange(40)
        self.facts = ProcessFacts(self.facts.most, int(number == 5), number in (21, 37), number == 4, number == 8)
        self.call("set_facts", self.facts)
        self.state = (number in (2, 3), number == 7)
        self.call("set_state", *self.state)
        for at in range(place, PAGES):
            if self.pins[at] != (number in (1, 2)):
                self.pins[at] = not self.pins[at]
                self.seen.holds("pin", self.call("pin", at, 1, self.pins[at]))
        self.why = Facts(called=number == 0, leaves=number in (9, 10), pinned=number == 11)

    def may_go_on(self) -> None:
        """Where the call may go on by a page no write to that waits, and if it must not show a frame it shows none."""
        for place in range(PAGES):
            if not self.call("may", place, 1, "GO_ON", why=self.why):
                continue
            page, must_own = self.window(place), self.is_barred(place) or self.why.leaves or self.why.pinned
            self.seen.holds("no write waits", not page.guarded)
            self.seen.holds("a page that must own its memory", not must_own or not page.is_bare())
            self.tally["goes on"] += must_own

    def hear(self, place: int) -> None:
        """The lender hears what is so: the page shows no frame itself."""
        if self.window(place).is_bare():
            return
        if self.chance.random() < 0.5:
            self.note("ONE_MEMORY", place)
        else:
            self.note("GIVEN_UP", place)

    def others(self) -> None:
        """An event of a guest, which no lender hears, or of page 0, or of the host; if it is possible."""
        chance = self.chance
        events: list[Event] = [
            ("write", chance.randrange(5), chance.randrange(2)), ("write", chance.randrange(5), chance.randrange(2)), ("discard", chance.randrange(5)),
            ("guard", 0), ("unguard", 0), ("copy", 0), ("lend", 0, chance.randrange(3)), ("map", 0), ("release", 0),
            ("trim", chance.randrange(3), chance.randrange(2)),
        ]
        self.windows.apply(chance.choice(events))

    def write_anew(self, place: int) -> None:
        """A guest gives a page up, which no lender hears, so that it may write to it."""
        self.windows.apply(("discard", FIRST + place))
        self.windows.apply(("write", FIRST + place, self.chance.randrange(2)))

    def look(self) -> None:
        """A look at the part. Where it is to change no write to a page waits; where it is made whole its pages get memory of their own."""
        is_loose, is_movable = [self.call("may", 0, PAGES, kind) for kind in ("GIVE_UP", "EXCHANGE")]
        bits = [*[self.chance.random() < it for it in (0.5, 1, 1, 0.75, 0.25)], is_loose, is_movable]
        found = PartFound(508 + self.chance.randrange(5), self.chance.randrange(32), *bits)
        _, order = self.call("note_part", 0, "SETTLED", config=self.config, found=found)
        if not order:
            return
        for place in range(PAGES):
            self.seen.holds("no write waits where a part changes", not self.window(place).guarded)
        if self.chance.random() < 0.5:
            return
        self.make_whole(order == MAKE_WHOLE)
        self.tally["wholes" if self.whole else "splits"] += 1
        if self.whole:
            for place in range(PAGES):
                if self.window(place).is_bare():
                    self.must("write", place, self.shown(place))
            self.note("ONE_MEMORY", 0, PART)

    def next_lender(self) -> None:
        """The lender goes and another comes, with frames of its own. Each page shows what it showed, and most writes that waited wait still."""
        before = self.windows
        self.windows = Windows([before.shown(it) for it in range(PAGES + 1)], [self.chance.randrange(2), 1, 0])
        for place in range(PAGES):
            if before.pages[FIRST + place].guarded and self.chance.random() < 0.75:
                self.must("guard", place)
            self.note("DETACHED", place)
            self.given[place] = None

    def go_on(self) -> None:
        """Does one thing or another. While pages are held no others are held."""
        which, place = self.chance.randrange(256), self.chance.randrange(PAGES)
        if which == 0:
            self.next_lender()
        elif which < 16:
            self.set_facts(place)
        elif which < 28:
            self.may_go_on()
        elif which < 56:
            self.copy()
        elif which < 76:
            self.lend()
        elif which < 88:
            self.others()
        elif which < 104:
            self.look()
        elif which < 110:
            self.hear(place)
        elif which < 118:
            self.release()
        elif which < 132:
            self.order_home(place)
        elif which < 142:
            self.come_home()
        elif self.rows:
            self.go_on_with(self.chance.choice(self.rows))
        elif which < 244:
            self.show()
        else:
            self.give_back()

    def check(self) -> None:
        """What is believed of each page is right of it, and is what the host has; and somebody carries out each order that is open."""
        held = {row.first + behind for row in self.rows for behind in range(len(row.bytes))}
        for place in range(PAGES):
            (slot, frame, _, _, looks), belief, given = self.page(place), self.belief(place), self.given[place]
            self.seen.holds(f"an order at {belief}", belief == COPIED or belief in HOMES or place in held or not looks & 1)
            self.seen.holds(f"{belief} of {self.window(place)}", is_right(belief, frame, self.window(place)))
            self.seen.holds("no page shows a frame unknown", belief in SHOWING or not self.window(place).is_bare())
            if belief in WITH_FRAME:
                self.seen.equal("a loan", given, (slot, frame))
            elif belief in WITH_SLOT:
                self.seen.equal("a slot", given and given[0], slot)
            else:
                self.seen.equal(f"no slot at {belief}", given, None)


def run(tally: Tally, library: Library) -> None:
    """Lives of windows' pages."""
    seen = Compared(tally, "whatever comes to a window is possible")
    for seed in range(SEEDS):
        life = Life(library, seen, seed)
        for _ in range(MOVES):
            life.go_on()
            life.check()
            if seen.wrong > 3:
                break
        for what, least in LEAST.items():
            seen.holds(f"seed {seed}, {what}: {life.tally[what]}", life.tally[what] > least)
    seen.close()
