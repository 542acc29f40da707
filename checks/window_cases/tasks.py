"""Tasks of looks as chance has it: by their rules, and by what is left of what they find."""
from __future__ import annotations

import dataclasses
import random

from common.compared import Compared
from common.window_library import Library, values_of
from harness import Tally

(OVER, SLEEP, BEGIN, ATTEND, RELEASE, WINDOW, LOOK, RETURN, GIVE_BACK, ASK, COPY, LEND, HOLD, END) = range(14)
SECOND, NAP = 10**9, 10**8
BATCH, MANY_YOUNG, RETURNS = 128, 12, 64
# A whole processor, so that the thread sleeps for what it has used beyond the time that passed.
SAVED, OWED = 2_000_000, 200_000
# How many parts each window has.
WINDOWS = [3, 0, 1, 40, 512]
Came = tuple[int, int, int, int, bool, bool]


@dataclasses.dataclass
class Plain:
    """A look by the rules: in which stage it is, where in its window, and what was found and isn't dealt with."""

    stage: str = "rests"
    parts: int = 0
    next_part: int = 0
    returns: list[tuple[int, int]] = dataclasses.field(default_factory=list)
    part: int = 0
    attend: int = 0
    zeros: int = 0
    idle: int = 0
    # what comes next of the idle pages that were asked about, if any were
    sharing: int = 0
    releases: bool = False

    def begin(self) -> bool:
        if self.stage != "rests":
            return False
        self.__init__(stage="begins")  # type: ignore[misc]
        return True

    def batch(self, takes_all: bool) -> tuple[int, int, int] | None:
        """What is done next with what was found, if it is as many as a batch or if all is dealt with."""
        if self.sharing:
            return (0, 0, self.sharing)
        for kind, count in ((GIVE_BACK, self.zeros), (ASK, self.idle)):
            if count and (takes_all or count >= BATCH):
                return (0, 0, kind)
        return None

    def next(self, now: int, wait: int) -> tuple[int, int, int]:
        """The next task: for how long it sleeps, its part and its kind."""
        if self.stage == "rests":
            return (0, 0, OVER)
        if self.attend <= now:
            return (0, 0, ATTEND)
        if wait:
            return (min(wait, NAP), 0, SLEEP)
        batch = self.batch(self.stage in ("windows", "returns", "ends"))
        if batch or self.releases:
            return batch or (0, 0, RELEASE)
        return self.in_window(now) if self.stage == "parts" else {
            "begins": (0, 0, BEGIN), "windows": (0, 0, WINDOW), "returns": (0, self.part, RETURN), "ends": (0, 0, END)}[self.stage]

    def in_window(self, now: int) -> tuple[int, int, int]:
        """The first return that is due, or the next part; all that was found is dealt with before a part comes twice, or the next window."""
        if self.returns and self.returns[0][1] <= now:
            self.part, self.stage = self.returns.pop(0)[0], "returns"
            return self.batch(True) or (0, self.part, RETURN)
        if self.next_part < self.parts:
            self.next_part += 1
            return (0, self.next_part - 1, LOOK)
        self.stage = "windows"
        return self.batch(True) or (0, 0, WINDOW)

    def done(self, task: tuple[int, int, int], came: Came, now: int) -> None:
        """This came of a task."""
        parts, zeros, idle, young, rests, goes_on = came
        _, part, kind = task
        if self.stage == "rests":
            return
        if kind == BEGIN:
            self.stage = "windows" if goes_on else "ends"
        elif kind == ATTEND:
            self.attend, self.releases = now + SECOND, True
            self.stage = self.stage if goes_on else "ends"
        elif kind == RELEASE:
            self.releases = goes_on
        elif kind == WINDOW and goes_on:
            self.stage, self.parts, self.next_part, self.returns = "parts", parts, 0, []
        elif kind == WINDOW:
            self.stage, self.releases = "ends", True
        elif kind == END:
            self.stage = "rests"
        if kind in (LOOK, RETURN):
            self.stage = "parts" if goes_on else "windows"
            if rests and young >= MANY_YOUNG and len(self.returns) < RETURNS:
                self.returns.append((part, now + SECOND))
        if kind in (LOOK, RETURN, GIVE_BACK, ASK, COPY, LEND, HOLD):
            self.zeros, self.idle = zeros, idle
        if kind in (ASK, COPY, LEND, HOLD):
            self.sharing = min(kind + 1, HOLD) if goes_on else 0


class Looking:
    """A thread that looks, for the library and by the rules."""

    def __init__(self, library: Library, seen: Compared) -> None:
        self.library, self.seen, self.plain = library, seen, Plain()
        self.tasks, self.budget = library.make("tasks"), library.make("budget")
        self.now = self.spent = self.saved = self.owed = 0
        library.call("begin", self.budget, 100, 100, 0, 0)
        self.begin()

    def begin(self) -> None:
        self.seen.equal("begin_tasks", self.library.call("begin_tasks", self.tasks), self.plain.begin())

    def next(self, passes: int, uses: int) -> tuple[int, int, int]:
        """The next task, once so much time has passed and so much of the processor was used."""
        self.now, self.spent = self.now + passes, self.spent + uses
        left = self.saved - self.owed + passes - uses
        self.saved, self.owed = min(max(left, 0), SAVED), max(-left, 0)
        found = values_of(self.library.call("next_task", self.tasks, self.budget, self.now, self.spent))
        due = self.plain.next(self.now, self.owed if self.owed > OWED else 0)
        self.seen.equal(f"a task at {self.now}", found, due)
        return due

    def done(self, task: tuple[int, int, int], came: Came) -> None:
        given = self.library.structs["outcome"](*came)
        self.library.call("task_done", self.tasks, self.library.structs["task"](*task), given, self.now)
        self.plain.done(task, came, self.now)


def anything(library: Library, seen: Compared, chance: random.Random) -> None:
    """Looks of which anything comes."""
    looking = Looking(library, seen)
    for _ in range(3_000):
        task = looking.next(chance.choice([0, 10**6, 4 * 10**7, 3 * 10**8]), chance.choice([0, 0, 0, 5 * 10**6, 4 * 10**8]))
        goes_on = chance.random() < 0.9 if task[2] in (LOOK, RETURN, ATTEND, WINDOW) else chance.random() < 0.5
        zeros, idle = chance.choice([0, 0, 1, 127, 128]), chance.choice([0, 0, 1, 127, 128])
        looking.done(task, (chance.choice([0, 1, 20]), zeros, idle, chance.choice([0, 11, 12, 512]), chance.random() < 0.5, goes_on))
        if task[2] == OVER:
            looking.begin()


def many_returns(library: Library, seen: Compared, chance: random.Random) -> None:
    """A look at a window of 1,000 parts, of which many rest, by a clock that goes on slowly: it comes back to 64 parts at a time."""
    looking, most, returns = Looking(library, seen), 0, 0
    for _ in range(5_000):
        task = looking.next(chance.randrange(1, 2 * 10**7), 0)
        goes_on = task[2] != RELEASE and not (task[2] == WINDOW and looking.plain.parts == 1_000)
        looking.done(task, (1_000, 0, 0, chance.randrange(32), True, goes_on))
        most, returns = max(most, len(looking.plain.returns)), returns + (task[2] == RETURN)
    seen.holds(f"returns: {returns}, at most {most}", most == RETURNS and returns > 1_000)


def each_is_dealt_with(library: Library, seen: Compared, chance: random.Random) -> None:
    """A look at 556 parts whose finds are by chance ends, and leaves nothing."""
    looking, slots, windows, looks, zeros, idle, shared = Looking(library, seen), 1_000, [*WINDOWS], 0, 0, 0, 0
    for _ in range(20_000):
        task = looking.next(chance.randrange(2_000_000), 0)
        kind, goes_on, parts = task[2], True, 0
        if kind == RELEASE:
            slots = max(slots - 128, 0)
            goes_on = slots > 0
        elif kind == WINDOW:
            goes_on = bool(windows)
            parts = windows.pop(0) if windows else 0
        elif kind in (LOOK, RETURN):
            looks, zeros, idle = looks + (kind == LOOK), zeros + chance.randrange(50), idle + chance.randrange(90)
        elif kind == GIVE_BACK:
            zeros = max(zeros - 1 - chance.randrange(16), 0)
        elif kind in (ASK, COPY, LEND):
            shared = min(idle, 128) if kind == ASK else shared
            stay = min(chance.randrange(129), shared)
            shared, idle, goes_on = stay, idle - (shared - stay), stay > 0
        elif kind == HOLD:
            some = min(1 + chance.randrange(16), shared)
            shared, idle = shared - some, idle - some
            goes_on = shared > 0
        looking.done(task, (parts, zeros, idle, 0, False, goes_on))
    left = (looking.plain.stage, looks, zeros, idle, slots)
    seen.equal("what is left", left, ("rests", 556, 0, 0, 0))


def run(tally: Tally, library: Library) -> None:
    """Looks of which anything comes, and looks that end."""
    seen, chance = Compared(tally, "tasks as chance has it"), random.Random(11)
    for _ in range(5):
        anything(library, seen, chance)
    many_returns(library, seen, chance)
    each_is_dealt_with(library, seen, chance)
    seen.close()
