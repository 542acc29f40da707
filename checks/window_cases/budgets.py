"""Budgets of processor time: by their rules, and a thread that works as its budget says, by a clock of the check's own."""
from __future__ import annotations

import random
from typing import Any

from common.compared import Compared
from common.window_library import Library, values_of
from harness import Tally

MS = 1_000_000
SAVED_MOST, OWED_MOST, CREDIT_MOST, WAITED_FOR_MOST = 2 * MS, MS // 5, 60_000 * MS, 10_000 * MS
LONGEST, NAP_MOST = 4 * MS, 100 * MS


class Plain:
    """A budget by its rules: what is used is paid by what was saved, then by the share of the time that passed, and then by the credit."""

    def __init__(self, percent: int, burst: int, now: int, spent: int) -> None:
        self.pace(percent, burst)
        self.time, self.spent, self.saved, self.owed, self.credit = now, spent, 0, 0, 0

    def pace(self, percent: int, burst: int) -> None:
        self.percent = max(min(percent, 100), 1)
        self.burst = max(min(burst, 100), self.percent)

    def give_credit(self, ns: int) -> None:
        self.credit = min(CREDIT_MOST, self.credit + ns)

    def settle(self, now: int, spent: int) -> int:
        passed, due = max(now - self.time, 0), self.owed + max(spent - self.spent, 0)
        share, extra = self.percent * passed // 100, (self.burst - self.percent) * passed // 100
        by_saved = min(self.saved, due)
        by_share = min(share, due - by_saved)
        by_credit = min(extra, self.credit, due - by_saved - by_share)
        self.time, self.spent = max(self.time, now), max(self.spent, spent)
        self.saved = min(SAVED_MOST, self.saved - by_saved + share - by_share)
        self.credit -= by_credit
        self.owed = due - by_saved - by_share - by_credit
        rate = self.burst if self.credit else self.percent
        return 0 if self.owed <= OWED_MOST else -(-min(self.owed, WAITED_FOR_MOST) * 100 // rate)


class Asked:
    """A look whose next task is to release slots, or to sleep if a budget says so: 100 ms at most."""

    def __init__(self, library: Library) -> None:
        self.next_task: Any = library.functions["next_task"]
        self.tasks, outcome, budget = library.make("tasks"), library.make("outcome", goes_on=True), library.make("budget")
        library.call("begin_tasks", self.tasks)
        task = library.call("next_task", self.tasks, budget, 0, 0)
        library.call("task_done", self.tasks, task, outcome, 2**64 - 1)

    def wait(self, budget: Any, now: int, spent: int) -> int:
        """How long the thread sleeps; 0: it may work."""
        return int(self.next_task(self.tasks, budget, now, spent).ns)


def by_rules(library: Library, asked: Asked, seen: Compared, chance: random.Random) -> None:
    """A budget whose clocks go on, or back, by anything."""
    percent, burst = chance.choice([0, 1, 2, 10, 100, 200]), chance.choice([0, 2, 50, 100, 200])
    now, spent = chance.choice([0, 5, 2**63]), chance.choice([0, 5, 2**62])
    budget, plain = library.make("budget"), Plain(percent, burst, now, spent)
    library.call("begin", budget, percent, burst, now, spent)
    for _ in range(20):
        which = chance.randrange(8)
        if which == 0:
            percent, burst = chance.randrange(102), chance.randrange(102)
            library.call("pace", budget, percent, burst)
            plain.pace(percent, burst)
        elif which == 1:
            ns = chance.choice([MS, 40_000 * MS, 2**64 - 1])
            library.call("give_credit", budget, ns)
            plain.give_credit(ns)
        else:
            now = max(now + chance.choice([0, chance.randrange(MS), chance.randrange(1000 * MS), -5]), 0)
            spent = max(spent + chance.choice([0, chance.randrange(MS), chance.randrange(100 * MS), 30_000 * MS, -5]), 0)
            seen.equal("a wait", asked.wait(budget, now, spent), min(plain.settle(now, spent), NAP_MOST))
        due = (plain.time, plain.spent, plain.saved, plain.owed, plain.credit, plain.percent, plain.burst)
        seen.equal("a budget", values_of(budget), due)


class Thread:
    """A thread with a tenth of a processor, and half of it while a credit lasts."""

    def __init__(self, library: Library) -> None:
        self.asked = Asked(library)
        self.budget, self.now, self.spent, self.waits = library.make("budget"), 5, 0, 0
        self.chance = random.Random(1)
        library.call("begin", self.budget, 10, 50, 5, 0)

    def work(self, orders: int) -> None:
        """Does so many orders, and waits as the budget says."""
        for _ in range(orders):
            wait = self.asked.wait(self.budget, self.now, self.spent)
            order = 0 if wait else int(self.chance.random() * LONGEST)
            self.waits += wait > 0
            self.now, self.spent = self.now + wait + order, self.spent + order

    def percent_since(self, now: int, spent: int) -> int:
        return (self.spent - spent) * 100 // (self.now - now)


def worth(library: Library, seen: Compared) -> None:
    """A thread uses its tenth of a processor, and nearly half of it while a credit lasts."""
    thread = Thread(library)
    thread.work(50_000)
    seen.holds("its share", thread.percent_since(5, 0) in (9, 10))
    seen.holds("waits", thread.waits > 5_000)
    now, spent = thread.now, thread.spent
    library.call("give_credit", thread.budget, 30_000 * MS)
    thread.work(1_000)
    seen.equal("its share with a credit", thread.percent_since(now, spent), 49)
    thread.work(500_000)
    seen.holds("its share after that", thread.percent_since(now, spent) <= 12)


def chores(library: Library, seen: Compared, chance: random.Random) -> None:
    """Something that is done by the clock, with a tenth of a share: when it is done again, and what its runs use together."""
    percent, begun, first, used = chance.choice([0, 1, 2, 50, 100, 200]), 7, 7, 0
    for _ in range(50):
        took, least = chance.choice([0, 1, chance.randrange(100 * MS), 2**64 - 1]), chance.choice([0, 900 * MS, 2**64 - 1])
        share = max(min(percent, 100), 1)
        due = min(begun + max(least, -(-took * 1000 // share)), 2**64 - 1)
        seen.equal("a chore", library.call("again", percent, begun, took, least), due)
        if due < 2**64 - 1:
            used, begun = used + took, due
        seen.holds("a tenth", 1000 * used <= share * (begun - first))


def run(tally: Tally, library: Library) -> None:
    """Budgets by rules, and a thread."""
    seen, chance, asked = Compared(tally, "budgets by rules"), random.Random(2), Asked(library)
    for _ in range(1_000):
        by_rules(library, asked, seen, chance)
        chores(library, seen, chance)
    seen.close()
    seen = Compared(tally, "a thread keeps to its share")
    worth(library, seen)
    seen.close()
