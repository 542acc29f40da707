"""Many values that are compared with what is due, as one case of a check."""
from __future__ import annotations

from harness import Tally, parting

# How many values that are wrong are shown of a case.
SHOWN = 3


class Compared:
    """One case of many comparisons, which `close` counts: it passed if none was wrong."""

    def __init__(self, tally: Tally, name: str) -> None:
        self.tally, self.name = tally, name
        self.count, self.wrong = 0, 0

    def equal(self, at: object, given: object, due: object) -> bool:
        """Compares a value with the one that is due, and shows where that was if it differs."""
        self.count += 1
        if given == due:
            return True
        self.wrong += 1
        if self.wrong <= SHOWN:
            print(f"{self.name}, {at}: {parting(given, due)}", flush=True)
        return False

    def holds(self, at: object, is_so: object) -> bool:
        return self.equal(at, bool(is_so), True)

    def close(self) -> None:
        print(f"{self.name}: {self.count} compared", flush=True)
        self.tally.case(self.name, [f"{self.wrong} of {self.count} are wrong"] if self.wrong else [])
