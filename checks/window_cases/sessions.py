"""A session with a host as chance has it: connections that end at any moment, beside the client by its rules."""
from __future__ import annotations

import random

from common.compared import Compared
from common.window_library import Library, values_of
from harness import Tally

MOVES, UNHEARD, MESSAGE, NO_FRAME, FRAMES = 20_000, 1024, 128, 2**32 - 1, 50
UNASKED, TAKEN_UP, BEGUN = range(3)


class Plain:
    """The client by its rules. `open` is what a connection waits for: None where there is no connection, or a word and a number."""

    def __init__(self) -> None:
        self.name: bytes | None = None
        self.loans, self.said, self.unknown = 0, 0, False
        self.unheard: list[int] = []
        self.open: tuple[str, int] | None = None

    def disconnect(self) -> None:
        self.unknown |= self.open is not None and self.open[0] == "lend"
        self.open, self.said = None, 0

    def connect(self) -> tuple[bytes, int] | None:
        self.disconnect()
        self.open = ("hello", 0)
        return None if self.name is None else (self.name, self.loans)

    def welcome(self, name: bytes) -> int:
        if self.open != ("hello", 0):
            return UNASKED
        is_same = name == self.name
        if not is_same:
            self.name, self.loans, self.unheard = name, 0, []
        self.open, self.said, self.unknown = ("idle", 0), 0, False
        return TAKEN_UP if is_same else BEGUN

    def say(self, word: str, count: int) -> bool:
        if self.open != ("idle", 0) or self.said < len(self.unheard) or (word == "lend" and count > MESSAGE):
            return False
        self.open = (word, count)
        return True

    def hear(self, word: str, count: int, is_right: bool = True) -> bool:
        if self.open != (word, count) or not is_right:
            return False
        self.unheard, self.said, self.open = self.unheard[self.said :], 0, ("idle", 0)
        self.loans += word == "lend"
        return True

    def give_up(self, slots: list[int]) -> bool:
        if (self.open is not None and self.open[0] == "lend") or len(self.unheard) + len(slots) > UNHEARD:
            return False
        self.unheard += slots
        return True

    def next_release(self) -> list[int]:
        due = self.unheard[self.said :][:MESSAGE] if self.open == ("idle", 0) else []
        self.said += len(due)
        return due

    def numbers(self) -> tuple[object, ...]:
        word, count = self.open or ("none", 0)
        link = ["none", "hello", "idle", "ask", "lend"].index(word)
        return (self.name, self.loans, self.unheard, self.said, link, count, self.unknown)


class Both:
    """A session of the library, and the plain client."""

    def __init__(self, library: Library, seen: Compared, chance: random.Random) -> None:
        self.library, self.seen, self.chance = library, seen, chance
        self.session, self.plain = library.make("session"), Plain()

    def call(self, name: str, *words: object) -> object:
        return self.library.call(name, self.session, *words)

    def name(self) -> bytes:
        return bytes([self.chance.randrange(3)] * 16)

    def connect(self) -> None:
        name, loans, due = self.library.array("uint8_t", [9] * 16), self.library.make("uint64_t"), self.plain.connect()
        loans.value = 7
        self.seen.equal("whether it takes a session up", self.call("connect", name, loans), due is not None)
        self.seen.equal("what hello says", (bytes(name), loans.value), due or (bytes([9] * 16), 7))

    def welcome(self) -> None:
        name = self.name()
        self.seen.equal("a welcome", self.call("welcome", self.library.array("uint8_t", name)), self.plain.welcome(name))

    def disconnect(self) -> None:
        self.call("disconnect")
        self.plain.disconnect()

    def say(self) -> None:
        word, count = self.chance.choice(["ask", "lend"]), self.chance.choice([0, 1, 2, 128, 129])
        self.seen.equal(f"may {word}", self.call(word, count), self.plain.say(word, count))

    def hear(self) -> None:
        """Mostly the reply to what is open."""
        word, count = self.plain.open or ("ask", 1)
        count = self.chance.choice([count, count, count, count + 1])
        if word == "ask":
            self.seen.equal("answers", self.call("hear_answers", count), self.plain.hear("ask", count))
            return
        chance, loan = self.chance, (3, 7, 1)
        greatest = ((63 << 32) + 2**26 - 1, FRAMES - 1, 1)
        other = chance.choice([loan, loan, greatest, (2**63, NO_FRAME, 0), (3, FRAMES, 1), (64 << 32, 0, 1), (2**26, 0, 1)])
        count = min(count, MESSAGE + 1)
        loans = [loan] * count
        if count:
            loans[chance.randrange(count)] = other
        is_right = not count or other[1] == NO_FRAME or (other[1] < FRAMES and other[0] >> 32 < 64 and other[0] % 2**32 < 2**26)
        due = self.plain.hear("lend", count, is_right)
        self.seen.equal("loans", self.call("hear_loans", FRAMES, self.library.array("lent", loans), count), due)

    def give_up(self) -> None:
        slots = [self.chance.randrange(2**38) for _ in range(self.chance.choice([0, 1, 3, 128]))]
        due = self.plain.give_up(slots)
        self.seen.equal("slots that are given up", self.call("give_slots_up", self.library.array("uint64_t", slots), len(slots)), due)

    def release(self) -> None:
        places, due = self.library.array("uint64_t", [5] * MESSAGE), self.plain.next_release()
        self.seen.equal("slots to release", self.call("next_release", places), len(due))
        self.seen.equal("which", list(places), due + [5] * (MESSAGE - len(due)))

    def compare(self) -> None:
        it = self.session
        name = bytes(it.name) if it.has_name else None
        given = (name, it.loans, list(it.unheard)[: it.count], it.said, it.link, it.open if it.link > 2 else 0, it.unknown)
        self.seen.equal("a session", given, self.plain.numbers())


def any_numbers(library: Library, seen: Compared, chance: random.Random) -> None:
    """Numbers beyond a limit count as the limit: what is kept of them afterwards is within it."""
    for _ in range(200):
        count, said = chance.choice([0, 5, 1024, 1025, 2**32 - 1]), chance.choice([0, 5, 6, 2**32 - 1])
        session = library.make("session", count=count, said=said, link=chance.randrange(256))
        count, link = min(count, UNHEARD), session.link
        library.call("give_slots_up", session, library.array("uint64_t", []), 0)
        seen.equal("limits", (session.count, session.said, session.link), (count, min(said, count), link if link < 5 else 0))


def run(tally: Tally, library: Library) -> None:
    """A session, and sessions of any numbers."""
    seen, chance = Compared(tally, "sessions as chance has it"), random.Random(1)
    both = Both(library, seen, chance)
    seen.equal("a session of zeros", set(values_of(library.make("session"))[2:5]), {0})
    moves = [both.connect, both.welcome, both.say, both.say, both.hear, both.hear, both.hear, both.give_up, both.release, both.release]
    for _ in range(MOVES):
        chance.choice([*moves, *moves, both.disconnect])()
        both.compare()
    any_numbers(library, seen, chance)
    seen.close()
