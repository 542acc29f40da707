"""A host as chance has it: connections, packets, ends of connections and processes, beside a host by its rules."""
from __future__ import annotations

import random
import struct

from common.compared import Compared
from common.compared_host import CONTENTS, SALT, ComparedHost
from common.plain_host import FRAMES, HELLO, MACHINES, MESSAGE, NO_FRAME, PASSING, SESSIONS, SLOTS, UNKNOWN, ask, hello, lend, release
from common.window_library import Library, built_host
from harness import Tally

MOVES, SEEDS = 2_500, 3


class Chance:
    """Calls of a host by chance. A session's pages are numbered."""

    def __init__(self, host: ComparedHost, chance: random.Random) -> None:
        self.host, self.chance, self.names = host, chance, 0

    def number(self) -> int:
        return self.chance.randrange(SESSIONS + 1)

    def beside(self) -> int:
        return self.chance.choice([UNKNOWN, UNKNOWN, NO_FRAME, self.number(), self.number()])

    def connect(self) -> None:
        self.names += 1
        self.host.connect(struct.pack("<QQ", self.names, 0))

    def hello(self) -> bytes:
        """A new session, or one with its name or another, with the right count of replies or another."""
        begun = list(self.host.plain.begun())
        if not begun or self.chance.random() < 0.3:
            return hello(None)
        wanted = self.chance.choice(begun)
        name = wanted.name if self.chance.random() < 0.9 else bytes(16)
        return hello((name, (wanted.loans + self.chance.choice([0, 0, 0, -1, 1])) % 2**64))

    def ask(self) -> bytes:
        fingerprints = [*self.host.plain.fingerprints, 1, 2, 3]
        pages = [self.chance.randrange(6) + PASSING * self.chance.choice([0, 0, 1]) for _ in range(self.chance.choice([0, 1, 3, MESSAGE]))]
        return ask([(page, self.chance.choice(fingerprints)) for page in pages])

    def release(self) -> bytes:
        """Slots of the session itself and of others, and some that there aren't."""
        there = [*self.host.plain.slots()] or [0]
        others = [0, SLOTS, 1 << 32, MACHINES << 32, 2**64 - 1]
        return release([self.chance.choice([*there, *there, *others]) for _ in range(self.chance.choice([0, 1, 2, 5]))])

    def broken(self) -> bytes:
        """A packet with a byte more or less, another word in its head, or random bytes."""
        packet = self.chance.choice([self.hello(), self.ask(), self.release(), lend(3)])
        at, word = self.chance.choice([0, 4]), struct.pack("<I", self.chance.choice([0, HELLO, 3, 5, 17, MESSAGE + 1, 2**32 - 1]))
        return self.chance.choice([packet[:-1], packet + b"\0", packet[:at] + word + packet[at + 4 :], self.chance.randbytes(12), b""])

    def send(self, packet: bytes, pages: int = 0) -> None:
        contents = [self.chance.randrange(CONTENTS) for _ in range(pages)]
        most = self.chance.choice([0, 1, 2, MESSAGE, 2**32 - 1])
        beside = self.beside()
        self.host.serve(self.number(), packet, contents, MESSAGE if beside == UNKNOWN else most, beside)

    def lend(self) -> None:
        count = self.chance.choice([0, 1, 2, 5, MESSAGE])
        self.send(lend(count), self.chance.choice([count, count, count, max(0, count - 1), count + 1]))

    def take_back(self) -> None:
        self.host.take_back(self.number(), [self.chance.choice([*range(MACHINES * FRAMES), NO_FRAME]) for _ in range(self.chance.randrange(4))])

    def move(self) -> None:
        """Mostly packets, so that sessions begin, lend and are taken up before they end."""
        often = ["connect", "lend", "lend", "ask", "release", "hello", "hello", "disconnect"]
        what = self.chance.choice([*often, *often, "broken", "take_back", "end_empty", "end"])
        if what in ("connect", "lend", "take_back"):
            getattr(self, what)()
        elif what in ("ask", "release", "hello", "broken"):
            self.send(getattr(self, what)())
        elif what == "end":
            self.host.end(self.number(), self.chance.choice([1, 2, MESSAGE]))
        else:
            getattr(self.host, what)(self.number())


def run(tally: Tally, library: Library) -> None:
    """Hosts of several seeds. (The library for windows isn't used.)"""
    del library
    hosts, seen = built_host(), Compared(tally, "hosts as chance has it")
    for seed in range(SEEDS):
        chance = random.Random(seed)
        moves = Chance(ComparedHost(hosts, seen, chance), chance)
        for _ in range(MOVES):
            moves.move()
            moves.host.compare()
        moves.host.free()
    seen.equal("the salt of fingerprints", moves.host.plain.salt, SALT)
    seen.close()
