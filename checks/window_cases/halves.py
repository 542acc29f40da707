"""Both halves of a session as chance has it: a client and a host over connections that lose messages, one after the other, and hosts and
processes that end. The slots of each half are those of a client and a host by their rules.

What the client says on a connection may be heard after the client has given it up, until the host takes the session up. Another client
lends and releases meanwhile, so that what is freed is soon given again.
"""
from __future__ import annotations

import collections
import dataclasses
import random
import struct
from collections.abc import Callable

from common.compared import Compared
from common.compared_host import CONTENTS, ComparedHost
from common.plain_host import FRAMES, LOANS, MACHINES, MESSAGE, NO_FRAME, OK, SEEN, WELCOME, Session, ask, hello, lend, loans_in, release
from common.window_library import Library, built_host
from harness import Tally
from window_cases.sessions import BEGUN, TAKEN_UP, Plain

MOVES, SEEDS = 10_000, 2
# How often each of these must have happened, so that the check says something of it.
DUE = {
    "a session is taken up": 100, "a reply to a lend is lost": 60, "a release is said again that was heard": 30,
    "a slot was given to somebody else meanwhile": 5, "an earlier connection is heard": 40, "an earlier connection stands still": 50,
    "loans are taken back": 30, "both halves agree": 1000, "a host ends": 8, "a process ends": 8,
}


@dataclasses.dataclass(eq=False)
class Connection:
    """A connection, by the number of its session at the host. The client has it or gave it up."""

    number: int
    to_host: list[tuple[bytes, list[int]]] = dataclasses.field(default_factory=list)
    to_client: list[bytes] = dataclasses.field(default_factory=list)
    is_given_up: bool = False


class Client:
    """The client's half of the library, and the plain one. `shown` are slots with their frames and contents."""

    def __init__(self, library: Library, seen: Compared) -> None:
        self.library, self.seen = library, seen
        self.session, self.plain = library.make("session"), Plain()
        self.shown: dict[int, tuple[int, int]] = {}
        self.lends: list[int] = []

    def equal(self, at: str, given: object, due: object) -> bool:
        return self.seen.equal(at, given, due)

    def call(self, name: str, *words: object) -> object:
        return self.library.call(name, self.session, *words)

    def connect(self) -> bytes:
        """The hello of a new connection."""
        name, loans, due = self.library.array("uint8_t", bytes(16)), self.library.make("uint64_t"), self.plain.connect()
        wanted = (bytes(name), loans.value) if self.call("connect", name, loans) else None
        self.equal("what hello says", wanted, due)
        return hello(wanted)

    def disconnect(self) -> None:
        self.call("disconnect")
        self.plain.disconnect()

    def say(self, word: str, count: int) -> bool:
        due = self.plain.say(word, count)
        self.equal(f"may {word}", self.call(word, count), due)
        return due

    def next_release(self) -> list[int]:
        places, due = self.library.array("uint64_t", [0] * MESSAGE), self.plain.next_release()
        count = self.call("next_release", places)
        self.equal("slots to release", list(places)[: int(str(count))], due)
        return due

    def give_up(self, slots: list[int]) -> None:
        """Their pages show other memory now."""
        due = self.plain.give_up(slots)
        self.equal("slots that are given up", self.call("give_slots_up", self.library.array("uint64_t", slots), len(slots)), due)
        self.shown = {slot: it for slot, it in self.shown.items() if not due or slot not in slots}

    def hear_loans(self, reply: bytes) -> None:
        loans = loans_in(reply)
        given = self.library.array("lent", loans)
        self.equal("loans", self.call("hear_loans", MACHINES * FRAMES, given, len(loans)), self.plain.hear("lend", len(loans)))
        for (slot, frame, _), content in zip(loans, self.lends):
            if frame != NO_FRAME:
                self.equal(f"slot {slot} is given twice", slot in self.shown or slot in self.plain.unheard, False)
                self.shown[slot] = (frame, content)


class World:
    """A client, its connections to a host, and another client of that host."""

    def __init__(self, libraries: tuple[Library, Library], seen: Compared, chance: random.Random, counted: collections.Counter[str]) -> None:
        self.windows, self.hosts = libraries
        self.seen, self.chance, self.counted, self.names = seen, chance, counted, 0
        self.client = Client(self.windows, seen)
        self.begin_host()
        self.welcomed = self.host  # whose slots the client shows

    def begin_host(self) -> None:
        self.host = ComparedHost(self.hosts, self.seen, self.chance)
        self.connections: list[Connection] = []
        self.current: Connection | None = None
        self.other = self.named()
        self.host.serve(self.other, hello(None), [], beside=NO_FRAME)

    def named(self) -> int:
        self.names += 1
        number = self.host.connect(struct.pack("<QQ", self.names, 1))
        assert number is not None
        return number

    def session(self) -> Session | None:
        return next((it for it in self.host.plain.begun() if it.name == self.client.plain.name), None)

    # ---- the client

    def connect(self) -> None:
        """(A process has two connections at most.)"""
        if self.current is None and len(self.connections) < 2:
            self.current = Connection(self.named(), [(self.client.connect(), [])])
            self.connections.append(self.current)

    def say(self, packet: bytes, contents: list[int]) -> None:
        assert self.current is not None
        self.current.to_host.append((packet, contents))

    def ask(self) -> None:
        count = self.chance.choice([0, 1, 3])
        if self.client.say("ask", count):
            self.say(ask([(page, self.chance.choice(self.host.plain.fingerprints)) for page in range(count)]), [])

    def lend(self) -> None:
        contents = [self.chance.randrange(CONTENTS) for _ in range(self.chance.choice([1, 2, 4]))]
        if self.client.say("lend", len(contents)):
            self.client.lends = contents
            self.say(lend(len(contents)), contents)

    def release(self) -> None:
        slots = self.client.next_release()
        if slots:
            self.say(release(slots), [])

    def give_up(self) -> None:
        shown = sorted(self.client.shown)
        self.client.give_up(self.chance.sample(shown, min(len(shown), self.chance.choice([1, 2]))))

    def hear(self) -> None:
        if self.current is None or not self.current.to_client:
            return
        reply = self.current.to_client.pop(0)
        kind, count = struct.unpack("<II", reply[:8])
        if kind == WELCOME:
            self.welcome(reply[8:24])
        elif kind == SEEN:
            self.seen.equal("answers", self.client.call("hear_answers", count), self.client.plain.hear("ask", count))
        elif kind == LOANS:
            self.client.hear_loans(reply)

    def welcome(self, name: bytes) -> None:
        """A session that has slots which the client shows is taken up, unless its host has ended."""
        had = self.session()
        due = self.client.plain.welcome(name)
        self.seen.equal("a welcome", self.client.call("welcome", self.windows.array("uint8_t", name)), due)
        self.counted["a session is taken up"] += due == TAKEN_UP
        if due == BEGUN:
            self.seen.equal("a session of this host with slots that isn't taken up", bool(had and had.slots), False)
            self.client.shown = {}
        self.welcomed = self.host

    # ---- the connection

    def cut(self) -> None:
        """The client gives its connection up. The host hears some of what was said on it, and the client hears nothing more."""
        if self.current is None:
            return
        self.counted["a reply to a lend is lost"] += any(it[:4] == struct.pack("<I", LOANS) for it in self.current.to_client)
        del self.current.to_host[self.chance.randrange(len(self.current.to_host) + 1) :]
        self.current.is_given_up = True
        self.client.disconnect()
        self.current = None

    # ---- the host

    def beside(self, connection: Connection) -> int:
        return next((it.number for it in self.connections if it is not connection), NO_FRAME)

    def serve(self) -> None:
        """The host hears a message of the client, on its connection or on an earlier one."""
        said = [it for it in self.connections if it.to_host]
        if not said:
            return
        connection = self.chance.choice(said)
        packet, contents = connection.to_host.pop(0)
        self.note(connection, packet)
        stands = [it for it in self.host.plain.begun() if it.name == self.client.plain.name and it.state == 2]
        served = self.host.serve(connection.number, packet, contents, beside=self.beside(connection))
        self.seen.equal("a client's message", served.status, OK)
        if served.resumed != NO_FRAME:
            self.counted["an earlier connection stands still"] += bool(stands)
            self.connections = [it for it in self.connections if it.number != served.resumed]
        if served.loans and self.chance.random() < 0.2:
            served = self.host.take_back(connection.number, [self.chance.randrange(MACHINES * FRAMES)])
            self.counted["loans are taken back"] += 1
        if connection.is_given_up:
            self.counted["a reply to a lend is lost"] += served.loans > 0
        elif served.reply:
            connection.to_client.append(served.reply)

    def note(self, connection: Connection, packet: bytes) -> None:
        """Counts what is said again, and what is heard late."""
        self.counted["an earlier connection is heard"] += connection.is_given_up
        session = self.host.plain.sessions[connection.number]
        if packet[:4] == struct.pack("<I", 4) and session is not None:
            again = [slot for slot, in struct.iter_unpack("<Q", packet[8:]) if slot not in session.slots]
            self.counted["a release is said again that was heard"] += bool(again)
            self.counted["a slot was given to somebody else meanwhile"] += any(slot in self.host.plain.slots() for slot in again)

    def notice(self) -> None:
        """The host sees that a connection has ended: it hears no more of it."""
        ended = [it for it in self.connections if it.is_given_up]
        if ended:
            connection = self.chance.choice(ended)
            connection.to_host = []
            self.host.disconnect(connection.number)
            if self.host.end_empty(connection.number):
                self.connections.remove(connection)

    def lend_another(self) -> None:
        """The other client lends, or releases all that it has."""
        session = self.host.plain.sessions[self.other]
        assert session is not None
        packet, pages = (lend(2), [self.chance.randrange(CONTENTS) for _ in range(2)]), 2
        if session.slots and self.chance.random() < 0.5:
            packet, pages = (release([*session.slots]), []), 0
        self.host.serve(self.other, packet[0], packet[1], most=pages, beside=NO_FRAME)

    # ---- ends

    def end_host(self) -> None:
        """The frames of a host that has ended stay as long as a page shows them; here it is only those of the present host that count."""
        self.counted["a host ends"] += 1
        if self.current is not None:
            self.client.disconnect()
        self.host.free()
        self.begin_host()

    def end_process(self) -> None:
        self.counted["a process ends"] += 1
        for connection in self.connections:
            while not self.host.end(connection.number, self.chance.choice([1, 3])):
                pass
        self.connections, self.current, self.client = [], None, Client(self.windows, self.seen)

    # ---- what holds

    def compare(self) -> None:
        self.host.compare()
        session, client = self.session(), self.client.plain
        if session is None:
            self.seen.equal("slots that are shown, of no session", self.client.shown if self.host is self.welcomed else {}, {})
            return
        lost = {slot for slot, frame, _ in session.last if frame != NO_FRAME} if session.loans != client.loans else set()
        for slot, (frame, content) in self.client.shown.items():
            self.seen.equal(f"slot {slot} that is shown", (session.slots.get(slot), self.host.plain.contents.get(frame)), (frame, content))
        self.seen.equal("slots that nobody knows of", session.slots.keys() - self.client.shown.keys() - {*client.unheard} - lost, set())
        if client.open == ("idle", 0) and not client.unheard:
            self.counted["both halves agree"] += 1
            self.seen.equal("the slots of both", session.slots.keys(), self.client.shown.keys())

    def move(self) -> None:
        """Mostly messages that are heard, so that there are slots to lose."""
        moves: dict[Callable[[], None], float] = {self.serve: 60, self.hear: 60, self.connect: 60, self.lend: 30, self.release: 30, self.give_up: 15}
        moves |= {self.ask: 8, self.lend_another: 30, self.notice: 20, self.cut: 16, self.end_host: 0.4, self.end_process: 0.4}
        self.chance.choices([*moves], [*moves.values()])[0]()


def run(tally: Tally, library: Library) -> None:
    """Worlds of several seeds."""
    seen, hosts = Compared(tally, "both halves of a session"), built_host()
    counted: collections.Counter[str] = collections.Counter()
    for seed in range(SEEDS):
        world = World((library, hosts), seen, random.Random(seed), counted)
        for _ in range(MOVES):
            world.move()
            world.compare()
        world.end_process()
        seen.equal("slots of a process that has ended", {*world.host.plain.slots()} - {*(world.host.plain.sessions[world.other] or Session(b"")).slots}, set())
        world.host.free()
    for what, least in DUE.items():
        seen.holds(f"{what}: {counted[what]} times, {least} are due", counted[what] >= least)
    seen.close()
