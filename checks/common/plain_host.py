"""A host of VMM processes by its rules, as plain Python: sessions, slots, loans and frames.

A page is the number of its content. A page that nobody has gets the lowest free frame of its machine. Where the rules leave something
open (which free slot a page gets, and which machine of several that have its content), what the library chose is taken if it may be chosen.
"""
from __future__ import annotations

import dataclasses
import struct
from collections.abc import Iterator, Sequence

MACHINES, FRAMES, SLOTS, SESSIONS, QUOTA = 2, 5, 8, 4, 6
MESSAGE, VERSION, NO_FRAME, PASSING = 128, 2, 2**32 - 1, 2**63
HELLO, ASK, LEND, RELEASE, WELCOME, SEEN, LOANS = 1, 2, 3, 4, 17, 18, 19
OK, NO_ROOM, NO_SESSION = 0, 20, 32
HEAD, KIND, OTHER_VERSION, COUNT, LENGTH, EARLY, AGAIN, PAGES = range(64, 72)
SILENT, TALKING, GONE, BROKEN, ENDED = range(1, 6)
# What a caller may not know: then a session is taken up by its name alone.
UNKNOWN = -1

Loan = tuple[int, int, int]  # a slot, its frame and the frame's sharers
NOT_LENT: Loan = (0, NO_FRAME, 0)


def hello(wanted: tuple[bytes, int] | None) -> bytes:
    head = struct.pack("<II", HELLO, VERSION)
    return head if wanted is None else head + wanted[0] + struct.pack("<Q", wanted[1])


def ask(questions: Sequence[tuple[int, int]]) -> bytes:
    return struct.pack("<II", ASK, len(questions)) + b"".join(struct.pack("<QQ", *it) for it in questions)


def lend(count: int) -> bytes:
    return struct.pack("<II", LEND, count)


def release(slots: Sequence[int]) -> bytes:
    return struct.pack(f"<II{len(slots)}Q", RELEASE, len(slots), *slots)


def loans_in(reply: bytes) -> list[Loan]:
    if reply[:4] != struct.pack("<I", LOANS):
        return []
    return [(slot, frame, sharers) for slot, frame, sharers in struct.iter_unpack("<QII", reply[8:])]


def fault_of(packet: bytes) -> int:
    """The fault of a packet, or 0: the first that holds."""
    if len(packet) < 8:
        return HEAD
    kind, count = struct.unpack("<II", packet[:8])
    if kind not in (HELLO, ASK, LEND, RELEASE):
        return KIND
    if kind == HELLO:
        return OTHER_VERSION if count != VERSION else 0 if len(packet) in (8, 32) else LENGTH
    if count > MESSAGE:
        return COUNT
    return 0 if len(packet) == 8 + {ASK: 16, LEND: 0, RELEASE: 8}[kind] * count else LENGTH


def head_of(packet: bytes) -> tuple[int, int]:
    """The kind of a packet and how many it lists; zeros if it is no message."""
    kind, count = struct.unpack("<II", packet[:8]) if fault_of(packet) == 0 else (0, 0)
    return (kind, 0 if kind == HELLO else count)


@dataclasses.dataclass(eq=False)
class Session:
    """A session. `slots` are its slots with their frames."""

    name: bytes
    state: int = SILENT
    has_begun: bool = False
    fault: int = 0
    messages: int = 0
    loans: int = 0
    slots: dict[int, int] = dataclasses.field(default_factory=dict)
    last: list[Loan] = dataclasses.field(default_factory=list)

    def takes(self) -> bool:
        return self.state in (SILENT, TALKING)


@dataclasses.dataclass
class Served:
    """What comes of a packet: what the library returns, its reply, and the frames that it writes."""

    status: int = OK
    reply: bytes = b""
    freed: int = 0
    resumed: int = NO_FRAME
    kind: int = 0
    answers: int = 0
    loans: int = 0
    frames: list[int] = dataclasses.field(default_factory=list)

    def numbers(self) -> tuple[int, ...]:
        return (self.status, len(self.reply), self.freed, self.resumed, self.kind, self.answers, self.loans)


class PlainHost:
    """The host. `given` is the library's reply, from which its choices are taken."""

    def __init__(self, fingerprints: Sequence[int], salt: int, client_cpu: int) -> None:
        self.fingerprints, self.salt, self.client_cpu = fingerprints, salt, client_cpu
        self.sessions: list[Session | None] = [None] * SESSIONS
        self.contents: dict[int, int] = {}  # of each frame that is in use
        self.asked: set[tuple[Session, int, int]] = set()

    def begun(self) -> Iterator[Session]:
        return (it for it in self.sessions if it is not None and it.has_begun)

    def slots(self) -> dict[int, int]:
        return {slot: frame for it in self.begun() for slot, frame in it.slots.items()}

    # ---- packets

    def connect(self, name: bytes) -> int | None:
        free = [n for n, it in enumerate(self.sessions) if it is None]
        if free:
            self.sessions[free[0]] = Session(name)
        return free[0] if free else None

    def serve(self, n: int, packet: bytes, pages: Sequence[int], most: int, beside: int, given: bytes) -> Served:
        session = self.sessions[n] if n < SESSIONS else None
        if session is None or not session.takes():
            return Served(NO_SESSION)
        fault = fault_of(packet)
        if fault == 0 and (struct.unpack("<I", packet[:4])[0] == HELLO) == session.has_begun:
            fault = AGAIN if session.has_begun else EARLY
        if fault == 0:
            return self.obey(n, session, packet, pages, most, beside, given)
        return self.broken(session, fault)

    @staticmethod
    def broken(session: Session, fault: int) -> Served:
        session.state, session.fault = BROKEN, fault
        return Served(fault)

    def obey(self, n: int, session: Session, packet: bytes, pages: Sequence[int], most: int, beside: int, given: bytes) -> Served:
        kind, count = struct.unpack("<II", packet[:8])
        if kind == HELLO:
            return self.greet(n, session, packet, beside)
        if kind == LEND and len(pages) < min(count, self.most(session, most, beside)):
            return self.broken(session, PAGES)
        session.messages += 1
        if kind == ASK:
            return self.answer(session, [(page, fingerprint) for page, fingerprint in struct.iter_unpack("<QQ", packet[8:])], given)
        if kind == LEND:
            return self.lend(session, pages[: min(count, self.most(session, most, beside))], count, loans_in(given))
        freed = [self.release(session, slot) for slot in struct.unpack(f"<{count}Q", packet[8:])]
        return Served(freed=count, frames=freed)

    def most(self, session: Session, most: int, beside: int) -> int:
        """How many pages of a lend may be lent: a process has its quota once."""
        if beside in (UNKNOWN, NO_FRAME):
            return most
        other = self.sessions[beside] if beside < SESSIONS else None
        return min(most, max(0, QUOTA - len(session.slots) - (len(other.slots) if other is not None else 0)))

    # ---- hello

    def wanted(self, packet: bytes, beside: int) -> int | None:
        """The session that a hello takes up."""
        if len(packet) == 8 or beside == NO_FRAME:
            return None
        states = (GONE,) if beside == UNKNOWN else (GONE, TALKING)
        named = [n for n, it in enumerate(self.sessions) if it is not None and it.has_begun and it.state in states and it.name == packet[8:24]]
        return next((n for n in named if beside in (UNKNOWN, n)), None)

    def welcome(self, name: bytes) -> bytes:
        return struct.pack("<II", WELCOME, VERSION) + name + struct.pack("<4I", MACHINES * FRAMES, self.salt, MESSAGE, self.client_cpu)

    def greet(self, n: int, session: Session, packet: bytes, beside: int) -> Served:
        before = self.wanted(packet, beside)
        if before is None:
            session.state, session.has_begun, session.messages = TALKING, True, 1
            return Served(reply=self.welcome(session.name), kind=WELCOME)
        older, loans = self.sessions[before], struct.unpack("<Q", packet[24:])[0]
        assert older is not None
        lost = [slot for slot, frame, _ in older.last if frame != NO_FRAME] if loans != older.loans else []
        freed = [self.release(older, slot) for slot in lost]
        older.state, older.messages, older.loans, older.last = TALKING, older.messages + 1, loans, []
        self.sessions[before], self.sessions[n] = None, older
        return Served(reply=self.welcome(older.name), freed=len(freed), resumed=before, kind=WELCOME, frames=freed)

    # ---- questions

    def answer(self, session: Session, questions: list[tuple[int, int]], given: bytes) -> Served:
        """A frame in use answers for sure. Another page's question does as long as it is remembered, which the library decides."""
        in_use, seen = {self.fingerprints[it] for it in self.contents.values()}, bytearray()
        for at, (page, fingerprint) in enumerate(questions):
            number, is_passing = page % PASSING, page >= PASSING
            others = any(it == fingerprint and (whose, other) != (session, number) for whose, other, it in self.asked)
            said = given[8 + at] if len(given) > 8 + at else 0
            seen.append(1 if fingerprint in in_use else said if others and said < 2 else 0)
            if not is_passing and fingerprint not in in_use:
                self.asked.add((session, number, fingerprint))
        return Served(reply=struct.pack("<II", SEEN, len(questions)) + seen, kind=SEEN, answers=len(questions))

    # ---- lends and releases

    def lend(self, session: Session, pages: Sequence[int], count: int, given: list[Loan]) -> Served:
        loans: list[Loan] = []
        for at, content in enumerate(pages):
            loans.append(self.lend_one(session, content, given[at] if at < len(given) else NOT_LENT))
        loans += [NOT_LENT] * (count - len(pages))
        session.loans, session.last = session.loans + 1, loans
        return self.loaned(loans)

    @staticmethod
    def loaned(loans: list[Loan]) -> Served:
        reply = struct.pack("<II", LOANS, len(loans)) + b"".join(struct.pack("<QII", *it) for it in loans)
        return Served(reply=reply, kind=LOANS, loans=len(loans), frames=[frame for _, frame, _ in loans])

    def lend_one(self, session: Session, content: int, given: Loan) -> Loan:
        """A page goes beside a frame with its content, where its machine has a free slot; else to the first machine with a free slot and
        a free frame, of which it gets the lowest."""
        slots = self.slots()
        has_slot = [sum(slot >> 32 == m for slot in slots) < SLOTS for m in range(MACHINES)]
        equal = [frame for frame, it in self.contents.items() if it == content and has_slot[frame // FRAMES]]
        room = [m for m in range(MACHINES) if has_slot[m] and sum(frame // FRAMES == m for frame in self.contents) < FRAMES - 1]
        slot, frame, _ = given
        if len(session.slots) >= QUOTA or not (equal or room):
            return NOT_LENT
        may_be = slot not in slots and slot % 2**32 < SLOTS and slot >> 32 == frame // FRAMES
        frames = equal or [min(it for it in range(room[0] * FRAMES, (room[0] + 1) * FRAMES) if it not in self.contents)]
        if not may_be or frame not in frames:
            return (slot, frames[0], 0)  # (no loan that may be)
        session.slots[slot] = frame
        self.contents[frame] = content
        return (slot, frame, sum(it == frame for it in slots.values()) + 1)

    def release(self, session: Session, slot: int) -> int:
        """The frame that is free since, or NO_FRAME. A slot that isn't the session's stays."""
        frame = session.slots.pop(slot, NO_FRAME)
        if frame == NO_FRAME or frame in self.slots().values():
            return NO_FRAME
        del self.contents[frame]
        return frame

    def take_back(self, n: int, frames: Sequence[int]) -> Served:
        session = self.sessions[n] if n < SESSIONS else None
        if session is None or not session.has_begun:
            return Served(NO_SESSION)
        kept = [NOT_LENT if it[1] in frames else it for it in session.last]
        for slot, frame, _ in session.last:
            if frame in frames and frame != NO_FRAME:
                self.release(session, slot)
        session.last = kept
        return self.loaned(kept)

    # ---- ends

    def disconnect(self, n: int) -> int:
        session = self.sessions[n] if n < SESSIONS else None
        if session is None:
            return NO_SESSION
        if not session.has_begun:
            self.sessions[n] = None
        elif session.state == TALKING:
            session.state = GONE
        return OK

    def end_empty(self, n: int) -> int:
        session = self.sessions[n] if n < SESSIONS else None
        if session is not None and session.slots:
            return OK
        if session is not None:
            self.forget(n, session)
        return NO_SESSION

    def end(self, n: int, room: int) -> list[int] | None:
        """The frames that are free since, one for each slot that is released: the first slots."""
        session = self.sessions[n] if n < SESSIONS else None
        if session is None:
            return None
        freed = [self.release(session, slot) for slot in sorted(session.slots)[:room]]
        session.state, session.fault = ENDED, 0
        self.asked = {it for it in self.asked if it[0] is not session}
        if not freed:
            self.forget(n, session)
        return freed

    def forget(self, n: int, session: Session) -> None:
        self.sessions[n] = None
        self.asked = {it for it in self.asked if it[0] is not session}

    # ---- what is known

    def known(self, n: int) -> tuple[int, ...] | None:
        session = self.sessions[n] if n < SESSIONS else None
        return None if session is None else (session.state, len(session.slots), session.fault, 0, session.messages)

    def totals(self) -> tuple[int, ...]:
        frames = list(self.slots().values())
        shared = sum(frames.count(frame) > 1 for frame in frames)
        return (MACHINES, len(list(self.begun())), len(frames), len(self.contents), shared, len(frames) - len(self.contents))
