"""A host of the proved library beside the plain one: each call is made of both, and all that is known of both is compared."""
from __future__ import annotations

import ctypes
import mmap
import random
from collections.abc import Sequence
from typing import Any

from common.compared import Compared
from common.plain_host import (FRAMES, MACHINES, MESSAGE, NO_FRAME, NO_ROOM, OK, QUOTA, SESSIONS, SLOTS, UNKNOWN, PlainHost, Served, head_of)
from common.window_library import Library, values_of

PAGE, REPLY, RECENT, SALT, CLIENT_CPU, CONTENTS = 4096, 2056, 1024, 9, 25, 12
BYTES = [bytes([content]) * PAGE for content in range(CONTENTS)]


class ComparedHost:
    """A host that is made anew, with a region of frames of its own."""

    def __init__(self, library: Library, seen: Compared, chance: random.Random) -> None:
        self.library, self.seen = library, seen
        self.region = mmap.mmap(-1, MACHINES * FRAMES * PAGE)
        self.host = library.make("host")
        shape = library.make("shape", machines=MACHINES, slots=SLOTS, frames=FRAMES, sessions=SESSIONS, recent=RECENT, quota=QUOTA,
                             salt=chance.randrange(2**32), fingerprints=SALT, seed=chance.randrange(2**64), client_cpu=CLIENT_CPU)
        seen.equal("a host is begun", library.call("begin", self.host, shape), OK)
        at = ctypes.addressof(ctypes.c_char.from_buffer(self.region))
        for machine in range(MACHINES):
            part = library.make("region", at=at + machine * FRAMES * PAGE, pages=FRAMES)
            seen.equal("a machine's frames", library.call("add", self.host, part), OK)
        pages = [library.array("uint8_t", it) for it in BYTES]
        self.plain = PlainHost([library.call("fingerprint", SALT, it) for it in pages], SALT, CLIENT_CPU)
        self.reply, self.frames = library.array("uint8_t", [0] * REPLY), library.array("uint32_t", [0] * MESSAGE)

    def call(self, name: str, *words: Any) -> Any:
        return self.library.call(name, self.host, *words)

    def equal(self, at: str, given: object, due: object) -> bool:
        return self.seen.equal(at, given, due)

    def connect(self, name: bytes) -> int | None:
        number, due = self.library.make("uint32_t"), self.plain.connect(name)
        number.value = NO_FRAME
        status = self.call("connect", self.library.array("uint8_t", name), number)
        self.equal("a connection", (status, number.value), (NO_ROOM, NO_FRAME) if due is None else (OK, due))
        return due

    def serve(self, n: int, packet: bytes, pages: Sequence[int], most: int = MESSAGE, beside: int = UNKNOWN) -> Served:
        """A packet with pages of these contents. Where the process isn't known, it is received."""
        given, buffer = self.library.array("uint8_t", packet), (ctypes.c_char * max(1, len(pages) * PAGE))()
        buffer.raw = b"".join(BYTES[it] for it in pages).ljust(1, b"\0")
        self.equal("what a packet says", values_of(self.library.call("read", given, len(packet))), head_of(packet))
        words = [n, given, len(packet), ctypes.cast(buffer, ctypes.POINTER(ctypes.c_uint8)), len(pages)]
        places = [self.reply, REPLY, self.frames, MESSAGE]
        if beside == UNKNOWN:
            got = self.call("receive", *words, *places)
        else:
            got = self.call("serve", *words, self.library.make("allowance", most=most, beside=beside), *places)
        due = self.plain.serve(n, packet, pages, most, beside, bytes(self.reply)[: got.reply_bytes])
        self.shows("a packet", got, due)
        return due

    def shows(self, what: str, got: Any, due: Served) -> None:
        """What came of a call, its reply and the frames. (A packet that is received says less, and not the frames of loans.)"""
        numbers = values_of(got)
        self.equal(what, numbers, due.numbers()[: len(numbers)])
        self.equal(f"the reply to {what}", bytes(self.reply)[: len(due.reply)], due.reply)
        if len(numbers) > 4 or not due.loans:
            self.equal(f"the frames of {what}", list(self.frames)[: len(due.frames)], due.frames)

    def take_back(self, n: int, missing: Sequence[int]) -> Served:
        got = self.call("take_back", n, self.library.array("uint32_t", missing), len(missing), self.reply, REPLY, self.frames, MESSAGE)
        due = self.plain.take_back(n, missing)
        self.shows("loans that are taken back", got, due)
        return due

    def disconnect(self, n: int) -> None:
        self.equal("a connection's end", self.call("disconnect", n), self.plain.disconnect(n))

    def end_empty(self, n: int) -> bool:
        """Whether no session has the number then."""
        due = self.plain.end_empty(n)
        self.equal("a session without slots", self.call("end_empty", n), due)
        return due != OK

    def end(self, n: int, room: int) -> bool:
        count, due = self.library.make("size_t"), self.plain.end(n, room)
        status = self.call("end", n, self.frames, room, count)
        self.equal("a process's end", status == OK, due is not None)
        if due is not None:
            self.equal("slots that it had", (count.value, list(self.frames)[: len(due)]), (len(due), due))
        return not due

    def compare(self) -> None:
        """What is known of each session, what is counted, and the bytes of each frame that is in use."""
        known, totals = self.library.make("session"), self.library.make("totals")
        for n in range(SESSIONS + 1):
            status, due = self.call("session", n, known), self.plain.known(n)
            self.equal(f"session {n}", values_of(known) if status == OK else None, due)
        self.equal("counts", (self.call("report", totals), values_of(totals)), (OK, self.plain.totals()))
        for frame, content in self.plain.contents.items():
            self.equal(f"frame {frame}", self.region[frame * PAGE : (frame + 1) * PAGE] == BYTES[content], True)

    def free(self) -> None:
        self.equal("a host that is freed", self.call("free"), OK)
