"""A client of pageshare-host that speaks its messages itself, for checks: a good one, and whatever a hostile one sends."""
from __future__ import annotations

import array
import mmap
import os
import socket
import struct
from collections.abc import Sequence

PAGE, PAGES_MOST, NO_FRAME = 4096, 128, 0xFFFFFFFF
HELLO, ASK, LEND, RELEASE, WELCOME, SEEN, LOANS = 1, 2, 3, 4, 17, 18, 19
VERSION, MESSAGE_MOST = 2, 2056
# A page's slot, its frame, and how many pages show that frame.
Loan = tuple[int, int, int]


class Ended(Exception):
    """The host has ended the connection."""


class RawClient:
    def __init__(self, path: str, name: bytes = b"", hello: bool = True, seconds: float = 5.0, loans: int = 0) -> None:
        self.socket = socket.socket(socket.AF_UNIX, socket.SOCK_SEQPACKET)
        self.socket.settimeout(seconds)
        self.socket.connect(path)
        self.descriptors: list[int] = []
        self.loans = 0
        if hello:
            self.hello(name, loans)

    def hello(self, name: bytes = b"", loans: int = 0) -> None:
        """Begins a session, or takes up the one with a name, in which so many LOANS came."""
        self.say(struct.pack("<II", HELLO, VERSION) + (name + struct.pack("<Q", loans) if name else b""))
        room = socket.CMSG_SPACE(3 * 4)
        data, control, _, _ = self.socket.recvmsg(MESSAGE_MOST, room)
        if not data:
            raise Ended
        kind, version, self.name, self.frames, self.salt, self.most, self.client_cpu = struct.unpack("<II16sIIII", data)
        if self.name == name:
            self.loans = loans
        assert (kind, version, self.most) == (WELCOME, VERSION, PAGES_MOST), (kind, version, self.most)
        found = array.array("i")
        for _, _, part in control:
            found.frombytes(part[: len(part) // 4 * 4])
        self.descriptors = list(found)
        self.file, self.buffer_file = self.descriptors[:2]
        self.buffer = mmap.mmap(self.buffer_file, PAGES_MOST * PAGE)

    def say(self, data: bytes) -> None:
        self.socket.sendall(data)

    def hear(self) -> bytes:
        data = self.socket.recv(MESSAGE_MOST)
        if not data:
            raise Ended
        return data

    def ask(self, questions: Sequence[tuple[int, int]]) -> list[int]:
        self.say(struct.pack("<II", ASK, len(questions)) + b"".join(struct.pack("<QQ", *it) for it in questions))
        data = self.hear()
        assert struct.unpack("<II", data[:8]) == (SEEN, len(questions))
        return list(data[8:])

    def lend(self, pages: Sequence[bytes]) -> list[Loan]:
        """Answers a (slot, frame, sharers) for each page."""
        self.buffer[: PAGE * len(pages)] = b"".join(pages)
        self.say(struct.pack("<II", LEND, len(pages)))
        data = self.hear()
        assert struct.unpack("<II", data[:8]) == (LOANS, len(pages))
        self.loans += 1
        loans = []
        for i in range(len(pages)):
            slot, frame, sharers = struct.unpack("<QII", data[8 + 16 * i : 24 + 16 * i])
            loans.append((slot, frame, sharers))
        return loans

    def release(self, slots: Sequence[int]) -> None:
        self.say(struct.pack(f"<II{len(slots)}Q", RELEASE, len(slots), *slots))

    def frame(self, number: int) -> bytes:
        return os.pread(self.file, PAGE, PAGE * number)

    def is_ended(self) -> bool:
        """Whether the host ends the connection, after what it still sends."""
        try:
            while self.socket.recv(MESSAGE_MOST):
                pass
            return True
        except ConnectionResetError:
            return True
        except (TimeoutError, socket.timeout):
            return False

    def close(self) -> None:
        self.socket.close()
        for it in self.descriptors:
            os.close(it)
        self.descriptors = []
