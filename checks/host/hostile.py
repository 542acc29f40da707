"""What a hostile client can try on pageshare-host, and what a good client beside it must not notice."""
from __future__ import annotations

import fcntl
import mmap
import os
import random
import signal
import socket
import struct
import sys
import time
from collections.abc import Callable, Sequence
from typing import Any

from raw_client import ASK, HELLO, LEND, MESSAGE_MOST, NO_FRAME, PAGE, PAGES_MOST, RELEASE, VERSION, WELCOME, Ended, RawClient

NOBODY = 65534
F_ADD_SEALS, F_SEAL_WRITE = 1033, 8


def page(number: int) -> bytes:
    return struct.pack("<Q", number) * (PAGE // 8)


def refused(what: str, attempt: Callable[[], object]) -> bool:
    """Whether the system refuses an attempt."""
    try:
        attempt()
    except (OSError, PermissionError, ValueError) as cause:
        print(f"  {what}: refused ({cause.strerror if isinstance(cause, OSError) else cause})")
        return True
    print(f"  {what}: POSSIBLE")
    return False


def descriptors(path: str) -> int:
    """Each attempt to write to frames, cut the file short, or cut the buffer short. Answers how many succeeded."""
    client = RawClient(path)
    file, buffer = client.file, client.buffer_file
    client.lend([page(7)])
    tries = {
        "frames mapped shared for writing": lambda: mmap.mmap(file, PAGE, mmap.MAP_SHARED, mmap.PROT_WRITE | mmap.PROT_READ),
        "frames written": lambda: os.pwrite(file, b"x", 0),
        "frames cut short": lambda: os.ftruncate(file, 0),
        "frames made longer": lambda: os.ftruncate(file, 1 << 40),
        "frames punched out": lambda: os.posix_fallocate(file, 0, PAGE),
        "frames sealed": lambda: fcntl.fcntl(file, F_ADD_SEALS, F_SEAL_WRITE),
        "frames opened again for writing": lambda: os.open(f"/proc/self/fd/{file}", os.O_RDWR),
        "mode of the frames changed": lambda: os.fchmod(file, 0o666),
        "frames opened again after that": lambda: os.open(f"/proc/self/fd/{file}", os.O_RDWR),
        "owner of the frames changed": lambda: os.fchown(file, os.getuid(), -1),
        "mode of the buffer changed": lambda: os.fchmod(buffer, 0o666),
        "buffer cut short": lambda: os.ftruncate(buffer, 0),
        "buffer sealed against writing": lambda: fcntl.fcntl(buffer, F_ADD_SEALS, F_SEAL_WRITE),
    }
    return sum(not refused(what, attempt) for what, attempt in tries.items())


def holes(path: str) -> bool:
    """Free frames that are read take memory, which the host gives back."""
    client = RawClient(path)
    size = os.fstat(client.file).st_size
    before = os.fstat(client.file).st_blocks
    bytes_read = min(size, 64 << 20)
    there = mmap.mmap(client.file, bytes_read, mmap.MAP_SHARED, mmap.PROT_READ, offset=size - bytes_read)
    for at in range(0, bytes_read, PAGE):
        there[at]
    filled = (os.fstat(client.file).st_blocks - before) // 8
    for _ in range(30):
        time.sleep(0.1)
        left = (os.fstat(client.file).st_blocks - before) // 8
        if left < 1100:
            break
    print(f"  reading holes filled {filled} pages of the file; a moment later {left} of them are left")
    return left >= 1100


def garbage(seed: int) -> bytes:
    """Packets that are no messages, or strange ones."""
    draw = random.Random(seed)
    count = draw.choice([0, 1, 127, 128, 129, 4000, 0xFFFFFFFF])
    head = struct.pack("<II", draw.choice([0, HELLO, ASK, LEND, RELEASE, 5, 17, 18, 19, 0xFFFFFFFF]), count)
    body = draw.randbytes(draw.choice([0, 1, 8, 16, 8 * min(count, 200), 16 * min(count, 200), MESSAGE_MOST, 60000]))
    return (head + body)[: draw.choice([1, 4, 7, 8, 9, 24, len(head + body)])]


def words_after_a_fault(path: str) -> bool:
    """A client that has sent a wrong message is heard no more."""
    client = RawClient(path)
    client.lend([page(3), page(4)])
    client.say(struct.pack("<II", LEND, 4000))
    ended = client.is_ended()
    print(f"  a wrong message ends the connection: {'yes' if ended else 'NO'}")
    return not ended


def other_versions(path: str) -> bool:
    """A client of another version learns which one the host has, and is heard no more. Returns whether that isn't so."""
    client = RawClient(path, hello=False)
    client.say(struct.pack("<II16s", HELLO, 1, bytes(16)))
    reply = struct.unpack("<II", client.hear())
    ended = client.is_ended()
    print(f"  a client of version 1 gets {reply}, and its connection ends: {'yes' if ended else 'NO'}")
    return reply != (WELCOME, VERSION) or not ended


def loses_a_reply(path: str) -> bool:
    """A client whose connection ends before the reply to a lend. Answers whether the slot of that is there still."""
    client, content = RawClient(path), random.randbytes(PAGE)
    client.lend([content])
    client.say(struct.pack("<II", LEND, 1))
    client.socket.recv(1, socket.MSG_PEEK)  # (so that the host has lent it)
    client.close()
    again = RawClient(path, name=client.name, loans=client.loans)
    sharers = again.lend([content])[0][2]
    print(f"  after a lost reply {sharers} slots have the page: {'2 are due' if again.name == client.name else 'ANOTHER SESSION'}")
    return sharers != 2 or again.name != client.name


def others_slots(path: str, slots: Sequence[int]) -> None:
    """Slots of another client, named in a release. What is lent stays: the caller looks."""
    client = RawClient(path)
    for at in range(0, len(slots), PAGES_MOST):
        client.release(slots[at : at + PAGES_MOST])
    client.release([random.getrandbits(64) for _ in range(PAGES_MOST)])
    client.ask([(1, 1)])  # (so that all of it was taken)


def floods(path: str, seconds: float = 3.0) -> None:
    """Messages without end, whose replies are never read; clients that say nothing; connections that come and go."""
    end = time.time() + seconds
    client = RawClient(path, seconds=0.5)
    sent = 0
    try:
        while time.time() < end:
            client.say(struct.pack("<II", ASK, PAGES_MOST) + bytes(16 * PAGES_MOST))
            sent += 1
    except OSError:
        pass
    ended = 0
    for seed in range(200):
        try:
            other = RawClient(path, hello=seed % 2 == 0, seconds=0.2)
            other.say(garbage(seed))
            time.sleep(0.002)  # (of one that has left before it is taken nothing is read)
            other.close()
        except (OSError, Ended):
            ended += 1
    print(f"  {sent} messages whose replies weren't read; 200 connections with garbage, {ended} of them turned away or ended")


def in_child(user: int | None, run: Callable[..., Any], *words: object) -> int:
    """Runs a function in a process of its own, of another user. Answers its status."""
    child = os.fork()
    if child == 0:
        status = 1
        try:
            if user is not None:
                os.setgroups([])
                os.setresgid(user, user, user)
                os.setresuid(user, user, user)
            status = int(run(*words) or 0)
        except BaseException as cause:  # pylint: disable=broad-except
            print(f"  {run.__name__}: {type(cause).__name__}: {cause}", flush=True)
        finally:
            sys.stdout.flush()
            os._exit(min(status, 100))
    return child


def wait(child: int, seconds: float = 60) -> int:
    end = time.time() + seconds
    while time.time() < end:
        done, status = os.waitpid(child, os.WNOHANG)
        if done:
            return os.waitstatus_to_exitcode(status)
        time.sleep(0.02)
    os.kill(child, signal.SIGKILL)
    os.waitpid(child, 0)
    return -signal.SIGALRM


class Good:
    """A good client: lends pages, and looks whether their frames hold what it lent. All in this process."""

    def __init__(self, path: str, count: int = 512) -> None:
        self.client = RawClient(path)
        self.pages = [page(1000 + it // 2) for it in range(count)]
        self.loans = []
        for at in range(0, count, PAGES_MOST):
            self.loans += self.client.lend(self.pages[at : at + PAGES_MOST])

    def wrong(self) -> int:
        """How many frames don't hold what was lent, or equal pages that have two frames."""
        wrong = sum(frame == NO_FRAME or self.client.frame(frame) != it for it, (_, frame, _) in zip(self.pages, self.loans))
        return wrong + sum(self.loans[at][1] != self.loans[at + 1][1] for at in range(0, len(self.loans), 2))

    def time(self, seconds: float = 1.0) -> float:
        """The longest time of a question, in seconds."""
        longest, end = 0.0, time.time() + seconds
        while time.time() < end:
            begin = time.time()
            self.client.ask([(it, it) for it in range(16)])
            longest = max(longest, time.time() - begin)
        return longest


def dies_midway(path: str, seed: int) -> None:
    """A client that ends at any point of what it does, by a signal."""
    draw = random.Random(seed)
    client = RawClient(path)
    for _ in range(draw.randrange(1, 30)):
        what = draw.randrange(3)
        if what == 0:
            client.say(struct.pack("<II", ASK, 1) + struct.pack("<QQ", draw.getrandbits(20), draw.getrandbits(8)))
        elif what == 1:
            client.buffer[: 128 * PAGE] = b"".join(page(draw.randrange(50)) for _ in range(128))
            client.say(struct.pack("<II", LEND, draw.randrange(1, 128)))
            if draw.randrange(2):
                client.hear()
        else:
            client.release([draw.randrange(1, 2000) for _ in range(20)])
    os.kill(os.getpid(), signal.SIGKILL)


def scribbles(path: str, seconds: float = 2.0) -> int:
    """A client that writes to its buffer all the time while the host reads it: what it is answered must be some content."""
    client = RawClient(path)
    child = os.fork()
    if child == 0:
        number = 0
        while True:
            number += 1
            client.buffer[: 8 * PAGE] = page(number) * 8
    end, wrong = time.time() + seconds, 0
    while time.time() < end:
        client.say(struct.pack("<II", LEND, 8))
        data = client.hear()
        client.release([struct.unpack("<Q", data[8 + 16 * it : 16 + 16 * it])[0] for it in range(8)])
    os.kill(child, signal.SIGKILL)
    os.waitpid(child, 0)
    return wrong


def takes_up_another(path: str, name: bytes) -> bool:
    """A session's name in the wrong process begins a session of its own."""
    client = RawClient(path, name=name)
    stolen = bool(client.name == name)
    print(f"  another process's session taken up by its name: {'POSSIBLE' if stolen else 'refused (it got one of its own)'}")
    return stolen
