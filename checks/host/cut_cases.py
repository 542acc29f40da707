"""A client whose connections are cut at each message or at random ones, or whose host ends there, beside a shadow of its slots and of their
bytes."""
from __future__ import annotations

import array
import ctypes
import dataclasses
import functools
import itertools
import os
import random
import select
import signal
import socket
import struct
import subprocess
import sys
import threading
import time
import traceback
from collections.abc import Callable
from typing import Any

from harness import StrPath
from places import CC, FLAGS, HERE, TOP, WINDOW_LIBRARY, Host, must, until
from raw_client import MESSAGE_MOST, NO_FRAME, PAGE

NONE, RESUMED, NEW = range(3)
# What becomes of the message at which a connection ends: it is lost, the other side gets it or its beginning, or the host ends.
ENDS = ("lost", "heard", "short", "killed")
MESSAGES, STEPS, CONTENTS = 14, 7, 6
# How often a connection ends in one history of random losses.
CUTS = 24


class Proxy:
    """What stands between a client and its host. It ends the connection at message number `at`, if that isn't 0."""

    def __init__(self, path: str, host: Host, chance: random.Random) -> None:
        self.host, self.chance = host, chance
        self.count, self.at, self.how = 0, 0, ""
        self.kills = 0
        self.breaks_nothing = False  # no message of the client is cut short: it is lost
        self.has_broken = False  # one was: its session takes no more
        self.listener = socket.socket(socket.AF_UNIX, socket.SOCK_SEQPACKET)
        self.listener.bind(path)
        self.listener.listen(4)
        threading.Thread(target=self.serve, daemon=True).start()

    def arm(self, at: int, how: str) -> None:
        self.count, self.at, self.how = 0, at, how

    def has_cut(self) -> bool:
        return self.at == 0 or self.count >= self.at

    def serve(self) -> None:
        while True:
            client, _ = self.listener.accept()
            host = socket.socket(socket.AF_UNIX, socket.SOCK_SEQPACKET)
            with client, host:
                try:
                    host.connect(str(self.host.socket))
                    while all(self.passes(it, client, host) for it in select.select([client, host], [], [])[0]):
                        pass
                except OSError:
                    pass

    def kill(self, host: socket.socket) -> None:
        """Kills the host at the other end of a connection. (It may be another process than the first one.)"""
        self.kills += 1
        os.kill(struct.unpack("3i", host.getsockopt(socket.SOL_SOCKET, socket.SO_PEERCRED, 12))[0], signal.SIGKILL)

    def passes(self, one: socket.socket, client: socket.socket, host: socket.socket) -> bool:
        """Passes a message on, with its descriptors. Returns whether the connection goes on."""
        other = host if one is client else client
        data, control, _, _ = one.recvmsg(MESSAGE_MOST + 1, socket.CMSG_SPACE(12))
        if not data:
            return False
        self.count += 1
        is_last = self.count == self.at
        if is_last and self.how == "killed":
            self.kill(host)
        is_short = is_last and self.how == "short" and not (self.breaks_nothing and one is client)
        if is_short:
            data = data[: self.chance.randrange(1, len(data))]
            self.has_broken |= one is client
        if not is_last or is_short or self.how == "heard":
            other.sendmsg([data], control)
        for _, _, part in control:
            for descriptor in array.array("i", part[: len(part) // 4 * 4]):
                os.close(descriptor)
        return not is_last


@dataclasses.dataclass
class Client:
    """A client over host/preload/remote.c, and what it shows: for each slot its frame and the content."""

    library: Any
    path: str
    host: Host
    chance: random.Random
    proxy: Proxy
    kills: int = 0  # of hosts, before its session began
    shown: dict[int, tuple[int, bytes]] = dataclasses.field(default_factory=dict)
    # of sessions that weren't taken up, whose process goes on
    past: list[tuple[int, bytes]] = dataclasses.field(default_factory=list)
    past_slots: int = 0

    def slots_of_host(self) -> int:
        found, _ = until(20, lambda: self.host.status() is not None, 0.05)
        must(found, "the host doesn't serve")
        return int(self.host.status()["lent_bytes"]) // PAGE

    def connect(self) -> bool:
        """A session with slots is taken up, unless its host has ended or it sent what is no message."""
        kills = self.proxy.kills
        found, is_killed = self.library.cuts_connect(self.path.encode()), kills > self.kills
        must(found != RESUMED or not is_killed, "a session of a host that has ended was taken up")
        must(found != NEW or is_killed or self.proxy.has_broken or not self.shown, "a session with slots wasn't taken up")
        if found != NONE:
            self.kills = kills
        if found == NEW:
            self.past = [] if is_killed else [*self.past, *self.shown.values()]
            self.shown = {}
            self.count_past()
        return bool(found != NONE)

    def count_past(self) -> None:
        """The slots of sessions before stay, unless their host ended meanwhile."""
        time.sleep(0.3)  # (a host counts now and then)
        slots = self.slots_of_host()
        if self.proxy.kills == self.kills:
            self.past_slots = slots
            must(slots >= len(self.past), "a slot of a session before was released, and a page shows its frame")

    def lend(self) -> None:
        contents = [bytes([self.chance.randrange(CONTENTS)]) * PAGE for _ in range(self.chance.choice([1, 2, 5]))]
        ctypes.memmove(self.library.cuts_buffer(), b"".join(contents), len(contents) * PAGE)
        slots, frames = (ctypes.c_uint64 * 5)(), (ctypes.c_uint32 * 5)()
        if self.library.cuts_lend(len(contents), slots, frames) != 0:
            must(self.library.cuts_ask() != 0, "a question is asked over a connection that has ended")
            return
        for slot, frame, content in zip(slots, frames, contents):
            if frame != NO_FRAME:
                must(slot not in self.shown, f"slot {slot} was given twice")
                self.shown[slot] = (frame, content)

    def release(self) -> None:
        given = self.chance.sample(sorted(self.shown), min(len(self.shown), self.chance.choice([1, 3])))
        kept = {slot: self.shown.pop(slot) for slot in given}
        if self.library.cuts_release((ctypes.c_uint64 * 4)(*given), len(given)) != 0:
            self.shown |= kept

    def work(self) -> None:
        for _ in range(STEPS):
            self.chance.choice([self.lend, self.lend, self.release, self.library.cuts_ask])()

    def compare(self) -> None:
        """The host has the slots that the client shows, and those of sessions before, and their frames have their bytes."""
        must(self.library.cuts_ask() == 0 and not self.library.cuts_is_unknown(), "the session isn't taken up")
        due = len(self.shown) + self.past_slots
        good, _ = until(20, lambda: self.slots_of_host() == due, 0.05)  # (a host counts now and then)
        must(good, f"the host has {self.slots_of_host()} slots, {len(self.shown)} shown, {self.past_slots} before")
        frames = self.library.cuts_frames()
        for frame, content in [*self.shown.values(), *self.past]:
            must(os.pread(frames, PAGE, frame * PAGE) == content, f"frame {frame} has other bytes")


def history(library: Any, host: Host, path: str, at: int, how: str, seed: int) -> None:
    """A client works, its connection ends at one message, and it works on."""
    chance = random.Random(f"{at} {how} {seed}")
    proxy = Proxy(path, host, chance)
    client = Client(library, path, host, chance, proxy)
    must(client.connect(), "no connection")
    client.work()
    client.compare()
    library.cuts_disconnect()
    proxy.arm(at, how)
    client.connect()
    client.work()
    connect_again(client, proxy)
    client.compare()
    client.work()
    client.compare()


def connect_again(client: Client, proxy: Proxy) -> None:
    """Connects over a proxy that ends nothing."""
    proxy.arm(0, "")
    client.library.cuts_disconnect()  # (where there were fewer messages)
    good, _ = until(20, client.connect, 0.05)
    must(good, "no connection after it was cut")


def losses(library: Any, host: Host, path: str, seed: int) -> None:
    """Connections that end at random messages in random ways, also while a session is taken up, and hosts that are killed. (What the client
    says isn't cut short: a session that sent what is no message keeps its slots, and one of the two connections of the process.)"""
    chance = random.Random(f"losses {seed}")
    proxy = Proxy(path, host, chance)
    client = Client(library, path, host, chance, proxy)
    connect_again(client, proxy)
    proxy.breaks_nothing = True
    for _ in range(CUTS):
        proxy.arm(chance.randrange(1, 3 * MESSAGES), chance.choice(ENDS))
        for _ in range(8):
            if not proxy.has_cut():
                client.work()
        for _ in range(chance.choice([0, 0, 1, 2])):
            library.cuts_disconnect()
            proxy.arm(chance.randrange(1, 5), chance.choice(ENDS))
            client.connect()
        connect_again(client, proxy)
        client.compare()
    client.work()
    client.compare()


def in_process(host: Host, path: str, what: str, play: Callable[[], None]) -> None:
    """A history in a process of its own. A host that has ended is started again meanwhile. At the end no slot is left."""
    child = os.fork()
    if child == 0:
        try:
            play()
            os._exit(0)
        except BaseException:
            traceback.print_exc()
            sys.stderr.flush()
            os._exit(1)
    while (ended := os.waitpid(child, os.WNOHANG)) == (0, 0):
        if host.process.poll() is not None:
            host.start()
        time.sleep(0.01)
    os.unlink(path)
    must(ended[1] == 0, what)
    good, _ = until(20, lambda: (it := host.status()) and it["lent_bytes"] == 0, 0.02)
    must(good, "slots are left of a process that has ended")


def client_library() -> Any:
    """host/preload/remote.c and cuts.c as a library."""
    library = HERE.place.room / "cuts.so"
    found = [TOP / it for it in ("checks/host/cuts.c", "host/preload/remote.c", "window/kernel.c", "window/lines.c")]
    words: list[StrPath] = [CC, *FLAGS, "-fPIC", "-shared", *(f"-I{TOP / it}" for it in ("lib/include", "window", "host", "host/preload"))]
    words += ["-o", library, *found, WINDOW_LIBRARY]
    must(subprocess.run(words).returncode == 0, "cuts.c doesn't compile")
    loaded = ctypes.CDLL(str(library))
    loaded.cuts_buffer.restype, loaded.cuts_is_unknown.restype = ctypes.c_void_p, ctypes.c_bool
    loaded.cuts_lend.argtypes = [ctypes.c_size_t, ctypes.c_void_p, ctypes.c_void_p]
    loaded.cuts_release.argtypes = [ctypes.c_void_p, ctypes.c_size_t]
    return loaded


def case_cuts() -> None:
    """A connection is cut at each message, in four ways: the client has the slots that the host has, with their bytes (SEEDS)."""
    library, path = client_library(), str(HERE.place.room / "cut.sock")
    host, seeds = Host("--trust-peers", "--connection-rate", "100000", memory="64M"), int(os.environ.get("SEEDS", "1"))
    ended = list(itertools.product(range(seeds), range(1, MESSAGES + 1), ENDS))
    for seed, at, how in ended:
        play = functools.partial(history, library, host, path, at, how, seed)
        in_process(host, path, f"a connection that ends at message {at} ({how}), seed {seed}", play)
    print(f"  {len(ended)} histories")
    host.stop()


def case_losses() -> None:
    """Connections are cut at random messages and hosts killed, many in one history: the same holds (SEED, SEEDS or SECONDS)."""
    library, path = client_library(), str(HERE.place.room / "loss.sock")
    host, first = Host("--trust-peers", "--connection-rate", "100000", memory="64M"), int(os.environ.get("SEED", "1"))
    seconds, seeds, begin = float(os.environ.get("SECONDS", "0")), int(os.environ.get("SEEDS", "2")), time.monotonic()
    seed = first
    while seed - first < seeds or time.monotonic() - begin < seconds:
        in_process(host, path, f"losses of SEED={seed}", functools.partial(losses, library, host, path, seed))
        seed += 1
    print(f"  {CUTS * (seed - first)} connections were cut in {seed - first} histories")
    host.stop()
