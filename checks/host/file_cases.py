"""Cases of the files that the host and its clients share: flags, memory policies, and frames for which the system has no memory."""
from __future__ import annotations

import ctypes
import errno
import fcntl
import mmap
import os
import pathlib
import random
import struct
import subprocess
import time
from collections.abc import Sequence

import hostile
from bounds_cases import build_shim, questions, refusing, run_as_nobody
from client_cases import KINDS, sanitized_host
from parts_cases import run_parts
from places import HERE, Host, LeftOut, all_released, compile_shim, in_time, must, until
from qemu_guests import NOBODY, read
from raw_client import LEND, LOANS, NO_FRAME, PAGE, PAGES_MOST, RawClient

SYS_MBIND, SYS_GET_MEMPOLICY = 237, 239  # (of x86-64)
PREFERRED, BIND, OF_ADDRESS = 1, 2, 2
PUNCH_HOLE = 3
LIBC = ctypes.CDLL(None, use_errno=True)
LIBC.mmap.restype, LIBC.mmap.argtypes = ctypes.c_void_p, [ctypes.c_void_p, ctypes.c_size_t, *[ctypes.c_int] * 3, ctypes.c_long]
LIBC.syscall.restype, LIBC.syscall.argtypes = ctypes.c_long, [ctypes.c_long] * 7
LIBC.fallocate.argtypes = [ctypes.c_int, ctypes.c_int, ctypes.c_long, ctypes.c_long]


# ---- flags ----


def sets_flags(path: str, write_end: int) -> None:
    """A client that sets what it can of its open file of frames, and stays."""
    client = RawClient(path)
    fcntl.fcntl(client.file, fcntl.F_SETFL, os.O_DIRECT | os.O_NONBLOCK | os.O_APPEND)
    os.lseek(client.file, PAGE, os.SEEK_SET)
    os.write(write_end, b"x")
    time.sleep(60)


def flags_of_another(path: str) -> str:
    """What another client has of them."""
    client = RawClient(path)
    flags = fcntl.fcntl(client.file, fcntl.F_GETFL) & (os.O_DIRECT | os.O_NONBLOCK | os.O_APPEND)
    return f"{flags} {os.lseek(client.file, 0, os.SEEK_CUR)}"


def case_flags() -> None:
    """A client that sets flags of its open file of frames changes nothing of another's, and the library doesn't take that file for a device's."""
    host = Host(memory="64M")
    path, (read_end, write_end) = str(host.socket), os.pipe()
    first = run_as_nobody(flags_of_another, path)()
    one = hostile.in_child(NOBODY, sets_flags, path, write_end)
    os.read(read_end, 1)
    later = run_as_nobody(flags_of_another, path)()
    os.kill(one, 9)
    hostile.wait(one)
    print(f"  flags and offset of another client: {first} before, {later} beside it")
    must(first == later == "0 0", "one client's flags are another's")
    all_released(host)
    host.stop()
    run_parts(("own-flags",))


# ---- memory policies ----


def map_frames(client: RawClient) -> int:
    size = os.fstat(client.file).st_size
    at = LIBC.mmap(None, size, mmap.PROT_READ, mmap.MAP_PRIVATE, client.file, 0)
    must(at not in (None, ctypes.c_void_p(-1).value), "the file of frames can't be mapped")
    return int(at or 0)


def bind(at: int, pages: int, mode: int) -> bool:
    node = (ctypes.c_ulong * 16)(1)
    return bool(LIBC.syscall(SYS_MBIND, at, pages * PAGE, mode, ctypes.addressof(node), 1024, 0) == 0)


def with_policy(at: int, frames: range) -> int:
    """How many of these frames have a memory policy."""
    mode, found = ctypes.c_int(), 0
    for frame in frames:
        status = LIBC.syscall(SYS_GET_MEMPOLICY, ctypes.addressof(mode), 0, 0, at + frame * PAGE, OF_ADDRESS, 0)
        must(status == 0, "get_mempolicy")
        found += mode.value != 0
    return found


def sets_policies(path: str, one_each: int) -> str:
    """Sets a policy of all frames, and one of its own for each of some. Returns how many frames have one at once, and after how long none
    has."""
    client = RawClient(path)
    at = map_frames(client)
    had = 0
    for _ in range(5):  # (the host may just be taking them off)
        if not bind(at, client.frames, BIND):
            return "none"
        had = max(had, with_policy(at, range(1000)))
    for frame in range(one_each):
        bind(at + frame * PAGE, 1, PREFERRED if frame % 2 else BIND)
    begin = time.time()
    looked_at = range(0, client.frames, 97)  # (all of them would take longer than the host does)
    gone, _ = until(40, lambda: with_policy(at, looked_at) == 0, 0.05)
    return f"{had} {time.time() - begin if gone else -1:.2f}"


def case_policies() -> None:
    """A client sets memory policies of the file of frames: within a second or two they are gone; and the host bears it if it can't do that."""
    shim = build_shim()
    host = Host(memory="1G")
    said = run_as_nobody(sets_policies, str(host.socket), 20000)(120)
    if said == "none":
        raise LeftOut("memory policies, which this system refuses")
    had, seconds = said.split()
    print(f"  {had} of 1,000 frames had a policy; after {seconds} s none has one")
    must(int(had) > 0 and float(seconds) >= 0, "policies of a client stay")
    in_time(float(seconds) < 20, "policies stay for long")
    all_released(host)
    host.stop()
    for cause, lines in ((errno.EPERM, 1), (errno.ENOSYS, 0)):
        host = Host(memory="64M", name=f"policies{cause}", before=refusing(shim, f"mbind,1,1000000,{cause}"))
        longest = float(run_as_nobody(lambda: questions(str(host.socket), 2.5)[1])())
        in_time(longest < 2, "others wait where policies can't be taken off")
        must(read(host.log).count("memory policies") == lines, f"{errno.errorcode[cause]}: {read(host.log)}")
        host.stop()


# ---- frames without memory ----


class Shadow:
    """A client that lends and releases at random, and knows what each of its frames contains."""

    def __init__(self, path: str, seed: int) -> None:
        self.client, self.random = RawClient(path, seconds=30), random.Random(seed)
        self.held: dict[int, tuple[int, bytes]] = {}
        self.lent = self.refused = 0

    def lend(self, count: int, contents: int) -> None:
        pages = [hostile.page(10**9 + self.random.randrange(contents)) for _ in range(count)]
        for page, (slot, frame, _) in zip(pages, self.client.lend(pages)):
            if frame == NO_FRAME:
                self.refused += 1
                continue
            must(slot not in self.held, "a slot is lent twice")
            self.held[slot] = (frame, page)
            self.lent += 1

    def release(self, count: int) -> None:
        slots = self.random.sample(sorted(self.held), min(count, len(self.held), PAGES_MOST))
        self.client.release(slots)
        for slot in slots:
            del self.held[slot]

    def wrong(self) -> int:
        frames: dict[int, bytes] = {}
        wrong = sum(frames.setdefault(frame, page) != page for frame, page in self.held.values())
        return wrong + sum(self.client.frame(frame) != page for frame, page in frames.items())


def lends_much(path: str, seed: int, seconds: float) -> str:
    """Lends more than there is memory for. Returns how many pages were lent and refused."""
    shadow, end = Shadow(path, seed), time.time() + seconds
    while time.time() < end:
        shadow.lend(shadow.random.choice((1, 7, PAGES_MOST)), shadow.random.choice((3, 200, 5000)))
        shadow.release(shadow.random.choice((0, 5, 100)))
        must(shadow.wrong() == 0, f"frames don't hold what was lent: {shadow.wrong()}")
    holes = lends_holes(shadow.client)
    while shadow.held:
        shadow.release(PAGES_MOST)
    shadow.client.ask([(1, 1)])
    return f"{shadow.lent} {shadow.refused} {holes}"


def lends_holes(client: RawClient) -> int:
    """Lends pages of a buffer from which it took the memory. Returns how many got a frame, and releases these."""
    must(LIBC.fallocate(client.buffer_file, PUNCH_HOLE, 0, PAGES_MOST * PAGE) == 0, "the buffer's memory can't be taken")
    client.say(struct.pack("<II", LEND, PAGES_MOST))
    data = client.hear()
    must(struct.unpack("<II", data[:8]) == (LOANS, PAGES_MOST), "a lend of holes isn't replied to")
    loans = [struct.unpack("<QII", data[8 + 16 * it : 24 + 16 * it]) for it in range(PAGES_MOST)]
    must(all(frame == NO_FRAME or client.frame(frame) == bytes(PAGE) for _, frame, _ in loans), "a hole isn't zeros")
    slots = [slot for slot, frame, _ in loans if frame != NO_FRAME]
    client.release(slots)
    return len(slots)


def small(folder: pathlib.Path, size: str) -> list[str]:
    """What runs a host whose files have so much memory in all, by small_file.c."""
    mount = f"mount -t tmpfs -o size={size},mode=1777 none {folder} && exec \"$@\""
    words = [f"LD_PRELOAD={build_shim()}:{compile_shim('small_file')}", f"SMALL_FOLDER={folder}", "ASAN_OPTIONS=verify_asan_link_order=0"]
    return ["unshare", "-m", "sh", "-c", mount, "sh", "env", *words]


def is_mounted(before: Sequence[str]) -> bool:
    return subprocess.run([*before, "true"], capture_output=True).returncode == 0


# Mappings that are refused once, and twice in turn, while frames get other memory and the file again.
MAPS_REFUSED = f"mmap,200,1,{errno.ENOMEM}:mmap,333,2,{errno.ENOMEM}"


def case_no_memory() -> None:
    """The system has no memory for frames: pages that need one aren't lent, others are as they were, and the host goes on: SANITIZE=1 with sanitizers."""
    folder = HERE.place.room / "small"
    folder.mkdir(exist_ok=True)
    before = small(folder, "3M")
    if not is_mounted(before):
        raise LeftOut("a small file system, which can't be mounted")
    hosts: list[tuple[pathlib.Path | None, list[str]]] = [(None, []), (None, [f"REFUSE={MAPS_REFUSED}"])]
    hosts += [(sanitized_host(kind), []) for kind in KINDS] if os.environ.get("SANITIZE") == "1" else []
    for number, (program, more) in enumerate(hosts):
        lend_without_memory(Host(memory="16M", name=f"memory{number}", program=program, before=[*before, *more]))
        HERE.place.clean()


def lend_without_memory(host: Host) -> None:
    ran = [run_as_nobody(lends_much, str(host.socket), seed, 3 if HERE.is_short else 10) for seed in (1, 2, 3)]
    for said in [it() for it in ran]:
        lent, refused, holes = map(int, said.split())
        print(f"  {lent} pages were lent, {refused} weren't, and {holes} holes of a buffer were")
        must(lent > 0 and refused > 0, "nothing was lent, or the system had memory for all")
    said = read(host.log)
    must(said.count("memory for a frame") == 1, f"no line says why, or more than one: {said}")
    must("Sanitizer" not in said and "runtime error" not in said, said[-2000:])
    all_released(host)
    host.stop()
