#!/usr/bin/env python3
"""Reads a live process by `pageshare digest --pid` and `estimate --pid`, and compares with a count of its own.

    checks/live.py [PROGRAM]

A child maps known pages in each way: anonymous memory of its own, some of which it may offer for sharing, shared memory, a memfd of
which two pages lie behind its end, holes that nobody ever touched, a file (whose pages don't count), and memory that can't be written
(whose pages don't count either). Then it is stopped, so that the count, which reads /proc/PID/smaps, pagemap and mem in Python, and the
program see the same moment. The digests must be equal letter by letter, for several salts and samples, by default and with
--all-memory, and the known pages must have known numbers. The child's page tables and present pages must be as they were before it was
read. Last come processes that can't be read. PROGRAM is by default out/pageshare (`make build`); where it has no `digest` the count
stands alone, and the output says so. Linux alone. Prints what went wrong, and at the end `N passed, M failed` (status 0 where all
passed, else 1).
"""
from __future__ import annotations

import argparse
import json
import os
import pathlib
import re
import signal
import subprocess
import sys
from collections.abc import Iterable, Iterator, Sequence
from typing import TypedDict

from common import plain_fleet
from harness import ANY, PROGRAM, LeftOut, Tally, run

SECONDS = 120
KNOWN = {"private": 3000, "offered": 900, "shared": 700, "memfd": 50, "file": 90, "read-only": 80}
# Of the kinds of memory, what is read with --all-memory, by default where nothing is offered, and by default where something is.
ALL, OWN, OFFERED = ("private", "offered", "shared", "memfd"), ("private", "offered"), ("offered",)
ZEROS = 300
HOLES = 10000

# (its pages differ by their places, so that no buffer of the child's own has one of them)
CHILD = f"""
import mmap, os, sys, tempfile, time

def page(kind, number):
    return b"".join(f"{{kind}}/{{number}}/{{place:04}}".encode().ljust(32, b".") for place in range(128))

def fill(memory, kind, count):
    for number in range(count):
        memory[4096 * number : 4096 * number + 4096] = page(kind, number // 2)

known = {KNOWN!r}
kept = []
own = mmap.MAP_PRIVATE | mmap.MAP_ANONYMOUS
kinds = [("private", own), ("shared", mmap.MAP_SHARED | mmap.MAP_ANONYMOUS), ("read-only", own), ("offered", own)]
for kind, flags in kinds:
    kept.append(mmap.mmap(-1, 4096 * known[kind], flags=flags))
    fill(kept[-1], kind, known[kind])
zeros = mmap.mmap(-1, 4096 * {ZEROS}, flags=own)
zeros[:] = bytes(4096 * {ZEROS})
holes = mmap.mmap(-1, 4096 * {HOLES}, flags=own)
memfd = os.memfd_create("guest")
os.ftruncate(memfd, 4096 * (known["memfd"] + 2))
kept.append(mmap.mmap(memfd, 4096 * (known["memfd"] + 2)))
fill(kept[-1], "memfd", known["memfd"])
os.ftruncate(memfd, 4096 * known["memfd"])
file = tempfile.TemporaryFile()
os.ftruncate(file.fileno(), 4096 * known["file"])
kept.append(mmap.mmap(file.fileno(), 4096 * known["file"]))
fill(kept[-1], "file", known["file"])
import ctypes
address = ctypes.addressof(ctypes.c_char.from_buffer(kept[2]))
if ctypes.CDLL(None).mprotect(ctypes.c_void_p(address), ctypes.c_size_t(4096 * known["read-only"]), 1) != 0:
    raise SystemExit("mprotect was refused")
if sys.argv[1] == "offers":
    try:
        kept[3].madvise(mmap.MADV_MERGEABLE)
    except OSError:
        print("refused", flush=True)
        raise SystemExit(1)
print("ready", flush=True)
time.sleep({SECONDS})
"""
ONE_LINE = re.compile("[^\n]+\n")


def page_of(kind: str, number: int) -> bytes:
    """A page of the child's, as it fills it."""
    return b"".join(f"{kind}/{number}/{place:04}".encode().ljust(32, b".") for place in range(128))


def is_counted(permissions: str, inode: str, name: str) -> bool:
    """A mapping that can be written and is no file's."""
    if permissions[1] != "w":
        return False
    if inode == "0":
        return name not in ("[vvar]", "[vdso]", "[vsyscall]")
    return name.startswith("/memfd:") or name in ("/dev/zero (deleted)", "/anon_hugepage (deleted)")


class Mapping(TypedDict):
    begin: int
    end: int
    counts: bool
    own: bool
    offered: bool


def mappings_of(pid: int) -> list[Mapping]:
    """The mappings of a process that may count: where they begin and end, whether they are offered, and whether they are its own."""
    found: list[Mapping] = []
    for line in pathlib.Path(f"/proc/{pid}/smaps").read_text(encoding="utf-8", errors="replace").splitlines():
        if line.startswith("VmFlags:") and found:
            found[-1]["offered"] = "mg" in line.split()
        if line[:1].isupper():
            continue
        addresses, permissions, _offset, _device, inode, *name = line.split(None, 5)
        begin, end = (int(word, 16) for word in addresses.split("-"))
        counts = is_counted(permissions, inode, name[0] if name else "")
        found.append({"begin": begin, "end": end, "counts": counts, "own": permissions[3] == "p" and inode == "0", "offered": False})
    return [it for it in found if it["counts"]]


def populated(pid: int, begin: int, end: int) -> tuple[list[int], int]:
    """The pages of a range that are in memory or swapped, and how many of those in memory aren't the process's alone."""
    with open(f"/proc/{pid}/pagemap", "rb", buffering=0) as pagemap:
        entries = os.pread(pagemap.fileno(), (end - begin) // 512, begin // 512)
    words = [int.from_bytes(entries[at : at + 8], "little") for at in range(0, len(entries), 8)]
    shared = sum(1 for word in words if word >> 63 and not word >> 56 & 1)
    return [begin + 4096 * n for n, word in enumerate(words) if word >> 62], shared


def pages_of(pid: int, is_all: bool) -> tuple[list[bytes], int]:
    """The pages of a process that count, in the order of its mappings, and how many of them aren't its alone."""
    pages: list[bytes] = []
    shared_already = 0
    mappings = mappings_of(pid)
    offers = any(it["offered"] for it in mappings)
    memory = os.open(f"/proc/{pid}/mem", os.O_RDONLY)
    for it in mappings:
        if is_all or (it["offered"] if offers else it["own"]):
            addresses, shared = populated(pid, it["begin"], it["end"])
            pages += [os.pread(memory, plain_fleet.PAGE, address) for address in addresses]
            shared_already += shared
    os.close(memory)
    return pages, shared_already


def known_faults(pages: Iterable[bytes], kinds: Sequence[str]) -> Iterator[str]:
    """Each known page but the last of an odd number comes twice, and those that aren't read never. Holes don't count as zeros."""
    words: dict[bytes, int] = {}
    for page in pages:
        words[page] = words.get(page, 0) + 1
    for kind, count in KNOWN.items():
        for number in range((count + 1) // 2):
            due = min(2, count - 2 * number) if kind in kinds else 0
            found = words.get(page_of(kind, number), 0)
            if found != due:
                yield f"page {number} of {kind} memory was found {found} times, and {due} were due"
                return
    zeros = words.get(plain_fleet.ZEROS, 0)
    least = ZEROS if "private" in kinds else 0
    if not least <= zeros < least + 2000:
        yield f"{zeros} pages of zeros, of {least} that were written"


def seen_of(pid: int) -> tuple[list[str], int]:
    """What the system says of a process that reading it must not change."""
    status = pathlib.Path(f"/proc/{pid}/status").read_text(encoding="utf-8")
    present = sum(len(populated(pid, it["begin"], it["end"])[0]) for it in mappings_of(pid))
    return re.findall(r"^(?:VmPTE|VmRSS|VmSwap):.*", status, re.M), present


def digests(tally: Tally, program: str, pid: int, pages: Sequence[bytes], more: Sequence[str]) -> None:
    """The digests of the stopped child by the program."""
    for salt, sample, workers in [(0, 1, 1), (0, 1, 4), (7, 1, 3), (4294967295, 64, 2), (0, 65536, 4)]:
        words = ["--pid", pid, "--name", "child", "--salt", salt, "--sample", sample, "--workers", workers, *more]
        done = run([program, "digest", *words], seconds=SECONDS)
        name = " ".join(["salt", str(salt), "sample", str(sample), f"{workers} workers", *more])
        tally.ends(name, done, 0, plain_fleet.text_of_pages("child", salt, sample, pages))


def estimates(tally: Tally, program: str, pid: int, pages: Sequence[bytes], shared_already: int, more: Sequence[str]) -> None:
    """The numbers of an estimate of the stopped child."""
    done = run([program, "estimate", "--json", "--pid", pid, *more], seconds=SECONDS)
    numbers = json.loads(done.stdout) if done.returncode == 0 else {}
    found = (numbers.get("total", {}).get("pages"), numbers.get("total", {}).get("zero"), numbers.get("shared_already"))
    due = (len(pages), pages.count(plain_fleet.ZEROS), shared_already)
    tally.equal(" ".join(["estimate: pages, zeros, shared already", *more]), found, due)
    shown = run([program, "estimate", "--pid", pid, *more], seconds=SECONDS).stdout.decode()
    tally.holds(" ".join(["estimate: the last line", *more]), shown.endswith(" MiB of this memory is shared already.\n"), shown[-200:])


def refusals(tally: Tally, program: str, pid: int) -> None:
    """Processes that can't be read: one fault line, and nothing on standard output."""
    with subprocess.Popen(["true"]) as gone:
        gone.wait()
    for name, words, status, printed in [
        ("a process that has ended", ["--pid", gone.pid, "--name", "gone"], 1, ONE_LINE),
        ("no such number", ["--pid", 0, "--name", "none"], 2, ANY),
        ("no name", ["--pid", pid], 2, ANY),
        ("a process and an image", ["--pid", pid, "--name", "both", os.devnull], 2, ANY),
    ]:
        tally.ends(name, run([program, "digest", *words], seconds=SECONDS), status, "", printed)


def by_program(tally: Tally, program: str, pid: int, read: Sequence[tuple[Sequence[str], tuple[Sequence[bytes], int]]]) -> None:
    """What the program prints of the stopped child; `read` has the pages and the numbers for some words."""
    try:
        has_digest = run([program, "digest", "--help"]).returncode == 0
    except OSError:
        has_digest = False
    if not has_digest:
        raise LeftOut(f"`pageshare digest --pid`, since {program} has no such command")
    before = seen_of(pid)
    for more, (pages, shared_already) in read:
        digests(tally, program, pid, pages, more)
        estimates(tally, program, pid, pages, shared_already, more)
    tally.equal("the child's page tables and pages, before and after", seen_of(pid), before)
    refusals(tally, program, pid)


def live_process(tally: Tally, program: str, offers: str) -> None:
    """A child with known pages, read while it is stopped."""
    if not sys.platform.startswith("linux"):
        raise LeftOut("live processes, since this is no Linux")
    with subprocess.Popen([sys.executable, "-c", CHILD, offers], stdout=subprocess.PIPE, text=True) as child:
        try:
            line = child.stdout.readline() if child.stdout else ""
            if line == "refused\n":
                raise LeftOut("memory that is offered, since this kernel has no KSM")
            if line != "ready\n":
                tally.case("the child", ["it didn't get ready"])
            child.send_signal(signal.SIGSTOP)
            os.waitid(os.P_PID, child.pid, os.WSTOPPED | os.WNOWAIT)
            read = [((), pages_of(child.pid, False)), (("--all-memory",), pages_of(child.pid, True))]
            kinds = OFFERED if offers == "offers" else OWN
            tally.case(f"known pages of a child that {offers}", known_faults(read[0][1][0], kinds))
            tally.case(f"known pages of all memory of a child that {offers}", known_faults(read[1][1][0], ALL))
            tally.part(by_program, program, child.pid, read)
        finally:
            child.kill()


def main() -> int:
    options = argparse.ArgumentParser(description=__doc__.splitlines()[0])
    options.add_argument("program", metavar="PROGRAM", nargs="?", default=PROGRAM)
    tally, program = Tally(), options.parse_args().program
    for offers in ("offers nothing", "offers"):
        tally.part(live_process, program, offers)
    return tally.close()


if __name__ == "__main__":
    sys.exit(main())
