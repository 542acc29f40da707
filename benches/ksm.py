"""How many pages the kernel's KSM merges a second, of the pages that the benches of lends have. KSM's settings are put back."""
from __future__ import annotations

import contextlib
import mmap
import os
import pathlib
import signal
import sys
import time
from collections.abc import Iterator

KSM = pathlib.Path("/sys/kernel/mm/ksm")
PAGE = 4096
PAGES = 16384
# Settings by which KSM goes as fast as it can.
FAST = {"sleep_millisecs": "0", "pages_to_scan": "100000", "run": "1"}


def number_in(name: str) -> int:
    """A number of KSM's."""
    return int((KSM / name).read_text())


@contextlib.contextmanager
def ksm_settings() -> Iterator[None]:
    """KSM goes as fast as it can, and afterwards as it did. A kill by SIGTERM puts the settings back, too."""
    before = {name: (KSM / name).read_text() for name in reversed(FAST)}
    former = signal.signal(signal.SIGTERM, lambda *_: sys.exit(1))
    try:
        for name, value in FAST.items():
            (KSM / name).write_text(value)
        yield
    finally:
        for name, value in before.items():
            (KSM / name).write_text(value)
        signal.signal(signal.SIGTERM, former)


def fill(memory: mmap.mmap) -> None:
    """Pages of which every other one equals the one before."""
    for number in range(PAGES):
        memory[number * PAGE : number * PAGE + 4] = (number // 2).to_bytes(4, "little")
        memory[number * PAGE + PAGE - 1] = 1


def merged_a_second(most_seconds: float = 120) -> str:
    """Pages that KSM merges a second, or why nobody can say."""
    if not os.access(KSM / "run", os.W_OK):
        return "left out: KSM's settings can't be written here"
    if number_in("run") != 0:
        return "left out: KSM is at work for others"
    with mmap.mmap(-1, PAGES * PAGE, flags=mmap.MAP_PRIVATE | mmap.MAP_ANONYMOUS) as memory:
        fill(memory)
        before = number_in("pages_sharing")
        memory.madvise(mmap.MADV_MERGEABLE)
        with ksm_settings():
            start = time.monotonic()
            while (merged := number_in("pages_sharing") - before) < PAGES // 2:
                if time.monotonic() - start > most_seconds:
                    return f"only {merged} of {PAGES // 2} pages were merged in {most_seconds} s"
                time.sleep(0.001)
            taken = time.monotonic() - start
        memory.madvise(mmap.MADV_UNMERGEABLE)
    return f"{PAGES / taken:.0f} pages a second, all merged in {taken:.2f} s"
