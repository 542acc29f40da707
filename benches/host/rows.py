"""How many mappings guests need: which frames pages beside each other show, and how few mappings there could be."""
from __future__ import annotations

import collections
import os
import re
import time
from collections.abc import Iterable, Mapping, Sequence

from places import HERE, Host
from qemu_guests import PAGE, Guest, read
from running_guests import GUESTS, guests, right, settle, show

FRAMES = re.compile(r"^([0-9a-f]+)-([0-9a-f]+) rw-p ([0-9a-f]+) .* /memfd:pageshare-frames \(deleted\)$", re.M)
# Where the library maps memory for itself (window/kernel.c).
APART = range(0x2000_0000_0000, 0x3000_0000_0000)
# The frame that each page shows, by the page's number.
Shown = dict[int, int]


def shown_by(maps: str) -> Shown:
    """The frames that a process's pages show, by its /proc/PID/maps. (Some have a copy since they were written.)"""
    shown: Shown = {}
    for begin, end, offset in ((int(it, 16) for it in found) for found in FRAMES.findall(maps)):
        if begin not in APART:
            shown.update((begin // PAGE + n, offset // PAGE + n) for n in range((end - begin) // PAGE))
    return shown


def pairs_of(shown: Shown) -> collections.Counter[tuple[int, int]]:
    """How often a frame is shown right before another one."""
    return collections.Counter((frame, shown[page + 1]) for page, frame in shown.items() if page + 1 in shown)


def kinds_of(pairs: Mapping[tuple[int, int], int]) -> dict[str, int]:
    """Of pages beside each other, how many show the next frame, the one before, the same one, and another one."""
    kinds = dict.fromkeys(("next", "before", "same", "other"), 0)
    for (frame, behind), count in pairs.items():
        kinds[{1: "next", -1: "before", 0: "same"}.get(behind - frame, "other")] += count
    return kinds


def most_next(pairs: Iterable[Mapping[tuple[int, int], int]]) -> int:
    """
    How many pages beside each other could show a frame and the next one, if frames were given in the best order: of each frame those pairs count
    that are most, since one frame alone comes behind it. (No order may reach that.)
    """
    whole: collections.Counter[tuple[int, int]] = collections.Counter()
    for it in pairs:
        whole.update({key: count for key, count in it.items() if key[0] != key[1]})
    behind: dict[int, int] = {}
    before: dict[int, int] = {}
    for (frame, other), count in whole.items():
        behind[frame] = max(behind.get(frame, 0), count)
        before[other] = max(before.get(other, 0), count)
    return min(sum(behind.values()), sum(before.values()))


def report(made: Sequence[Guest]) -> None:
    """A line for each guest, and two for all."""
    pairs = [pairs_of(shown_by(read(f"/proc/{it.pid}/maps"))) for it in made]
    counts = [it.counts() for it in made]
    for guest, of_guest, own in zip(made, pairs, counts):
        kinds = ", ".join(f"{name} {count}" for name, count in kinds_of(of_guest).items())
        print(f"  guest {guest.number}: {own['lent']} pages lent, {own['mappings']} mappings, {own['lent'] / own['mappings']:.2f} pages each; "
              f"pages in a row show frames: {kinds}")
    lent, mappings = sum(it["lent"] for it in counts), sum(it["mappings"] for it in counts)
    fewest = mappings - (most_next(pairs) - sum(kinds_of(it)["next"] for it in pairs))
    rows = [frame for it in pairs for frame, behind in it if frame == behind]
    print(f"  all: {lent} pages, {mappings} mappings, {lent / mappings:.2f} pages each; in the best order of frames at least {fewest}, "
          f"{lent / fewest:.2f} each")
    print(f"  {sum(kinds_of(it)['same'] for it in pairs)} pages show the frame of the page before them, {len(set(rows))} different ones; "
          f"load {os.getloadavg()[0]:.1f}", flush=True)


def case_rows() -> None:
    """How many mappings guests need that start after the host, or before it, and how few they could need (SECONDS)."""
    for is_first in (True, False):
        host = Host()
        if not is_first:
            host.kill()
        made = guests(GUESTS, host)
        if not is_first:
            host.start()
        settle(host, made)
        time.sleep(int(os.environ.get("SECONDS", "40")))
        print(f"  the host starts {'before' if is_first else 'after'} the guests")
        report(made)
        right(made)
        show(host, made, "settled")
        HERE.place.clean()
