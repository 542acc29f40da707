"""How much a machine proves side by side."""
from __future__ import annotations

import os
import pathlib
import re

# The most memory that a check of a crate takes, in KiB, with some room.
CHECK = 5_000_000


def lanes() -> int:
    """How many crates `rt ci` is to check side by side, each with one job, since each further job of a check reads all libraries anew."""
    (free,) = re.findall(r"MemAvailable:\s+(\d+)", pathlib.Path("/proc/meminfo").read_text())
    return max(1, min(len(os.sched_getaffinity(0)), int(free) // CHECK))
