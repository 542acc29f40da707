#!/usr/bin/env python3
"""Runs the host (docs/HOST.md) with unmodified QEMU guests, hostile clients and whatever else may go wrong.

    checks/host.py [CASE ..]
    checks/host.py --gate [CASE ..]

Without words all cases but `soak` run; --list names them. --gate runs cases as `make check` does, shortened, and without words those that
IN_GATE lists: all that need no guest, and some with one or two. These run side by side, but for those of ALONE, which measure. Each case has
a time, after which it has failed. One in which somebody waited
longer than due, or less was shared, is run once more, since the computer may have been busy. Needs root, out/host/pageshare-host and
out/host/libpageshare-window.so (`make host`). Guests are QEMU with Debian's kernel and busybox, run as the user nobody beside a host
of another user; each checks all that it reads. With INSTALL=1 in the environment missing packages are installed by apt-get, but for
the kernel, which is only unpacked. What the computer lacks is left out, and so said.

GUESTS=N takes another number of guests than 3, SECONDS=N another length of `fuzz`, `soak`, `breaker`, `reach`, `storm`, `refusals`, `size`,
`ways` and `losses`. SEED=N is another first seed of `ways`, `reach` and `losses`, SEEDS=N another number of seeds than 8 for `breaker` and
`reach`, 16 for `refusals`, 2 for `losses` and 1 for `cuts`; with SANITIZE=1 `breaker`, `reach` and `storm` run under a library
with sanitizers.
Everything runs on this computer, over sockets in a folder of its own, which is removed afterwards. The last line is `N passed, M failed`, of
cases (status 0 where none failed, else 1). benches/host.py has the cases that measure.
"""
from __future__ import annotations

import pathlib
import sys

sys.path.insert(0, str(pathlib.Path(__file__).resolve().parent / "host"))

import bounds_cases  # noqa: E402
import breaker_cases  # noqa: E402
import check_cases  # noqa: E402
import client_cases  # noqa: E402
import cut_cases  # noqa: E402
import device_cases  # noqa: E402
import file_cases  # noqa: E402
import gain_cases  # noqa: E402
import guest_cases  # noqa: E402
import parts_cases  # noqa: E402
import pausing_cases  # noqa: E402
import raw_cases  # noqa: E402
import reach_cases  # noqa: E402
import size_cases  # noqa: E402
import system_cases  # noqa: E402
import ways_cases  # noqa: E402
from runner import cases_in, main  # noqa: E402

CASES = cases_in([
    client_cases, bounds_cases, file_cases, breaker_cases, reach_cases, parts_cases, raw_cases, device_cases, size_cases, gain_cases, guest_cases,
    system_cases, ways_cases, check_cases, pausing_cases, cut_cases,
])
LONG = ("soak",)
# What `make check` runs, and the seconds that each case has. A new case that needs no guest belongs here, but for those that time something.
IN_GATE = {
    "words": 60, "hostile": 240, "tables": 300, "fuzz": 120, "stress": 240, "restarts": 300, "sanitizers": 600, "denied": 120, "hangup": 120, "unit": 60,
    "descriptors-sent": 240, "quotas": 120, "slow-punch": 60, "refused-punch": 60, "breaker": 240, "storm": 240, "parts": 300, "calls": 300, "forks": 300,
    "pins": 600, "lent-again": 300, "newcomer": 120, "locks": 300, "endings": 300, "devices": 120, "size": 600, "runs": 180, "paced": 60,
    "ranges": 60, "names": 60, "counts": 60, "refused": 60, "kvm": 300, "ends": 600, "postcopy": 240, "remote": 60, "cuts": 240, "losses": 240,
    "background": 120, "mappings": 120, "waits": 180, "uncached": 120, "reach": 240,
    "closed": 60, "malloc": 120, "lines": 60, "read-late": 60, "flags": 120, "policies": 120, "no-memory": 120,
    "filter": 480, "numbers": 480, "filter-by-itself": 60, "scans": 180, "guarded": 120, "said-early": 60,
    "ways": 120,
    "check": 120, "check-guest": 60, "check-denied": 60, "check-wrong": 180, "check-refused": 300, "pause": 240, "pause-busy": 120, "pause-guarded": 120,
    "limit": 120, "account": 180, "shares-nothing": 240,
}
# Those that measure the time or the memory of what runs: nothing of the gate's cases runs beside them.
ALONE = ("size", "runs", "paced")

if __name__ == "__main__":
    sys.exit(main(__doc__, CASES, LONG, IN_GATE, ALONE))
