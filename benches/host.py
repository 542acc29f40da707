#!/usr/bin/env python3
"""Measures the host (docs/HOST.md): what QEMU guests save and what it costs, beside the kernel's KSM; holds; the price of a write.

    benches/host.py [CASE ..]

Without words all cases but `figure` and `ksm` run; --list names them. What a case needs, and how it runs, is as checks/host.py says. KSM=0 in
the environment leaves out the kernel's KSM beside it (its settings are put back, unless this is killed). GUESTS=N takes another number of guests
than 3, of `figure` than 8, and SECONDS=N another length of `memory`. Tables and pictures go to out/host. The last line is
`N passed, M failed`, of cases (status 0 where none failed, else 1).

`ksm` takes programs of SIZES=256,1024 MiB (by default 256) with RUNS=1,6,64,512 equal pages in a row, beside BUSY=0,4 busy processes, by
WAYS=pageshare,KSM,advisor in turns, TURNS=N times; with HUGE=0 their memory has no huge pages. out/host/ksm.tsv has a line for each.
"""
from __future__ import annotations

import pathlib
import sys

import checks_path  # noqa: F401
from runner import cases_in, main

sys.path.insert(0, str(pathlib.Path(__file__).resolve().parent / "host"))

import beside  # noqa: E402
import measures  # noqa: E402
import rows  # noqa: E402

if __name__ == "__main__":
    sys.exit(main(__doc__, cases_in([measures, beside, rows]), ("figure", "ksm")))
