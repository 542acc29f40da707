#!/usr/bin/env python3
"""Random scripts through threads and back, for some time.

    checks/soak.py [SECONDS [SEED [PROGRAM]]]

SECONDS, by default 600; the scripts follow from SEED, by default the time, and the seed is printed. PROGRAM is by default
out/pageshare (`make build`). Of each script it looks that

- `run --journal` writes a journal that has each guest's requests in the script's order and its close, and no others;
- `replay` of that journal answers each request once, and its report is of as many entries;
- `run` gives each guest as many verdicts, of the kinds that its requests can get; and where no guest can see another (each
  has a salt of its own, no script counts, and frames never lack) exactly those that the replay gives;
- `serial` answers like `replay` of the journal in the serial order.

Prints the number of scripts and requests (status 0), or the first script that differs, which it leaves at out/soak.script
(status 1). The last line is `N passed, M failed`, of scripts.
"""
from __future__ import annotations

import argparse
import random
import sys
import time

from common.random_texts import header, request, script, text_of
from common.script_runs import Differs, look
from harness import PROGRAM, Tally, leave


def apart(rng: random.Random) -> str:
    """A script whose guests can't see one another."""
    pages = [rng.randint(1, 6) for _ in range(rng.choice([1, 2, 3, 8, 64]))]
    salts = rng.sample(range(1, 2**32), len(pages))
    lines = [line for line in (request(rng, pages) for _ in range(rng.choice([10, 300, 3000]))) if not line.endswith("count")]
    ring = rng.choice([1, 2, 7, 64, 1024])
    head = [*header("script", True, sum(pages), pages, salts), f"ring {ring}", f"journal {len(lines) + len(pages)}"]
    return text_of(head, lines)


def difference(program: str, text: str, is_apart: bool) -> tuple[Differs | None, int]:
    """In what a script differs, and how many requests it has."""
    try:
        return None, look(program, text, is_apart)
    except Differs as what:
        return what, 0


def main() -> int:
    options = argparse.ArgumentParser(description=__doc__.splitlines()[0])
    options.add_argument("seconds", metavar="SECONDS", nargs="?", type=float, default=600)
    options.add_argument("seed", metavar="SEED", nargs="?", type=int, default=int(time.time()))
    options.add_argument("program", metavar="PROGRAM", nargs="?", default=PROGRAM)
    given = options.parse_args()
    seed, program = given.seed, given.program
    print(f"seed {seed}", flush=True)
    rng, end = random.Random(seed), time.monotonic() + given.seconds
    tally, requests = Tally(), 0
    while time.monotonic() < end and not tally.failed:
        is_apart = rng.random() < 0.5
        text = apart(rng) if is_apart else script(rng, most=3000)[0]
        what, count = difference(program, text, is_apart)
        wrong = [f"it differs in {what}; it is at {leave('soak.script', text)}"] if what else []
        tally.case(f"script {tally.passed} of seed {seed}", wrong)
        requests += count
    scripts = tally.passed
    print(f"{scripts} scripts, {requests} requests, {4 * scripts} runs of the program besides: no difference in them")
    return tally.close()


if __name__ == "__main__":
    sys.exit(main())
