"""Runs cases of the host, each with its time, and counts them: what checks/host.py and benches/host.py share."""
from __future__ import annotations

import argparse
import atexit
import concurrent.futures
import contextlib
import os
import pathlib
import shutil
import signal
import subprocess
import sys
import time
import types
from collections.abc import Callable, Iterable, Mapping, Sequence
from typing import Any

from harness import LeftOut, Tally
from places import HERE, Late, Place, Wrong, find_kernel

# Cases by their names.
Cases = Mapping[str, Callable[[], object]]
# The seconds of a case outside the gate.
SECONDS_OF_CASE = 1800
# How many cases of the gate run side by side: most of them wait most of their time.
LANES = 3 if len(os.sched_getaffinity(0)) > 2 else 2


def cases_in(modules: Iterable[types.ModuleType]) -> Cases:
    """The cases of modules: their functions case_NAME, each of another name."""
    named = [(name, run) for module in modules for name, run in vars(module).items() if name.startswith("case_")]
    cases = {name.removeprefix("case_").replace("_", "-"): run for name, run in named}
    assert len(cases) == len(named), "two modules have a case of one name"
    return cases


def too_late(*_: object) -> None:
    raise Wrong("it took too long")


def about(run: Callable[[], object]) -> str:
    """What a case says of itself."""
    return (run.__doc__ or "").splitlines()[0]


def verdict_of(tally: Tally, name: str, run: Callable[[], object], seconds: int) -> str:
    """Runs a case, which ends after these seconds. What it started is ended with it."""
    signal.alarm(seconds)
    try:
        run()
        return "good"
    except LeftOut as cause:
        tally.leave_out(f"{name}: {cause}", cause.package)
        return "left out"
    except Late as cause:
        return f"LATE: {cause}"
    except Exception as cause:  # (whatever a case meets, the next one runs)
        return f"FAILED: {type(cause).__name__}: {cause}"
    finally:
        signal.alarm(0)
        HERE.place.clean()


def run_case(tally: Tally, name: str, run: Callable[[], object], seconds: int) -> None:
    """Runs a case; and once more if it was late, since the computer may have been busy."""
    print(f"{name}: {about(run)}", flush=True)
    verdict = ""
    for _ in range(2):
        begin = time.time()
        verdict = verdict_of(tally, name, run, seconds)
        print(f"{name}: {verdict} ({time.time() - begin:.0f} s)", flush=True)
        if not verdict.startswith("LATE"):
            break
    if verdict != "left out":
        tally.case(name, [] if verdict == "good" else [verdict[:300]])


def is_ready(tally: Tally) -> bool:
    """Whether cases can run here: as root, of a host and a library that are built."""
    if os.geteuid() != 0:
        tally.leave_out("all of the host, which needs root")
        return False
    missing = [it for it in (HERE.host, HERE.library) if not it.exists()]
    if missing:
        tally.case("the host", [f"{missing[0]} isn't there: make host"])
    return not missing


def run_cases(tally: Tally, cases: Cases, names: Sequence[str], long: Sequence[str], in_gate: Mapping[str, int]) -> None:
    """Runs these cases by a copy of the host and of the library, so that a build meanwhile changes nothing."""
    HERE.place = Place()
    atexit.register(HERE.place.remove)
    HERE.host, HERE.library = (pathlib.Path(shutil.copy(it, HERE.place.room)) for it in (HERE.host, HERE.library))
    signal.signal(signal.SIGTERM, lambda *_: sys.exit(1))
    signal.signal(signal.SIGALRM, too_late)
    for name in names:
        seconds = (in_gate[name] if HERE.is_short else SECONDS_OF_CASE) + int(os.environ.get("SECONDS", "600" if name in long else "0"))
        run_case(tally, name, cases[name], seconds)


def by_itself(name: str) -> subprocess.CompletedProcess[str]:
    """Runs a case of the gate in a process of its own, and returns what it printed."""
    how: dict[str, Any] = {"stdin": subprocess.DEVNULL, "stdout": subprocess.PIPE, "stderr": subprocess.STDOUT, "text": True, "errors": "replace"}
    return subprocess.run([sys.executable, sys.argv[0], "--gate", name], check=False, **how)


def run_side_by_side(tally: Tally, in_gate: Mapping[str, int], alone: Sequence[str]) -> None:
    """Runs the gate's cases side by side, the longest first, each in a process and a folder of its own; then those that run alone. What a case
    prints comes when it has ended."""
    with contextlib.suppress(LeftOut, Wrong):  # (so that no two cases unpack it)
        find_kernel()
    beside = sorted((it for it in in_gate if it not in alone), key=lambda it: -in_gate[it])
    with concurrent.futures.ThreadPoolExecutor(LANES) as lanes:
        running = {lanes.submit(by_itself, it): it for it in beside}
        for it in concurrent.futures.as_completed(running):
            tally.take(running[it], it.result().stdout, it.result().returncode)
    for name in alone:
        done = by_itself(name)
        tally.take(name, done.stdout, done.returncode)


def main(description: str, cases: Cases, long: Sequence[str], in_gate: Mapping[str, int] | None = None, alone: Sequence[str] = ()) -> int:
    """Reads the words and runs the cases that they name; without words all but the long ones, or those of the gate, side by side but for these."""
    options = argparse.ArgumentParser(description=description.splitlines()[0])
    options.add_argument("cases", metavar="CASE", nargs="*")
    if in_gate is not None:
        options.add_argument("--gate", action="store_true", help="run cases as `make check` does, shortened; without words all of these")
    options.add_argument("--list", action="store_true", help="name the cases")
    given = options.parse_args()
    if given.list:
        print("".join(f"{name:12} {about(run)}\n" for name, run in cases.items()), end="")
        return 0
    unknown = [name for name in given.cases if name not in cases]
    if unknown:
        options.error(f"no such case: {' '.join(unknown)} (see --list)")
    HERE.is_short = in_gate is not None and given.gate
    beyond = [name for name in given.cases if HERE.is_short and name not in (in_gate or {})]
    if beyond:
        options.error(f"the gate doesn't run this case: {' '.join(beyond)}")
    tally = Tally()
    if is_ready(tally):
        if HERE.is_short and not given.cases:
            run_side_by_side(tally, in_gate or {}, alone)
        else:
            run_cases(tally, cases, given.cases or [name for name in cases if name not in long], long, in_gate or {})
    return tally.close()
