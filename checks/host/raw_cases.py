"""Calls of the system that a monitor makes by their numbers or past the C library, and what scans of its descriptors cost: checks/host/raw_calls.c."""
from __future__ import annotations

import subprocess

from parts_cases import compile_parts, run_parts, start
from places import AS_NOBODY, HERE, Host, all_released, must

RAW = ("submit", "ring", "buffers", "files", "map", "guard", "missing", "advice", "collide", "child", "signals", "handler", "threads", "costs")
# What no filter shows.
NUMBERS = ("same", "memory", "descriptors")
# Slow looks of a small share.
SLOW = {"PAGESHARE_PERIOD_MS": "1000", "PAGESHARE_FILTER": "0"}


def case_filter() -> None:
    """With a filter the library is told of calls past the C library before they are made; beside signals, threads and forks."""
    run_parts([f"raw-{name}" for name in RAW], more={"PAGESHARE_FILTER": "1"}, program="raw_calls")
    run_parts(("orphan",), more={"PAGESHARE_FILTER": "1"}, program="waits")


def case_numbers() -> None:
    """Without a filter the library is told of the same calls where the program makes them by `syscall`, and of those that have names here."""
    run_parts([f"number-{name}" for name in (*RAW, *NUMBERS)], more={"PAGESHARE_FILTER": "0"}, program="raw_calls")


def case_filter_by_itself() -> None:
    """A process that gets no new privileges has a filter by itself, one that may get some has none; --status says which."""
    program, host = compile_parts("raw_calls"), Host(memory="64M")
    plain, strict = AS_NOBODY, [*AS_NOBODY, "--no-new-privs"]
    for user, said, way in ((plain, "", "scans"), (strict, "", "filter"), (strict, "0", "scans"), (plain, "1", "filter")):
        ran = start(program, "stays", host, {"PAGESHARE_FILTER": said}, user)
        assert ran.stdout
        must(ran.stdout.readline().strip() == "lent", f"{user} PAGESHARE_FILTER={said}: nothing is lent")
        shown = subprocess.run([HERE.host, "--status", host.socket], capture_output=True, text=True).stdout
        must(any(f" {way} " in line for line in shown.splitlines()), f"{user} PAGESHARE_FILTER={said}: not found by {way}: {shown}")
        must([it["client_filtered"] for it in host.status()["processes"]] == [int(way == "filter")], f"{host.status()}")
        ran.communicate("\n")
        all_released(host)
    host.stop()


def case_scans() -> None:
    """With many descriptors looks go on, and what was written beside an io_uring is lent again, with a small share of a processor."""
    run_parts(("descriptors",), more={**SLOW, "PAGESHARE_CPU": "1"}, program="raw_calls")
    run_parts(("ringed",), more={**SLOW, "PAGESHARE_CPU": "2"}, program="raw_calls")


def begin(host: Host) -> None:
    host.start()


def case_guarded() -> None:
    """Memory that the monitor guards by a userfaultfd before it offers it, or later past the C library, stays as it is while the guard lasts."""
    run_parts(("missing-first", "protected-first", "guarded-later", "watched-copies"), more={"PAGESHARE_FILTER": "0"}, program="raw_calls")
    for way in ("missing-early", "protected-early"):
        host = Host(memory="64M")
        host.kill()
        run_parts((way,), {"watched": begin}, {"PAGESHARE_FILTER": "0"}, host=host, program="raw_calls")


def case_said_early() -> None:
    """Devices that are there before the first window are said on standard error."""
    run_parts(("said-early",), more={"PAGESHARE_FILTER": "0", "PAGESHARE_PERIOD_MS": "2000"}, program="raw_calls")
