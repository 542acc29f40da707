#!/usr/bin/env python3
"""The gate, in three commands; and where its time goes.

    tools/gate.py packages         installs the packages of Debian that `check` needs (`make packages`, as root)
    tools/gate.py test [--anew]    every proof, every test and the runs of the proved program (`make test`)
    tools/gate.py edits [--all]    the wrong bodies that the prover must refuse, and the test of the script that tries them
                                   (`make edits`, after `make test`)
    tools/gate.py check            all of the product that isn't proved, built and run over the libraries that are (`make check`,
                                   after `make test`)
    tools/gate.py sum              the ten dearest steps of all these, what failed in them, and how much passed
    tools/gate.py                  the ten dearest steps of all these, and the sums by kind

A command runs all its steps even where one fails, and exits with status 1 where any does. On a terminal it redraws one line that
shows how far it is; elsewhere it prints a line for each crate. Below a step's line it prints each case that failed in it. What
failed is printed at the end, too, each with the command that repeats it alone. The last line is 'N passed, M failed'. All that the steps
print is kept in out/gate-test.log, out/gate-edits.log or out/gate-check.log.

`check` leaves out what the computer lacks, and `test` the steps that need a C compiler. They name that before the last line, which is
then 'N passed, M failed, K skipped'. With NOTHING_LEFT_OUT=1 in the environment, what was left out for want of a package that Debian has
counts as failed.

On a computer that has run none of it all is proved from nothing. What an earlier run there has proved, of the same files, is taken from
it if the kit keeps that, but with --anew. Of the edits those are tried whose refusal the record doesn't have, and a tenth of the others
(checks/edits.py); with --all it is each. `edits` and `check` may run side by side.

out/gate.tsv has a line for each step of these commands: the command, the kind, the crate or the step, when it started, its wall
seconds and its processor seconds, and of a step how much passed and failed. Those of a crate are read off /proc once a second, so
they are a second or two short; the sum at the end is the system's own.
"""
from __future__ import annotations

import argparse
import collections
import concurrent.futures
import contextlib
import fcntl
import os
import pathlib
import re
import resource
import shutil
import signal
import subprocess
import sys
import threading
import time
import typing
from collections.abc import Mapping, Sequence
from typing import TextIO

import checks_path  # noqa: F401
from common import proved
from common.kit import load_kit
from common.lanes import lanes
from harness import FAILED_CASE, TOP, close, counts_of

TABLE = TOP / "out/gate.tsv"
HEAD = ["command", "kind", "name", "start", "wall", "processor", "passed", "failed", "skipped"]
PROGRAM = "crates/pageshare/out/pageshare"


class Work(typing.NamedTuple):
    """A step of a command: the words that run it, an option of the command that it takes, after how many seconds it is ended, if at all,
    and its lane. Steps without a lane come first, one by one; then lanes run side by side, each with its steps one by one."""

    name: str
    words: list[str]
    takes: str = ""
    seconds: typing.Optional[int] = None
    lane: str = ""


LIBRARY = "out/libpageshare.a"
COMMANDS = {
    "packages": [Work("packages", ["tools/packages.py"], seconds=1200)],
    "test": [
        Work("rt ci", ["tools/ci.py"], takes="--anew"),
        Work("runs", ["checks/quick.py", PROGRAM], lane="program"),
        Work("libraries of C", ["tools/build.py", "--libraries"], lane="libraries"),
        Work("frames of C", ["checks/frames.py"], lane="libraries"),
        Work("rows", ["checks/rows.py"], lane="libraries"),
        Work("harness", ["checks/harness_test.py"], lane="texts"),
        Work("benches", ["checks/benches_test.py"], lane="texts"),
        Work("documents", ["checks/names.py"], lane="texts"),
        Work("limits", ["checks/limits.py"], lane="texts"),
        Work("structs of C", ["checks/structs.py"], lane="texts"),
        Work("map of crates", ["tools/map.py", "--check"], lane="texts"),
    ],
    "edits": [Work("edits' test", ["checks/edits_test.py"]), Work("edits", ["checks/edits.py"], takes="--all")],
    # (the proofs come from `make test`; alone the first step may take as long as that. What runs beside others measures no time, but for the
    # last cases of the host. The first lanes are the longest, since as many run at a time as there are processors.)
    "check": [
        Work("products", ["tools/build.py", "--products", "x86-64-v2"]),
        Work("made", ["checks/builds.py", "made"], seconds=600),
        Work("host", ["checks/host.py", "--gate"], seconds=2400, lane="host"),
        Work("products for x86-64-v3", ["tools/build.py", "--products", "x86-64-v3"], lane="v3"),
        Work("made for x86-64-v3", ["checks/builds.py", "made-v3"], seconds=600, lane="v3"),
        Work("installed", ["checks/package.py", "--installed"], seconds=1200, lane="v3"),
        Work("windows", ["checks/windows.py", LIBRARY, "5"], seconds=1200, lane="windows"),
        Work("monitor", ["checks/guests.py", LIBRARY, "0"], seconds=300, lane="windows"),
        Work("library", ["checks/embed.sh", LIBRARY], seconds=1800, lane="library"),
        Work("journals", ["checks/embed.py", "100"], seconds=900, lane="library"),
        Work("fleet", ["checks/fleet.py"], seconds=1200, lane="library"),
        Work("python", ["checks/python.py"], seconds=900, lane="library"),
        Work("builds", ["checks/builds.py", "sources", "headers", "benches"], seconds=1200, lane="library"),
    ],
}
# What each command takes from nothing, in processor minutes, on processors of 2.5 GHz; `check` after `make test`.
MINUTES = {"packages": 2, "test": 170, "edits": 20, "check": 35}
TICKS = os.sysconf("SC_CLK_TCK")
# How much of a line of a step is printed where no terminal shows it; its log has it whole.
LINE = 120
# The steps of which it is counted how far they are; of the others the last line is shown.
COUNTED = ("rt ci", "edits")
# What the steps say of a crate that is done, of one that failed, and of each name that failed at the end.
DONE = re.compile(r"^rt: (\w+) (?:proved$|is kept)")
TESTED = re.compile(r"^rt: (\w+): its tests are proved$")
TRIED = re.compile(r"^edit (\w+)/")
TRYING = re.compile(r"^trying (\d+) of \d+ edits")
SECTION = re.compile(r"^== (\w+)")
FAILED = re.compile(r"^rt: FAILED: (.*)$")
FAILED_EDIT = re.compile(r"^FAILED: (?:edit )?(\w+)[/:]")


class Step:
    """What is known of one step: when it was first and last seen, and the processor seconds of each of its processes."""

    def __init__(self, start: float) -> None:
        self.start, self.end = start, start
        self.used: dict[tuple[str, str], float] = {}

    def row(self, begun: float) -> list[str]:
        return [f"{self.start - begun:.0f}", f"{self.end - self.start:.0f}", f"{sum(self.used.values()):.0f}", "", "", ""]


class Watch(threading.Thread):
    """Looks once a second at which crates the prover works on."""

    def __init__(self) -> None:
        super().__init__(daemon=True)
        self.phase, self.is_over = "", threading.Event()
        self.steps: dict[tuple[str, str], Step] = {}

    def run(self) -> None:
        while not self.is_over.wait(1):
            for entry in os.scandir("/proc"):
                if entry.name.isdigit():
                    self.look_at(entry.name)

    def look_at(self, process: str) -> None:
        try:
            words = pathlib.Path(f"/proc/{process}/cmdline").read_bytes().decode(errors="replace").split("\0")
            if not words[0].endswith("/rattle") or "--crate-name" not in words:
                return
            folder = os.readlink(f"/proc/{process}/cwd")
            numbers = pathlib.Path(f"/proc/{process}/stat").read_text().rpartition(")")[2].split()
        except OSError:
            return
        if not folder.startswith(f"{TOP}/") and "/rt-edit-" not in folder:
            return
        crate = words[words.index("--crate-name") + 1]
        step = self.steps.setdefault((self.kind_of(words, folder), crate), Step(time.time()))
        step.end = time.time()
        step.used[process, numbers[19]] = (int(numbers[11]) + int(numbers[12])) / TICKS

    def kind_of(self, words: Sequence[str], folder: str) -> str:
        if "/rt-edit-" in folder:
            return "must-fail" if self.phase == "rt ci" else self.phase
        return "tests" if "--test" in words else "proof"


class Progress:
    """Shows how far a step is, and keeps what it said of failures."""

    def __init__(self, name: str, log: TextIO) -> None:
        self.name, self.log, self.begun = name, log, time.time()
        self.proved: set[str] = set()
        self.tested: set[str] = set()
        self.edits = self.of_edits = 0
        self.crates = sum(":" in line.partition("#")[0] for line in (TOP / "crates.txt").read_text().splitlines())
        self.is_drawn = sys.stdout.isatty()
        self.section: list[str] = []
        self.sections: dict[str, list[str]] = {}
        self.last: list[str] = []
        self.wrong: list[str] = []
        self.cases: list[str] = []
        self.left_out: list[str] = []

    def hear(self, line: str) -> None:
        """Takes a line that the step printed."""
        print(line, file=self.log, flush=True)
        self.last = [*self.last[-29:], line]
        self.note_section(line)
        for found, heard, what in ((DONE.match(line), self.proved, ""), (TESTED.match(line), self.tested, ": its tests")):
            if found:
                heard.add(found[1])
                self.show(f"{found[1]}{what} {'kept from an earlier run' if 'is kept' in line else 'proved'}")
        if line.startswith("left out: "):
            self.left_out.append(f"{self.name}: {line}")
        if line.startswith(FAILED_CASE):
            self.cases.append(line)
        if self.is_drawn and self.name not in COUNTED:
            self.show(line)
        if found := TRYING.match(line):
            self.of_edits = int(found[1])
        if TRIED.match(line):
            self.edits += 1
            self.show(line if not self.is_drawn else "")
        elif failed := FAILED.match(line):
            self.wrong += re.split(r"\s(?!\()", failed[1])
        elif failed := FAILED_EDIT.match(line):
            self.wrong.append(failed[1])

    def note_section(self, line: str) -> None:
        """Keeps what `rt ci` printed of each crate, until its next one."""
        found = SECTION.match(line)
        if found:
            self.section = self.sections.setdefault(found[1], [])
        self.section.append(line)

    def show(self, what: str) -> None:
        """Says how far the step is: in a line that is redrawn on a terminal, and in one for each crate or edit elsewhere."""
        if self.name == "edits":
            far = f"{self.edits} of {self.of_edits} edits"
        elif self.name not in COUNTED:
            far = what[:60]
        else:
            far = f"{len(self.proved)} of {self.crates} crates, tests of {len(self.tested)}"
        if self.is_drawn:
            print(f"\r\x1b[K{self.name}: {far}, {time.time() - self.begun:.0f} s", end="", flush=True)
        else:
            print(f"{self.name}: {far}: {what[:LINE]}", flush=True)

    def end(self) -> None:
        if self.is_drawn:
            print("\r\x1b[K", end="")

    def failures(self, words: Sequence[str]) -> list[str]:
        """What to print of what failed: of each crate its last lines and the command that repeats it; else the step's own."""
        lines: list[str] = []
        for name in dict.fromkeys(found[0] for found in (re.match(r"\w+", it) for it in self.wrong) if found):
            lines += [f"-- {it}" for it in self.sections.get(name, [])[-30:]] if self.name == "rt ci" else []
            lines.append(f"FAILED: {name}: repeat it by `{'tools/prove.py' if self.name == 'rt ci' else 'checks/edits.py'} {name}`")
        return lines or [f"-- {it}" for it in self.last] + [f"FAILED: {self.name}: repeat it by `{' '.join(words)}`"]


def wait_for(ran: subprocess.Popen[str]) -> float:
    """Waits until a process has ended. Returns the processor seconds of it and of those that it waited for."""
    _, status, used = os.wait4(ran.pid, 0)
    ran.returncode = os.waitstatus_to_exitcode(status)
    return float(used.ru_utime + used.ru_stime)


def used_so_far() -> float:
    used = resource.getrusage(resource.RUSAGE_CHILDREN)
    return used.ru_utime + used.ru_stime


def end_group(ran: subprocess.Popen[str]) -> None:
    """Ends a step with all that it started: kindly, and then at once."""
    for number, seconds in ((signal.SIGTERM, 10), (signal.SIGKILL, 0)):
        with contextlib.suppress(ProcessLookupError):
            os.killpg(ran.pid, number)
        time.sleep(seconds)


def run_step(work: Work, words: Sequence[str], log: TextIO) -> tuple[tuple[int, int, int], Progress, float]:
    """Runs a step by these words. Returns how many passed, failed and were skipped by its last line; what was heard of it; and the
    processor seconds that it used."""
    counts, progress = None, Progress(work.name, log)
    how: dict[str, typing.Any] = {"stdin": subprocess.DEVNULL, "stdout": subprocess.PIPE, "stderr": subprocess.STDOUT, "text": True}
    how |= {"errors": "replace", "cwd": TOP, "env": {**os.environ, "RT_JOBS": str(lanes())}, "start_new_session": work.seconds is not None}
    with subprocess.Popen(words, **how) as ran:
        clock = threading.Timer(work.seconds or 0, end_group, [ran])
        if work.seconds:
            clock.start()
        try:
            for line in ran.stdout or []:
                counts = counts_of(line) or counts
                progress.hear(line.rstrip("\n"))
        except BaseException:
            if work.seconds:
                end_group(ran)
            raise
        finally:
            clock.cancel()
        used = wait_for(ran)
    progress.end()
    passed, failed, skipped = counts or (0, 1, 0)
    # (programs that a step runs may leave out something of their own)
    return (passed, max(failed, int(ran.returncode != 0)), max(skipped, len(progress.left_out))), progress, used


def remove_libraries() -> None:
    """Removes what earlier checks built, which `rt ci` would else put back in the place of the libraries that edits are tried over."""
    for built in TOP.glob("crates/*/out/rlib"):
        shutil.rmtree(built)


def read_table() -> list[list[str]]:
    lines = TABLE.read_text().splitlines()[1:] if TABLE.exists() else []
    return [row for row in (line.split("\t") for line in lines) if len(row) == len(HEAD)]


def write_table(command: str, begun: float, rows: list[list[str]], steps: Mapping[tuple[str, str], Step]) -> None:
    """Writes this command's rows in the place of those that an earlier run of it wrote. (Another command may do the same meanwhile.)"""
    own = [*rows, *([command, *key, *step.row(begun)] for key, step in sorted(steps.items()))]
    with open(TABLE.with_suffix(".lock"), "w", encoding="utf-8") as lock:
        fcntl.flock(lock, fcntl.LOCK_EX)
        others = [row for row in read_table() if row[0] != command]
        TABLE.write_text("".join("\t".join(it) + "\n" for it in [HEAD, *others, *own]))


def failed_file(command: str) -> pathlib.Path:
    """Where a command leaves what failed in it and what it left out."""
    return TABLE.with_name(f"gate-{command}.failed")


def words_of(work: Work, options: Sequence[str], keeps: bool) -> list[str]:
    """The words of a step, with the option of its command that it takes. (A kit that keeps nothing has no word for `--anew`.)"""
    return [*work.words, *(it for it in options if it == work.takes and (keeps or it != "--anew"))]


class Run:
    """What is known of a run of a command: when it began, the rows of its steps, and what they said."""

    def __init__(self, command: str, options: Sequence[str], log: TextIO) -> None:
        self.command, self.options, self.log = command, options, log
        self.begun, self.watch, self.kit = time.time(), Watch(), load_kit()
        self.rests = proved.sums_now(self.kit)
        self.rows: list[list[str]] = []
        self.sums = [0, 0, 0]
        self.failures: list[str] = []
        self.left_out: list[str] = []
        self.lock = threading.Lock()

    def run(self, work: Work) -> None:
        """Runs a step, and notes what came of it."""
        self.watch.phase, start = work.name, time.time()
        words = words_of(work, self.options, proved.keeps(self.kit))
        counts, heard, used = run_step(work, words, self.log)
        proved.note_all(self.kit, heard.proved, self.rests)
        wall = time.time() - start
        with self.lock:
            self.sums = [sum(pair) for pair in zip(self.sums, counts)]
            self.failures += [*heard.cases, *heard.failures(words)] if counts[1] else []
            self.left_out += heard.left_out
            self.rows.append([self.command, "step", work.name, f"{start - self.begun:.0f}", f"{wall:.0f}", f"{used:.0f}", *map(str, counts)])
            print(f"{work.name}: {counts[0]} passed and {counts[1]} failed in {wall:.0f} s", *heard.cases, sep="\n", flush=True)
            # (once a step has ended, or beside one that runs no prover, nothing is put into the steps)
            write_table(self.command, self.begun, self.rows, self.watch.steps)

    def run_each(self, works: Sequence[Work]) -> None:
        for work in works:
            self.run(work)

    def run_all(self) -> None:
        """Runs the steps that have no lane one after another, and then the lanes side by side."""
        works = COMMANDS[self.command]
        self.run_each([it for it in works if not it.lane])
        names = dict.fromkeys(it.lane for it in works if it.lane)
        with concurrent.futures.ThreadPoolExecutor(len(os.sched_getaffinity(0))) as pool:
            for ran in [pool.submit(self.run_each, [it for it in works if it.lane == name]) for name in names]:
                ran.result()


def run_command(command: str, options: Sequence[str]) -> int:
    minutes = MINUTES[command]
    print(f"make {command}: from nothing this takes some {minutes} processor minutes, {minutes / lanes():.0f} minutes here")
    if command == "test":
        remove_libraries()
    TABLE.parent.mkdir(exist_ok=True)
    with open(TABLE.parent / f"gate-{command}.log", "w", encoding="utf-8") as log:
        run = Run(command, options, log)
        run.watch.start()
        run.run_all()
    run.watch.is_over.set()
    run.watch.join()
    print(f"make {command} took {time.time() - run.begun:.0f} s, and {used_so_far() / 60:.0f} processor minutes")
    ends = "".join(f"{it}\n" for it in [*run.left_out, *run.failures])
    failed_file(command).write_text(ends)
    print(ends, end="")
    return close(run.sums[0], run.sums[1], run.sums[2] if command == "check" else run.sums[2] or None)


def show() -> list[list[str]]:
    rows = read_table()
    dearest = sorted((it for it in rows if it[1] != "step"), key=lambda it: -int(it[5]))[:10]
    kinds: collections.Counter[str] = collections.Counter()
    for row in rows:
        kinds[row[1]] += int(row[5])
    print("the ten dearest (command, kind, name, start, wall and processor seconds):")
    for row in dearest:
        print("  {:6} {:10} {:20} {:>6} {:>6} {:>6}".format(*row[:6]))
    for kind, used in kinds.most_common():
        if kind != "step":
            print(f"  all of {kind}: {used} processor seconds")
    return [row for row in rows if row[1] == "step"]


def show_sum() -> int:
    """Prints what all commands took and did. A step that didn't run has failed."""
    steps = show()
    passed, failed, skipped = (sum(int(row[at]) for row in steps) for at in (6, 7, 8))
    wanted = {(command, work.name) for command, of in COMMANDS.items() for work in of}
    lacking = wanted - {(row[0], row[2]) for row in steps}
    for command in COMMANDS:
        if failed_file(command).exists():
            print(failed_file(command).read_text(), end="")
    for command, name in sorted(lacking):
        print(f"FAILED: {name} of `make {command}` didn't run")
    return close(passed, failed + len(lacking), skipped)


def main() -> int:
    options = argparse.ArgumentParser(description=__doc__.splitlines()[0])
    options.add_argument("command", nargs="?", choices=[*COMMANDS, "sum"])
    options.add_argument("--anew", action="store_true", help="prove all from nothing")
    options.add_argument("--all", action="store_true", help="try every edit, whatever the record has")
    given = options.parse_args()
    if given.anew and given.command != "test" or given.all and given.command != "edits":
        options.error("--anew goes with test, and --all with edits")
    if given.command in COMMANDS:
        return run_command(given.command, ["--anew"] * given.anew + ["--all"] * given.all)
    if given.command == "sum":
        return show_sum()
    show()
    return 0


if __name__ == "__main__":
    sys.exit(main())
