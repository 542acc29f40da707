#!/usr/bin/env python3
"""Times the proved programs beside plain Rust, in turns, and prints one table.

    benches/bench.py [--crates FOLDER] [--turns N] [--quick] [--only WORD] [--table FILE] [--instructions]

The proved programs are those in out/: pageshare (`make build`) and page_bench (`make out/page_bench`).
Where their builds for x86-64-v3 are there too (`make bench-v3`) and the processor is of that level, replays, hashes and runs are
timed with these as well, beside opponents that are built for it. The opponents are the
Cargo package benches/, which is copied to out/bench and built there. --crates names a folder with the sources of its
crates, as Debian's packages librust-hex-dev, librust-rayon-dev, librust-sha2-dev and librust-slab-dev leave it at
/usr/share/cargo/registry; without it cargo looks for them as it is set up to. The opponents hash in software, as the proved
programs must, unless --instructions is given: the kit has no way to a processor's SHA instructions. Where cargo or a crate isn't at
hand the table says so, and shows our side alone. Standard library only; nothing else may run on the computer meanwhile.

Each measure is made in turns, ours and theirs, --turns times; the table has the least and the middle of each, and the
ratio of the least ones. The last lines name each ratio above its goal, and the status is then 1. --table writes the
table as lines of words parted by tabs, from which benches/plots.py draws docs/*.svg.
"""
from __future__ import annotations

import argparse
import functools
import os
import pathlib
import random
import re
import shutil
import statistics
import subprocess
import sys
import time
from collections.abc import Callable, Iterable, Iterator, Mapping, Sequence
from typing import Any, TypeVar, Union

import checks_path  # noqa: F401
from common.benches import ROOM, different, journal, output, scanned, seconds
from harness import OUT, TOP, StrPath

# A row of the table: a name, the unit, the goal of the ratio or None, and the times of both sides.
Row = tuple[str, str, Union[float, None], list[float], list[float]]
T = TypeVar("T")
GROWTH = [10_000, 30_000, 100_000, 300_000, 1_000_000]
GUESTS = [1, 2, 4, 8, 64]


def in_turn(pages: int, content: Callable[[int], str]) -> Iterator[str]:
    """Each page is proposed just after it was stored to, so that no hash can be computed ahead."""
    for ppn in range(pages):
        yield f"store {ppn} 0 {content(ppn)}"
        yield f"propose {ppn}"


def equal(_: int) -> str:
    return "41"


def stores_and_loads(count: int, pages: int) -> Iterator[str]:
    """Stores and loads of 32 bytes, half and half, at random places of random pages."""
    dice = random.Random(7)
    for _ in range(count):
        ppn, at = dice.randrange(pages), dice.randrange(4064)
        if dice.random() < 0.5:
            yield f"store {ppn} {at} {dice.getrandbits(256):064x}"
        else:
            yield f"load {ppn} {at} 32"


# The features of x86-64-v3 beyond x86-64-v2, as /proc/cpuinfo has them.
V3 = {"avx", "avx2", "bmi1", "bmi2", "f16c", "fma", "abm", "movbe", "xsave"}


class Level:
    """A processor level that programs are built for: what their names and their rows end with, and the parts' names.

    `theirs` is the folder of the opponents' programs, or None."""

    def __init__(self, cpu: str, suffix: str, shown: str, wide: str) -> None:
        self.cpu, self.suffix, self.shown, self.wide = cpu, suffix, shown, wide
        self.theirs: str | None = None

    def ours(self, program: str) -> str:
        return os.path.join(OUT, program + self.suffix)


V2_LEVEL = Level("x86-64-v2", "", "", "")
V3_LEVEL = Level("x86-64-v3", "-v3", " (v3)", "wide-")


def has_v3() -> bool:
    """Whether all programs for x86-64-v3 were built, and this processor runs them."""
    with open("/proc/cpuinfo", encoding="ascii") as lines:
        flags: set[str] = next((set(line.split()) for line in lines if line.startswith("flags")), set())
    return V3 <= flags and all(os.path.exists(V3_LEVEL.ours(name)) for name in ("pageshare", "page_bench"))


def build_opponents(crates: str | None, instructions: bool, cpu: str) -> tuple[str | None, str | None]:
    """Builds benches/ in out/bench for a processor level, and answers its folder of programs, or why there is none."""
    if not shutil.which("cargo"):
        return None, "there is no cargo"
    source = os.path.join(ROOM, "opponents")
    shutil.rmtree(source, ignore_errors=True)
    shutil.copytree(os.path.join(TOP, "benches"), source)
    target = os.path.join(ROOM, f"target-{cpu}")
    command = ["cargo", "build", "--release", "--quiet", "--target-dir", target]
    if not instructions:
        command += ["--features", "soft"]
    if crates:
        command += ["--offline", "--config", 'source.crates-io.replace-with="at-hand"']
        command += ["--config", f'source.at-hand.directory="{crates}"']
    setting = os.environ | {"RUSTFLAGS": f"-C target-cpu={cpu}"}
    done = subprocess.run(command, cwd=source, env=setting, capture_output=True, text=True, check=False)
    if done.returncode != 0:
        return None, "cargo: " + (done.stderr.strip().splitlines() or ["failed"])[-1]
    return os.path.join(target, "release"), None


def figures_of(program: str, words: Sequence[str]) -> dict[str, float]:
    """The figures that a benchmark prints, by their names. Of those with one name the least counts."""
    text = subprocess.run([program, *words], capture_output=True, text=True, check=True, timeout=900).stdout
    figures: dict[str, float] = {}
    for line in text.splitlines():
        if found := re.fullmatch(r"(.+): (\d+) in (\d+) ns", line):
            if found[2] == "0":
                sys.exit(f"{program} {' '.join(words)}: {line}")
            figure = float(found[3]) / float(found[2])
            figures[found[1]] = min(figure, figures.get(found[1], figure))
        elif found := re.fullmatch(r"ns a round trip: (\d+) on one thread, (\d+) between two", line):
            figures["on one thread"], figures["between two"] = float(found[1]), float(found[2])
        elif found := re.fullmatch(r"(\d+ guests, [^:]+): (\d+) a second", line):
            figures[found[1]] = 1e9 / max(1.0, float(found[2]))
        elif found := re.fullmatch(r"(.+): (\d+)( ns a page)?", line):
            figures[found[1]] = float(found[2])
    return figures


class Table:
    """The rows: a name, the unit, the goal of the ratio or None, and the times of both sides."""

    def __init__(self, turns: int) -> None:
        self.turns = turns
        self.rows: list[Row] = []

    def add(self, name: str, unit: str, goal: float | None, ours: list[float], theirs: list[float]) -> None:
        self.rows.append((name, unit, goal, ours, theirs))
        print(self.line(self.rows[-1]), flush=True)

    def in_turns(self, ours: Callable[[], T], theirs: Callable[[], T] | None) -> tuple[list[T], list[T]]:
        mine, others = [], []
        for _ in range(self.turns):
            mine.append(ours())
            if theirs:
                others.append(theirs())
        return mine, others

    @staticmethod
    def line(row: Row) -> str:
        name, unit, goal, ours, theirs = row
        text = f"{name:<50} {min(ours):>10.1f} {statistics.median(ours):>10.1f}"
        if theirs:
            text += f" {min(theirs):>10.1f} {statistics.median(theirs):>10.1f} {min(ours) / min(theirs):>6.2f}"
            text += f" {goal:>5.2f}" if goal else "     -"
        return text + f"  {unit}"

    def missed(self) -> list[Row]:
        return [row for row in self.rows if row[4] and row[2] and min(row[3]) / min(row[4]) > row[2]]

    def write(self, path: str) -> None:
        with open(path, "w", encoding="utf-8") as out:
            for name, unit, _, ours, theirs in self.rows:
                out.write("\t".join([name, unit, f"{min(ours):.2f}", f"{min(theirs):.2f}" if theirs else "-"]) + "\n")


def program_of(folder: str | None, name: str) -> str | None:
    """A program of the opponents', or None where there are none."""
    return os.path.join(folder, name) if folder else None


def timed(program: str, words: Sequence[str], path: StrPath) -> Callable[[], float]:
    """What times a program with a file as its input, in milliseconds."""
    return lambda: 1e3 * seconds(program, words, path)


def replays(table: Table, level: Level, quick: bool) -> None:
    pageshare, is_v3 = level.ours("pageshare"), level is V3_LEVEL
    part = 10 if quick else 1
    scans = journal("different", 30_000, 30_000, scanned(30_000 // part, different))
    journals: list[tuple[str, float | None, pathlib.Path]] = [
        ("replay: 30,000 different contents", 0.32 if is_v3 else 0.45, scans),
        ("replay: 70,000 equal pages", 0.3 if is_v3 else 0.5, journal("equal", 70_000, 70_000, scanned(70_000 // part, equal))),
        ("replay: 30,000 different, in turn", 1.0, journal("different-in-turn", 30_000, 30_000, in_turn(30_000 // part, different))),
        ("replay: 70,000 equal, in turn", 1.0, journal("equal-in-turn", 70_000, 70_000, in_turn(70_000 // part, equal))),
        ("replay: 500,000 stores and loads", 0.9, journal("stores", 20_000, 20_000, stores_and_loads(500_000 // part, 20_000))),
    ]
    for count in GROWTH[: 2 if quick else None]:
        requests = stores_and_loads(count, 2_000)
        journals.append((f"replay: {count:,} requests", None, journal(f"growth-{count}", 2_000, 2_000, requests)))
    for name, goal, path in journals:
        other = program_of(level.theirs, "replay")
        if other and output(pageshare, ["replay"], path) != output(other, [], path):
            sys.exit(f"{name}: the two programs print different verdicts")
        rows = table.in_turns(timed(pageshare, ["replay"], path), timed(other, [], path) if other else None)
        table.add(name + level.shown, "ms", goal, *rows)
    by_hand(table, level, journals[4][2])


def by_hand(table: Table, level: Level, path: StrPath) -> None:
    """The stores and loads once more, beside Rust that reads and prints the text by hand."""
    pageshare, theirs = level.ours("pageshare"), level.theirs
    other = program_of(theirs, "replay_by_hand")
    if other and output(pageshare, ["replay"], path) != output(other, [], path):
        sys.exit("by hand: the two programs print different verdicts")
    rows = table.in_turns(timed(pageshare, ["replay"], path), timed(other, [], path) if other else None)
    table.add("replay: the same stores and loads, by hand" + level.shown, "ms", 1.25, *rows)


def image(name: str, seed: int, pages: int) -> str:
    """Writes a raw image of so many pages, and answers where it is: 7 in 10 are zeros, and half of the rest stand in each
    image alike."""
    path = os.path.join(ROOM, name + ".raw")
    own, common = random.Random(seed), random.Random(0)
    with open(path, "wb") as out:
        for n in range(pages):
            if n % 10 < 7:
                out.write(bytes(4096))
            else:
                out.write((own if n % 2 else common).randbytes(4096))
    return path


def estimates(table: Table, theirs: str | None, quick: bool) -> None:
    pageshare = V2_LEVEL.ours("pageshare")
    pages = 4096 if quick else 65_536
    images = [image(f"image-{n}", n, pages) for n in range(1, 5)]
    python = [sys.executable, os.path.join(TOP, "benches", "estimate.py")]
    rust = [os.path.join(theirs, "estimate")] if theirs else None
    opponents = [("Python", python, {1: None, 4: 0.2})] + ([("Rust", rust, {1: 1.2, 4: 0.35})] if rust else [])
    for count in (2, 4):
        for workers in (1, 4):
            ours = [pageshare, "estimate", "--progress", "never", "--workers", str(workers), *images[:count]]
            for name, other, goals in opponents:
                rows = table.in_turns(lambda: run_time(ours), lambda: run_time(other + images[:count]))
                label = f"estimate: {count} images, {workers} worker{'s' if workers > 1 else ''}, by {name}"
                table.add(label, "ms", goals[workers] if count == 2 else None, *rows)


def run_time(command: Sequence[str]) -> float:
    start = time.perf_counter()
    subprocess.run(command, stdout=subprocess.DEVNULL, check=True)
    return 1e3 * (time.perf_counter() - start)


def counted(
    table: Table, level: Level, program: str, part: str, opponent: str, words: Sequence[str], goals: Mapping[str, float | None],
    own: Iterable[tuple[str, Any, str, float]] = (),
) -> None:
    """The figures that a part of a benchmark and its opponent print, and of its own those that stand beside one another."""
    ours, theirs = level.ours(program), level.theirs
    other = program_of(theirs, opponent)
    figures = functools.partial(figures_of, other, words) if other else None
    mine, others = table.in_turns(lambda: figures_of(ours, [part, *words]), figures)
    for figure in mine[0]:
        same = "one by one" if figure in ("four at once", "eight at once", "one worker") else figure
        rest = [turn[same] for turn in others] if others and same in others[0] else []
        goal = goals.get(figure, goals.get(""))
        table.add(f"{part}: {figure}{level.shown}", "ns", goal, [turn[figure] for turn in mine], rest)
    for figure, beside, shown, goal in own:
        both = [[turn[one] if one in turn else one for turn in mine] for one in (figure, beside)]
        table.add(f"{part}: {figure}, beside {shown}{level.shown}", "ns", goal, *both)


# What a run in threads has to beat: the same requests through a core on one thread.
MIX = "guests, a proposal in 16"
THREADS = [(f"{n} {MIX}", f"{n} {MIX}, one thread", "one thread", 1.0) for n in GUESTS]

# The largest machine is to be made in 50 ms.
LARGEST = [("the largest machine", 50e6, "50 ms", 1.0)]

# Four workers are to have 3.3 times the rate of one.
WORKERS = [("four workers", "one worker", "one worker", 0.30)]


# The parts whose times the processor level changes.
BY_LEVEL = {"replay", "hash", "run"}


def hashes(table: Table, level: Level) -> None:
    """Pages hashed; on x86-64-v3 by the hash type for its vectors, of which one worker is to take a fifth of Rust's time."""
    goals = {"": 1.0, "one worker": 0.20} if level is V3_LEVEL else {"": 1.0}
    counted(table, level, "page_bench", level.wide + "hash", "hashing", ["2000"], goals, WORKERS)


def main() -> None:
    parser = argparse.ArgumentParser(description="Times the proved programs beside plain Rust.")
    parser.add_argument("--crates", default=os.environ.get("CRATES"))
    parser.add_argument("--turns", type=int, default=7)
    parser.add_argument("--quick", action="store_true", help="few turns of little work, to try the script")
    parser.add_argument("--only", default="", help="the parts whose names have this word")
    parser.add_argument("--table", help="a file for the figures")
    parser.add_argument("--instructions", action="store_true", help="let the opponents use the processor's SHA instructions")
    asked = parser.parse_args()
    ROOM.mkdir(parents=True, exist_ok=True)
    levels = [V2_LEVEL, V3_LEVEL] if has_v3() else [V2_LEVEL]
    for level in levels:
        level.theirs, why = build_opponents(asked.crates, asked.instructions, level.cpu)
        if why:
            print(f"No opponents: {why}. Our side alone follows.")
    if V3_LEVEL not in levels:
        print("x86-64-v3 is left out: its builds aren't in out/, or this processor lacks it.")
    print(f"{'':<50} {'ours least':>10} {'middle':>10} {'Rust least':>10} {'middle':>10} {'ratio':>6} {'goal':>5}")
    table = Table(2 if asked.quick else asked.turns)
    size = str(20_000 if asked.quick else 200_000)
    requests = str(2_000 if asked.quick else 20_000)
    parts: dict[str, Callable[[Level], None]] = {
        "replay": lambda level: replays(table, level, asked.quick),
        "frames": lambda level: counted(table, level, "page_bench", "frames", "frames", [size], {"": 1.2, "give_back": None}),
        "table": lambda level: counted(table, level, "page_bench", "table", "table", [size], {"": 1.2}),
        "rings": lambda level: counted(table, level, "page_bench", "rings", "rings", [size], {"": 1.2, "between two": None}),
        "hash": lambda level: hashes(table, level),
        "estimate": lambda level: estimates(table, level.theirs, asked.quick),
        "run": lambda level: counted(table, level, "page_bench", level.wide + "run", "runs", [requests], {"": 1.0}, LARGEST + THREADS),
    }
    for name, part in parts.items():
        if asked.only in name:
            for level in levels if name in BY_LEVEL else [V2_LEVEL]:
                part(level)
    if asked.table:
        table.write(asked.table)
    for name, _, goal, ours, others in table.missed():
        print(f"above its goal: {name}: {min(ours) / min(others):.2f}, and {goal:.2f} is wanted")
    sys.exit(1 if table.missed() else 0)


if __name__ == "__main__":
    main()
