#!/usr/bin/env python3
"""Compares the numbers of fleets, computed in three ways, with a plain count (common/plain_fleet.py).

    checks/fleet.py [SEED [PROGRAM]]

The ways: `pageshare fleet`, fleet/fleet_dask.py by a scheduler and two workers as processes of their own on the loopback, and
fleet/fleet.sql in SQLite. PROGRAM is by default out/pageshare (`make build`); where it has no `digest` or `fleet`, or where Dask's
packages aren't at hand, the cases of these are left out, and the output says so. Nothing is built here.

The cases, which follow from SEED, by default 1: random fleets with several salts, samples and digests without lines, and what each
two of their guests have in common (`fleet --pairs`), by host, and with lists of hosts; plans for fleets of up to 8 guests
(fleet/place.py): what must hold, the frames, the moves, that for four of five no other move saves more, and what `fleet --hosts`
counts of them; 200 digests at once, whole and sampled, and their pairs; broken digests, each with its first line at fault; that at
least 90 of 100 true numbers of 200 random fleets lie within two standard errors of what one
content in 16 gives; the example fleet's digests beside its images; random images through `digest` and `fleet` beside `estimate`;
and the memory that `fleet` takes for 5 million lines. Prints what went wrong, and at the end `N passed, M failed` (status 0 where
all passed, else 1).
"""
from __future__ import annotations

import argparse
import collections
import contextlib
import json
import pathlib
import random
import re
import subprocess
import sys
import time
from collections.abc import Callable, Iterable, Iterator, Sequence
from typing import Any

from common import plain_fleet, plain_place, plain_table
from common.plain_images import pages_of_bytes, pages_of_image
from common.random_images import random_image
from harness import PROGRAM, TOP, Done, LeftOut, Tally, new_folder, run, wrong_end

sys.path.insert(0, str(TOP / "examples"))
import make_fleet  # noqa: E402

FLEET = TOP / "fleet"
SECONDS = 300
# What must hold of a placement; and a fleet's sample, the texts of its digests, and what is due of them.
Rule = Callable[[plain_place.Place], bool]
Fleet = tuple[int, list[str], plain_fleet.Numbers]
MOST_MEMORY = 64 << 20
BIG_LINES = 5_000_000
# So many small fleets are planned for, and at least so many have a plan.
PLANNED, LEAST_PLANNED = 40, 25
# What each cause is called in sentences.
CAUSES = {
    "form": "give six fields of their form", "head": "begin with the line", "guest": "repeat the guest", "order": "give each digest once",
    "sample": "only digests that the sample keeps", "total": "as many copies as there are pages",
}

# A program that reads digests as Dask's workers do, and prints each one's fault.
READ = """
import sys, digests, tallies
for path in sys.argv[1:]:
    try:
        print(len(tallies.frame_of(0, path)))
    except digests.Fault as fault:
        print(fault)
"""

# A small program that runs another one, and prints on standard error its status and the most memory that it held, in KiB. The system
# counts for a process what the one that started it held, which is little here.
MEASURE = """
import os, sys
_pid, status, used = os.wait4(os.posix_spawn(sys.argv[1], sys.argv[1:], os.environ), 0)
print(os.waitstatus_to_exitcode(status), used.ru_maxrss, file=sys.stderr)
"""


class Ways:
    """What computes the numbers of digests: each way's name, and the words that the paths come after."""

    def __init__(self, program: str) -> None:
        self.program = program
        self.commands = {word for word in ("digest", "fleet", "estimate") if self.has(word)}
        self.words: dict[str, list[object]] = {"fleet.sql": [sys.executable, FLEET / "fleet_sqlite.py"]}
        if "fleet" in self.commands:
            self.words["pageshare fleet"] = [program, "fleet", "--json"]

    def has(self, command: str) -> bool:
        """Whether the program has this command."""
        try:
            return run([self.program, command, "--help"]).returncode == 0
        except OSError:
            return False


def ran(words: Iterable[object], **how: Any) -> Done:
    """How a way ends."""
    return run(words, seconds=SECONDS, **how)


def written(folder: pathlib.Path, texts: Sequence[str]) -> list[pathlib.Path]:
    """The texts as files, and their paths."""
    paths = [folder / f"{number}.csv" for number in range(len(texts))]
    for path, text in zip(paths, texts):
        path.write_text(text)
    return paths


def differences(given: Any, due: Any, name: str = "") -> Iterator[str]:
    """Where two objects differ."""
    if isinstance(due, dict) and isinstance(given, dict):
        for key in sorted(given.keys() | due.keys()):
            yield from differences(given.get(key), due.get(key), f"{name}.{key}")
    elif isinstance(due, list) and isinstance(given, list) and len(due) == len(given):
        for number, (one, other) in enumerate(zip(given, due)):
            yield from differences(one, other, f"{name}[{number}]")
    # (SQL's standard errors are computed in double precision and then rounded down)
    elif ".errors." in name and isinstance(given, int) and abs(given - due) <= 1 + due // 10**12:
        return
    elif given != due:
        yield f"{name} is {str(given)[:200]}, and {str(due)[:200]} was due"


def merge_faults(words: Sequence[object], paths: Sequence[object], due: plain_fleet.Numbers) -> Iterator[str]:
    """What is wrong with the numbers that are printed of some digests."""
    done = ran([*words, *paths])
    wrong = list(wrong_end(done, 0, None, ""))
    yield from wrong or list(differences(json.loads(done.stdout), due))[:5]


def due_of(way: str, due: plain_fleet.Numbers) -> plain_fleet.Numbers:
    """What is due of a way: SQL has no numbers by host."""
    return {name: due[name] for name in due if way != "fleet.sql" or name not in ("hosts", "on_hosts")}


def listed_faults(
    draw: random.Random, program: str, folder: pathlib.Path, paths: Sequence[pathlib.Path], texts: Sequence[str],
) -> Iterator[str]:
    """What is wrong with the numbers by host, where a list says which host some guests are on."""
    names = sorted({row[0] for text in texts for row in plain_fleet.rows_of(text)})
    listed = {name: f"rack-{draw.randrange(3)}" for name in names if draw.randrange(4)}
    path = folder / "hosts.csv"
    path.write_text("guest,host\n" + "".join(f"{name},{host}\n" for name, host in listed.items()))
    due = plain_fleet.counted(texts, listed or {"nobody": "nowhere"})
    yield from merge_faults([program, "fleet", "--json", "--hosts", path], paths, due)
    done = ran([program, "fleet", "--hosts", path, *paths])
    yield from wrong_end(done, 0, plain_table.table_text(due), "")


def table_faults(program: str, paths: Sequence[pathlib.Path], due: plain_fleet.Numbers) -> Iterator[str]:
    """What is wrong with the tables of some digests."""
    for unit in ("mib", "pages"):
        done = ran([program, "fleet", "--unit", unit, *paths])
        yield from (f"in {unit}: {what}" for what in wrong_end(done, 0, plain_table.table_text(due, unit), ""))


def pairs_faults(
    program: str, folder: pathlib.Path, paths: Sequence[pathlib.Path], texts: Sequence[str], due: plain_fleet.Numbers,
) -> Iterator[str]:
    """What is wrong with what is printed of each two of some digests, and with the numbers beside it."""
    pairs = folder / "pairs.csv"
    yield from merge_faults([program, "fleet", "--json", "--pairs", pairs], paths, due)
    lines = plain_fleet.pairs_text(texts).splitlines()
    given = pairs.read_text().splitlines() if pairs.exists() else []
    if len(given) != len(lines):
        yield f"{len(given)} lines of pairs, and {len(lines)} were due"
    yield from [f"{one!r} is printed, and {other!r} was due" for one, other in zip(given, lines) if one != other][:5]


def random_copies(draw: random.Random, pool: Sequence[str], most: int) -> dict[str, int]:
    """How many copies a guest has of some contents of the pool."""
    return {word: draw.choice([1, 1, 1, 2, 3, 50]) for word in draw.sample(pool, draw.randrange(most))}


def random_texts(draw: random.Random, count: int, sample: int, most: int) -> list[str]:
    """The digests of a random fleet: of two salts, some without zeros, and now and then one without lines."""
    pools = {salt: [draw.randbytes(16).hex() for _ in range(2 * most)] for salt in (0, 4294967295)}
    texts = []
    for number in range(count):
        salt = draw.choice([0, 0, 0, 4294967295])
        copies = random_copies(draw, pools[salt], most)
        if draw.randrange(8):
            copies[plain_fleet.digest(salt, plain_fleet.ZEROS)] = draw.choice([1, 700, 2**40])
        if draw.randrange(20) == 0:
            copies = {}
        texts.append(plain_fleet.text_of_copies(f"host{number // 8}.guest-{number % 8}_A", salt, sample, copies))
    return texts


def random_fleets(tally: Tally, draw: random.Random, ways: Ways) -> None:
    """The numbers, the pairs and the tables of random fleets, by each way that has them."""
    for number in range(20):
        sample = draw.choice([1, 1, 2, 16, 65536])
        texts = random_texts(draw, draw.randrange(1, 9), sample, draw.choice([3, 40, 400]))
        due, name = plain_fleet.counted(texts), f"random fleet {number} with sample {sample}"
        with new_folder() as folder:
            paths = written(folder, texts)
            for way, words in ways.words.items():
                tally.case(f"{name}, {way}", merge_faults(words, paths, due_of(way, due)))
            if "fleet" in ways.commands:
                tally.case(f"{name}, pairs", pairs_faults(ways.program, folder, paths, texts, due))
                tally.case(f"{name}, tables", table_faults(ways.program, paths, due))
                tally.case(f"{name}, a list of hosts", listed_faults(draw, ways.program, folder, paths, texts))


def python_with_scipy() -> str:
    """A Python that has numpy and scipy."""
    for python in (sys.executable, "/usr/bin/python3"):
        with contextlib.suppress(OSError):
            if ran([python, "-c", "import numpy, scipy.optimize, scipy.sparse"]).returncode == 0:
                return python
    raise LeftOut("the cases of fleet/place.py, since python3-numpy and python3-scipy aren't at hand")


def random_place(draw: random.Random) -> tuple[list[str], list[str], dict[str, int], plain_place.Place]:
    """A fleet of up to 8 guests on 2 or 3 hosts: its digests' texts, the hosts, their memory, and where the guests are."""
    sample, hosts = draw.choice([1, 1, 16]), ["a", "b", "c"][: draw.choice([2, 3])]
    pool = [draw.randbytes(14).hex() + "0000" for _ in range(60)]
    start, texts = {}, []
    for guest in range(draw.choice([3, 4, 5, 6, 7, 8, 8, 8])):
        host = draw.choice(hosts)
        copies = {word: draw.choice([1, 1, 2]) for word in draw.sample(pool, draw.randrange(5, 40))}
        copies[plain_fleet.digest(0, plain_fleet.ZEROS)] = draw.randrange(1, 60)
        start[f"{host}.guest{guest}"] = host
        texts.append(plain_fleet.text_of_copies(f"{host}.guest{guest}", 0, sample, copies))
    most = sum(plain_fleet.rows_of(text)[0][2] for text in texts)
    memory = {host: 256 * -(-draw.choice([most, 2 * most // len(hosts)]) // 256) for host in hosts}
    return texts, hosts, memory, start


def random_rules(
    draw: random.Random, folder: pathlib.Path, names: list[str], start: plain_place.Place,
) -> tuple[list[object], list[Rule]]:
    """What must hold of a plan, at random: words for place.py, and rules for a placement."""
    words: list[object] = []
    rules: list[Rule] = []

    def add(option: str, text: str, rule: Rule) -> None:
        (folder / f"{option}.csv").write_text(text)
        words.extend([f"--{option}", folder / f"{option}.csv"])
        rules.append(rule)

    if draw.randrange(2):
        add("apart", f"{names[0]},{names[1]}\n", lambda place: place[names[0]] != place[names[1]])
    if draw.randrange(3) == 0:
        add("together", f"{names[1]},{names[2]}\n", lambda place: place[names[1]] == place[names[2]])
    if draw.randrange(3) == 0:
        add("fixed", f"{names[2]}\n", lambda place: place[names[2]] == start[names[2]])
    if draw.randrange(3) == 0:
        most = draw.randrange(1, 4)
        words.extend(["--moves", most])
        rules.append(lambda place: sum(place[name] != start[name] for name in names) <= most)
    return words, rules


def place_faults(draw: random.Random, python: str, ways: Ways, folder: pathlib.Path, planned: list[bool]) -> Iterator[str]:
    """What is wrong with the plan of a small fleet, beside a plain count. `planned` gets whether no other move saves frames."""
    texts, hosts, memory, start = random_place(draw)
    fleet, paths = plain_place.Fleet(texts, hosts, memory), written(folder, texts)
    words, rules = random_rules(draw, folder, list(start), start)
    (folder / "memory.csv").write_text("host,memory\n" + "".join(f"{host},{pages // 256}\n" for host, pages in memory.items()))
    spare = draw.choice([None, None, 0, 1])
    words += ["--memory", folder / "memory.csv", *([] if spare is None else ["--spare", spare])]
    room, plan = None if spare is None else 256 * spare, folder / "plan.csv"

    def holds(place: plain_place.Place) -> bool:
        return fleet.has_room(place, room) and all(rule(place) for rule in rules)

    done = ran([python, FLEET / "place.py", "--json", "--plan", plan, *words, *paths])
    if done.returncode:
        # (a fleet whose guests may stay where they are has a plan)
        if done.returncode != 1 or done.stdout or holds(start):
            yield f"status {done.returncode}, {done.stdout[:200]!r}, {done.stderr[-300:]!r}"
        return
    found = json.loads(done.stdout)
    place = {one["guest"]: one["host"] for one in found["guests"]}
    planned.append(not any(holds(after) and fleet.frames(after) < fleet.frames(place) for after in fleet.moves(place)))
    yield from plan_faults(fleet, found, start, holds, room or 0)
    if "pageshare fleet" in ways.words:
        yield from counted_faults(ways, plan, paths, found)


def plan_faults(
    fleet: plain_place.Fleet, found: plain_fleet.Numbers, start: plain_place.Place, holds: Rule, spare: int,
) -> Iterator[str]:
    """What is wrong with a plan."""
    place = {one["guest"]: one["host"] for one in found["guests"]}
    if not holds(place):
        yield "the plan doesn't hold what must hold"
    if fleet.frames(place) != found["after"]["frames"] or fleet.frames(start) != found["before"]["frames"]:
        yield f"{found['before']} and {found['after']}, and {fleet.frames(start)} and {fleet.frames(place)} were due"
    if holds(start) and fleet.frames(place) > fleet.frames(start):
        yield f"the plan needs {fleet.frames(place)} frames, and {fleet.frames(start)} are enough where the guests are"
    if found["bound"]["frames"] != fleet.frames_on(place):
        yield f"the bound is {found['bound']}, and one host with all guests needs {fleet.frames_on(place)}"
    yield from plain_place.order_faults(fleet, start, found, spare)


def counted_faults(ways: Ways, plan: pathlib.Path, paths: Sequence[pathlib.Path], found: plain_fleet.Numbers) -> Iterator[str]:
    """What is wrong with what the program counts of a plan."""
    done = ran([*ways.words["pageshare fleet"], "--hosts", plan, *paths])
    counted = json.loads(done.stdout) if done.returncode == 0 else {}
    frames = counted.get("on_hosts", counted.get("total", {})).get("frames")
    if frames != found["after"]["frames"]:
        yield f"the program counts {frames} frames of the plan ({done.stderr[-200:]!r}), and {found['after']} is printed"


def places(tally: Tally, draw: random.Random, ways: Ways) -> None:
    """Plans for small fleets, beside a plain count and what the program counts of them."""
    python, planned = python_with_scipy(), list[bool]()
    for number in range(PLANNED):
        with new_folder() as folder:
            tally.case(f"a plan for small fleet {number}", place_faults(draw, python, ways, folder, planned))
    # (where the moves to a plan have no order, fewer are made)
    is_good, found = len(planned) >= LEAST_PLANNED and sum(planned) >= 0.8 * len(planned), f"{len(planned)} plans, {sum(planned)} of them so"
    tally.holds("plans than which no other move is better", is_good, found, f"at least {LEAST_PLANNED}, and four of five so")


def python_with_dask() -> str:
    """A Python that has Dask's packages."""
    for python in (sys.executable, "/usr/bin/python3"):
        with contextlib.suppress(OSError):
            if ran([python, "-c", "import dask.dataframe, distributed, pandas"]).returncode == 0:
                return python
    raise LeftOut("Dask's cases, since python3-dask, python3-distributed and python3-pandas aren't at hand", "python3-distributed")


@contextlib.contextmanager
def scheduler(python: str, folder: pathlib.Path) -> Iterator[str]:
    """A scheduler and two workers, and the scheduler's address. They end with the case, or else by themselves."""
    address, bounds = folder / "scheduler.json", ["timeout", str(2 * SECONDS), python, "-m"]
    host = ["--host", "127.0.0.1", "--no-dashboard", "--scheduler-file", address]
    programs = [[*bounds, "distributed.cli.dask_scheduler", "--port", "0", *host]]
    worker = ["--nthreads", "1", "--death-timeout", "60", "--local-directory", folder]
    programs += [[*bounds, "distributed.cli.dask_worker", *worker, "--name", name, *host] for name in ("one", "other")]
    running = [subprocess.Popen(list(map(str, words)), stderr=subprocess.DEVNULL) for words in programs]
    try:
        until = time.monotonic() + 60
        while not address.exists() and time.monotonic() < until:
            time.sleep(0.1)
        yield json.loads(address.read_text())["address"]
    finally:
        for process in running:
            process.terminate()
        for process in running:
            process.wait(30)


def at_once(tally: Tally, draw: random.Random, ways: Ways) -> list[Fleet]:
    """200 digests at once, whole and sampled, by each way but Dask. Returns the texts and what is due of them."""
    fleets = []
    for sample in (1, 16):
        texts = random_texts(draw, 200, sample, 1000)
        due = plain_fleet.counted(texts)
        fleets.append((sample, texts, due))
        with new_folder() as folder:
            paths = written(folder, texts)
            for way, own in ways.words.items():
                tally.case(f"200 digests with sample {sample}, {way}", merge_faults(own, paths, due_of(way, due)))
            if "fleet" in ways.commands:
                tally.case(f"200 digests with sample {sample}, pairs", pairs_faults(ways.program, folder, paths, texts, due))
    return fleets


def by_dask(tally: Tally, fleets: Sequence[Fleet]) -> None:
    """The same 200 digests by Dask, and broken digests."""
    python = python_with_dask()
    with new_folder() as folder, scheduler(python, folder) as address:
        words = [python, FLEET / "fleet_dask.py", "--scheduler", address]
        for sample, texts, due in fleets:
            tally.case(f"200 digests with sample {sample}, Dask", merge_faults(words, written(folder, texts), due))
        tally.case("a table of contents by Dask", table_of_contents_faults(python, words, folder, fleets[1][1]))
        what, line, cause, text = broken_texts()[0]
        paths = written(folder, [text])
        tally.case(f"{what}, Dask", fault_faults(ran([*words, *paths]), paths[0], line, cause))
        read_by_workers(tally, python, folder)


def table_of_contents_faults(python: str, words: Sequence[object], folder: pathlib.Path, texts: Sequence[str]) -> Iterator[str]:
    """Where a plan that place.py makes of Dask's table and one that it makes of the digests differ."""
    texts = [text for text in texts if plain_fleet.rows_of(text)]
    paths, table = written(folder, texts), folder / "contents.csv"
    yield from wrong_end(ran([*words, "--contents", table, *paths]), 0, None, "")
    both: list[list[object]] = [["--contents", table], [*paths]]
    plans = [ran([python, FLEET / "place.py", "--json", "--moves", 0, *own]) for own in both]
    one, other = (json.loads(done.stdout) if done.returncode == 0 else {"fault": str(done.stderr)} for done in plans)
    yield from differences(one, {**other, "guests": one.get("guests")}, "by the table: ")


def read_by_workers(tally: Tally, python: str, folder: pathlib.Path) -> None:
    """Broken digests as a worker reads them, in one process without an engine."""
    texts = broken_texts()
    paths = written(folder, [text for _what, _line, _cause, text in texts])
    done = ran([python, "-c", READ, *paths], cwd=FLEET)
    printed = done.stdout.decode().splitlines() + [""] * len(texts)
    for (what, line, cause, _text), path, one in zip(texts, paths, printed):
        tally.equal(f"{what}, a worker", one or done.stderr, f"{path}: fault line {line}: {cause}")


def broken_texts() -> list[tuple[str, int, str, str]]:
    """Broken digests, each with its first line at fault and the cause."""
    a, b, c = ("0" * 28 + "a000", "5" * 28 + "b010", "f" * 28 + "c000")
    head, good = plain_fleet.HEADER, plain_fleet.text_of_copies("web", 7, 1, {a: 3, b: 1, c: 2})
    lines = good.splitlines(keepends=True)
    swapped = "".join([lines[0], lines[1], lines[3], lines[2]])
    sampled = plain_fleet.text_of_copies("web", 7, 4096, {a: 3, c: 2})
    return [
        ("cut within a line", 4, "form", good[:-5]),
        ("cut before its last line feed", 4, "form", good[:-1]),
        ("cut before its last line", 3, "total", good[: good.rindex("web")]),
        ("cut within the header", 1, "form", head[:-8]),
        ("an empty file", 1, "form", ""),
        ("a header of five fields", 1, "form", good.replace(",sample", "", 1)),
        ("another header", 1, "head", good.replace("guest", "Guest", 1)),
        ("no header", 1, "head", good[len(head) :]),
        ("carriage returns", 1, "head", good.replace("\n", "\r\n")),
        ("an empty line", 3, "form", good.replace(lines[2], "\n" + lines[2])),
        ("a name in quotes", 2, "form", good.replace("web", '"web"')),
        ("a digest in upper case", 2, "form", good.replace(a, a.upper())),
        ("a number with a zero in front", 3, "form", good.replace(f"{b},1", f"{b},01")),
        ("no copies", 3, "form", good.replace(f"{b},1", f"{b},0")),
        ("a sample of 3", 2, "form", good.replace(",6,1,", ",6,3,")),
        ("a salt of 2^32", 2, "form", good.replace("web,7", "web,4294967296")),
        ("a line of 70,000 bytes", 3, "form", good.replace(b, b * 2200)),
        ("another guest", 3, "guest", good.replace(lines[2], lines[2].replace("web", "wea"))),
        ("another salt", 4, "guest", good.replace(lines[3], lines[3].replace(",7,", ",8,"))),
        ("other pages", 4, "guest", good.replace(lines[3], lines[3].replace(",6,", ",7,"))),
        ("another sample on a line", 3, "guest", good.replace(lines[2], lines[2].replace(",6,1,", ",6,16,"))),
        ("lines out of order", 4, "order", swapped),
        ("a digest twice", 4, "order", good.replace(c, b)),
        ("a sampled digest, cut within a line", 3, "form", sampled[:-5]),
        ("a digest that isn't kept", 3, "sample", sampled.replace(c, b)),
        ("more copies than pages, all kept", 4, "total", good.replace(f"{c},2", f"{c},3")),
        ("copies that are nearly 2^64", 4, "total", good.replace(f"{b},1", f"{b},{2**64 - 1}")),
        ("copies of 2^64", 3, "form", good.replace(f"{b},1", f"{b},{2**64}")),
        ("fewer copies than pages", 4, "total", good.replace(f"{a},3", f"{a},2")),
        ("more copies than pages, sampled", 2, "total", sampled.replace(f"{a},3", f"{a},6")),
    ]


def fault_faults(done: Done, path: pathlib.Path, line: int, cause: str) -> Iterator[str]:
    """What is wrong with how a fault is printed: one line, with the file, the number of the line at fault and the cause."""
    printed = done.stderr.decode("utf-8", "replace")
    if done.returncode != 1 or done.stdout:
        yield f"status {done.returncode}, {done.stdout[:200]!r}, {printed[-500:]!r}"
    elif printed.count("\n") != 1 or str(path) not in printed or f"line {line}: " not in printed:
        yield f"{printed[-500:]!r} was printed, and line {line} was due"
    elif cause not in printed.split(": ")[-1].split() and CAUSES[cause] not in printed:
        yield f"{printed!r} was printed, and the cause {cause} was due"


def broken(tally: Tally, ways: Ways) -> None:
    """Broken digests by each way, and digests of two samples."""
    with new_folder() as folder:
        for what, line, cause, text in broken_texts():
            sample = 4096 if ",4096," in text else 1
            paths = written(folder, [plain_fleet.text_of_copies("other", 0, sample, {"1" * 28 + "0000": 1}), text])
            for way, words in ways.words.items():
                tally.case(f"{what}, {way}", fault_faults(ran([*words, *paths]), paths[1], line, cause))
        paths = written(folder, [plain_fleet.text_of_copies("one", 0, sample, {"0" * 32: 1}) for sample in (4, 4, 8)])
        for way, words in ways.words.items():
            one_line = re.compile(rf"[^\n]*{re.escape(str(paths[2]))}[^\n]*\n")
            tally.ends(f"two samples, {way}", ran([*words, *paths]), 1, "", one_line)


def numbers_in(found: plain_fleet.Numbers) -> Iterator[tuple[str, int, int, Any]]:
    """The estimated numbers of a fleet, each by its name, its place, its value and its standard error."""
    for number, guest in enumerate(found["guests"]):
        for name in ("distinct", "shared", "alone"):
            yield f"a guest's {name}", number, guest[name], guest.get("errors", {}).get(name)
    for name in ("shared", "frames", "reclaimed", "between"):
        yield f"the total's {name}", 0, found["total"][name], found["total"].get("errors", {}).get(name)
    for row in found["copies"]:
        for name in ("contents", "pages"):
            yield f"a class's {name}", row["to"], row[name], row.get("errors", {}).get(name)


def ordinary_copies(draw: random.Random) -> Iterator[dict[str, int]]:
    """How many copies of each digest each of six guests has: of a pool that several share, and of its own."""
    pool = [draw.randbytes(16).hex() for _ in range(4000)]
    for _ in range(6):
        words = draw.sample(pool, draw.randrange(500, 3000)) + [draw.randbytes(16).hex() for _ in range(draw.randrange(1000, 4000))]
        copies = {word: min(20, int(draw.expovariate(0.9)) + 1) for word in words}
        copies[plain_fleet.digest(0, plain_fleet.ZEROS)] = draw.randrange(1, 20000)
        yield copies


def count_within(
    within: collections.Counter[str], every: collections.Counter[str], due: plain_fleet.Numbers, whole: plain_fleet.Numbers,
) -> None:
    """Counts the true numbers of one fleet, and those of them that lie within two standard errors of what is printed."""
    printed = {(name, place): (value, error) for name, place, value, error in numbers_in(due)}
    for name, place, true, _error in numbers_in(whole):
        value, error = printed.get((name, place), (0, 0))
        # A class of few contents has few in the sample or none, from which no error can be computed.
        if not name.startswith("a class") or place <= 8:
            every[name] += 1
            within[name] += abs(true - value) <= 2 * error


def standard_errors(tally: Tally, draw: random.Random, ways: Ways) -> None:
    """Of the true numbers at least 90 of 100 lie within two standard errors of what a sample of 16 gives."""
    within: collections.Counter[str] = collections.Counter()
    every: collections.Counter[str] = collections.Counter()
    for number in range(200):
        guests = list(ordinary_copies(draw))
        whole, sampled = ([plain_fleet.text_of_copies(f"g{n}", 0, k, own) for n, own in enumerate(guests)] for k in (1, 16))
        due = plain_fleet.counted(sampled)
        if "pageshare fleet" in ways.words:
            with new_folder() as folder:
                wrong = merge_faults(ways.words["pageshare fleet"], written(folder, sampled), due)
                tally.case(f"sampled fleet {number}, pageshare fleet", wrong)
        count_within(within, every, due, plain_fleet.counted(whole))
    for name, count in sorted(every.items()):
        share = 100 * within[name] / count
        print(f"{name}: {share:.1f} % of {count} true numbers lie within two standard errors")
        tally.holds(f"standard errors of {name}", share >= 90, share, "at least 90 %")


def image_faults(draw: random.Random, ways: Ways, folder: pathlib.Path, number: int, images: Sequence[bytes]) -> Iterator[str]:
    """What is wrong with the digests of some images, and with their numbers."""
    sample, is_raw = draw.choice([1, 1, 2, 16, 65536]), draw.randrange(5) == 0
    salts = [draw.choice([0, 0, 1, 4294967295]) for _ in images]
    paths, texts, files = [], [], []
    for place, (salt, data) in enumerate(zip(salts, images)):
        image, name = folder / f"{number}-{place}.img", f"guest-{place}"
        image.write_bytes(data)
        words = ["digest", "--name", name, "--salt", salt, "--sample", sample, *(["--raw"] if is_raw else [])]
        done = ran([ways.program, *words, "--workers", draw.randrange(1, 9), image])
        texts.append(plain_fleet.text_of_pages(name, salt, sample, pages_of_image(data, is_raw)))
        wrong = list(wrong_end(done, 0, texts[-1], ""))
        if wrong:
            yield from (f"digest: {what}" for what in wrong)
            return
        paths.append(image)
        files.append(image.with_suffix(".csv"))
        files[-1].write_bytes(done.stdout)
    if "fleet" not in ways.commands:
        return
    yield from merge_faults([ways.program, "fleet", "--json"], files, plain_fleet.counted(texts))
    if sample == 1:
        yield from beside_estimate(ways, paths, files, salts, is_raw)


def beside_estimate(
    ways: Ways, paths: Sequence[pathlib.Path], files: Sequence[pathlib.Path], salts: Sequence[int], is_raw: bool,
) -> Iterator[str]:
    """Where the numbers of a merge and of `estimate` differ."""
    words = ["estimate", "--json", "--salts", ",".join(map(str, salts)), *(["--raw"] if is_raw else [])]
    due = json.loads(ran([ways.program, *words, *paths]).stdout)
    found = json.loads(ran([ways.program, "fleet", "--json", *files]).stdout)
    for one in due["guests"] + found["guests"]:
        # (a digest without lines has no name and no salt)
        for key in ("image", "guest", "salt"):
            one.pop(key, None)
    yield from differences(found, due, "beside estimate: ")


def random_images(tally: Tally, draw: random.Random, ways: Ways) -> None:
    """Random images through `digest` and `fleet`, beside `estimate`."""
    if "digest" not in ways.commands:
        raise LeftOut(f"the cases of `pageshare digest`, since {ways.program} has no such command")
    pool = [draw.randbytes(plain_fleet.PAGE) for _ in range(6)]
    with new_folder() as folder:
        for number in range(100):
            images = [random_image(draw, pool) for _ in range(draw.randrange(1, 6))]
            tally.case(f"images {number}", image_faults(draw, ways, folder, number, images))


def example(tally: Tally, ways: Ways) -> None:
    """The digests that examples/make_fleet.py writes are those of the images that it writes, here of one host."""
    for guest, sample in [(1, 1), (2, 64)]:
        with new_folder() as folder:
            name = make_fleet.name_of(7, guest)
            make_fleet.write_digest(folder, 7, guest, sample)
            make_fleet.write_image(folder, 7, guest)
            image, given = folder / f"{name}.raw", (folder / f"{name}.csv").read_text()
            due = {"the count": plain_fleet.text_of_pages(name, 0, sample, pages_of_bytes(image.read_bytes()))}
            if "digest" in ways.commands:
                due["digest"] = ran([ways.program, "digest", "--name", name, "--sample", sample, image]).stdout.decode()
            for way, text in due.items():
                tally.equal(f"the example's {name}, {way}", given, text)


def big_file(folder: pathlib.Path) -> pathlib.Path:
    """A digest of 5 million lines."""
    path = folder / "big.csv"
    with open(path, "w", encoding="ascii") as out:
        out.write(plain_fleet.HEADER)
        for start in range(0, BIG_LINES, 10000):
            out.writelines(f"big,0,{BIG_LINES},1,{n:08x}{n * 2654435761 % 2**32:024x},1\n" for n in range(start, start + 10000))
    return path


def memory(tally: Tally, ways: Ways) -> None:
    """A merge's memory doesn't grow with the lines."""
    if "fleet" not in ways.commands:
        raise LeftOut(f"the cases of `pageshare fleet`, since {ways.program} has no such command")
    with new_folder() as folder:
        path = big_file(folder)
        begun = time.monotonic()
        done = ran([sys.executable, "-c", MEASURE, ways.program, "fleet", "--json", path])
        *errors, status, kibibytes = done.stderr.decode("utf-8", "replace").split()
        taken = int(kibibytes) << 10
        print(f"fleet: {BIG_LINES:,} lines in {time.monotonic() - begun:.2f} s, {taken / (1 << 20):.1f} MiB of memory")
        is_right = (status, errors) == ("0", []) and taken <= MOST_MEMORY and json.loads(done.stdout)["total"]["frames"] == BIG_LINES
        tally.holds("5 million lines", is_right, f"status {status}, {taken} bytes of memory, {errors}")


def main() -> int:
    options = argparse.ArgumentParser(description=__doc__.splitlines()[0])
    options.add_argument("seed", metavar="SEED", nargs="?", type=int, default=1)
    options.add_argument("program", metavar="PROGRAM", nargs="?", default=PROGRAM)
    given = options.parse_args()
    draw, tally, ways = random.Random(given.seed), Tally(), Ways(given.program)
    random_fleets(tally, draw, ways)
    tally.part(places, random.Random(given.seed), ways)
    fleets = at_once(tally, draw, ways)
    tally.part(by_dask, fleets)
    broken(tally, ways)
    standard_errors(tally, draw, ways)
    example(tally, ways)
    tally.part(random_images, draw, ways)
    tally.part(memory, ways)
    return tally.close()


if __name__ == "__main__":
    sys.exit(main())
