"""The case `ksm`: pageshare and the kernel's KSM in turns on the same programs, by what the system counts of their memory and processor time."""
from __future__ import annotations

import contextlib
import dataclasses
import itertools
import json
import os
import pathlib
import statistics
import subprocess
import time
from collections.abc import Iterator, Sequence
from typing import Any, TypedDict

from charts import BLUE, DASHED, RED, SOLID, Chart
from held import steps
from places import AS_NOBODY, HERE, OUT, Host, LeftOut, compile_c, must, preloaded
from qemu_guests import PAGE, read

KSM = pathlib.Path("/sys/kernel/mm/ksm")
MIB = 1 << 20
# What is set of KSM for each way. The advisor sets pages_to_scan by itself, and refuses it meanwhile.
PACED = {"advisor_mode": "none", "pages_to_scan": "1000", "sleep_millisecs": "20", "use_zero_pages": "1"}
WAYS: dict[str, dict[str, str]] = {"pageshare": {}, "KSM": PACED, "advisor": {"sleep_millisecs": "20", "use_zero_pages": "1", "advisor_mode": "scan-time"}}
# Bytes of slab that KSM takes for each page that is shared (struct ksm_stable_node); of those that it scans the system says it.
STABLE_NODE = 64
PARTS = (0.5, 0.8, 0.9)
# What is saved changes no more once it has grown by less than this part of what can be had in so many seconds. The last of them are settled.
STILL, STILL_SECONDS = 0.005, 10
Sample = tuple[float, float, float]  # seconds since the programs offered their memory; bytes saved; processor seconds


class Said(TypedDict):
    """What a program says at its end."""

    wrong: int
    advice_ns: int
    reads: int
    reads_waits: list[int]
    writes: int
    writes_waits: list[int]


@dataclasses.dataclass(frozen=True)
class Job:
    """What runs in one turn: how many programs of how many MiB, of runs of so many pages, and busy processes beside them."""

    way: str
    programs: int
    mib: int
    run: int
    busy: int
    is_huge: bool


# ---- what is computed of what was measured: checks/benches_test.py tries these ----


def bound_of(programs: int, equal: int, zeros: int) -> int:
    """The bytes that can be had: of pages that all programs have one is left, of zeros none."""
    return ((programs - 1) * equal + programs * zeros) * PAGE


def reached(series: Sequence[Sample], least: float) -> tuple[float, float] | None:
    """After how many seconds so many bytes were saved, and the processor seconds until then."""
    return next(((seconds, processor) for seconds, saved, processor in series if saved >= least), None)


def is_still(series: Sequence[Sample], bound: float) -> bool:
    """Whether what is saved grows no more, after something was."""
    seconds, saved, _ = series[-1]
    before = [it[1] for it in series if it[0] <= seconds - STILL_SECONDS]
    return bool(before) and saved >= bound / 2 and saved - before[-1] < STILL * bound


def settled_percent(series: Sequence[Sample]) -> float:
    """The share of a processor in the last seconds."""
    last, first = series[-1], next(it for it in series if it[0] >= series[-1][0] - STILL_SECONDS)
    return 100 * (last[2] - first[2]) / (last[0] - first[0]) if last[0] > first[0] else 0.0


def wait_below(waits: Sequence[Sequence[int]], counts: Sequence[int], part: float) -> int:
    """The wait that this part of all accesses didn't exceed, from each program's longest waits. 0: more of them are needed."""
    beyond, longest = round(sum(counts) * (1 - part)), sorted(itertools.chain(*waits), reverse=True)
    kept = min((len(it) for it, count in zip(waits, counts) if len(it) < count), default=beyond + 1)
    return longest[beyond] if beyond < min(kept, len(longest)) else 0


def chosen(text: str) -> str:
    """The value of a setting that shows all: `[none] scan-time` is `none`."""
    words = text.split()
    return next((it[1:-1] for it in words if it.startswith("[") and it.endswith("]")), words[0] if words else "")


# ---- what is measured ----


class Group:
    """A group of processes whose memory the system counts: pages, page tables and slab, of both versions of control groups."""

    def __init__(self) -> None:
        places = {pathlib.Path("/sys/fs/cgroup/memory"): "memory.usage_in_bytes", pathlib.Path("/sys/fs/cgroup"): "memory.current"}
        name = f"pageshare-bench-{os.getpid()}"
        for place, counted in places.items():
            with contextlib.suppress(OSError):
                self.folder = place / name
                self.folder.mkdir(exist_ok=True)
                self.counted = self.folder / counted
                self.used()
                self.before = ["sh", "-c", f'echo $$ > {self.folder}/cgroup.procs && exec "$@"', "sh"]
                return
            with contextlib.suppress(OSError):
                self.folder.rmdir()
        raise LeftOut("groups of processes whose memory is counted (the control group `memory`)")

    def used(self) -> int:
        return int(self.counted.read_text())

    def remove(self) -> None:
        with contextlib.suppress(OSError):
            self.folder.rmdir()


def number_in(name: str) -> int:
    return int(read(KSM / name) or 0)


def ksm_slab() -> int:
    """What KSM takes of slab, in bytes: its profit is what it saves less what it takes for the pages that it scans."""
    saved = (number_in("pages_sharing") + number_in("ksm_zero_pages")) * PAGE
    return saved - number_in("general_profit") + number_in("pages_shared") * STABLE_NODE


def ksmd() -> int:
    return next((int(it.name) for it in pathlib.Path("/proc").iterdir() if it.name.isdigit() and read(it / "comm") == "ksmd\n"), 0)


def nanoseconds_of(task: pathlib.Path) -> int:
    return int((read(task / "schedstat") or "0").split()[0])


def available() -> int:
    return next(int(line.split()[1]) * 1024 for line in read("/proc/meminfo").splitlines() if line.startswith("MemAvailable"))


def set_ksm(settings: dict[str, str]) -> None:
    for name, value in settings.items():
        if (KSM / name).exists():
            (KSM / name).write_text(value)


@contextlib.contextmanager
def ksm_kept() -> Iterator[None]:
    """KSM is as it was afterwards, however that comes. (It takes no pages_to_scan while the advisor sets it.)"""
    names = ["pages_to_scan", "sleep_millisecs", "use_zero_pages", "advisor_mode", "run"]
    kept = {name: chosen(read(KSM / name)) for name in names if (KSM / name).exists()}
    if kept.get("advisor_mode", "none") != "none":
        kept.pop("pages_to_scan")
    try:
        yield
    finally:
        if kept:
            set_ksm({"run": "2", "advisor_mode": "none", **kept})


class Program:
    """A process of offering.c, filled."""

    def __init__(self, number: int, job: Job, group: Group, host: Host | None) -> None:
        self.counts = HERE.place.room / f"offering{number}.json"
        self.counts.unlink(missing_ok=True)
        more = {"PAGESHARE_COUNTS": str(self.counts), "PAGESHARE_PERIOD_MS": "1000"}
        env = preloaded(host, more) if host else dict(os.environ)
        program, *words = HERE.place.room / "offering", str(number), str(job.mib), str(job.run), str(int(job.is_huge))
        self.process = subprocess.Popen([*group.before, *AS_NOBODY, program, *words], env=env, text=True, stdin=subprocess.PIPE, stdout=subprocess.PIPE)
        HERE.place.started.append(self.process)
        self.place = pathlib.Path(f"/proc/{self.process.pid}")

    def line(self) -> str:
        line: str = self.process.stdout.readline() if self.process.stdout else ""
        return line

    def go_on(self) -> None:
        if self.process.stdin:
            self.process.stdin.write("\n")
            self.process.stdin.flush()

    def library_nanoseconds(self) -> int:
        """Of all threads but the program's own."""
        return sum(nanoseconds_of(it) for it in (self.place / "task").iterdir() if it.name != self.place.name)

    def kib(self, file: str, name: str) -> int:
        return next((int(line.split()[1]) for line in read(self.place / file).splitlines() if line.startswith(f"{name}:")), 0)

    def end(self) -> Said:
        self.go_on()
        self.go_on()
        said: Said = json.loads(self.line())
        must(self.process.wait(60) == 0 and said["wrong"] == 0, f"pages were wrong: {said['wrong']}")
        return said


class Turn:
    """One turn of a job, in which all that it started is watched."""

    def __init__(self, job: Job, group: Group) -> None:
        self.job, self.group = job, group
        self.is_ours = not WAYS[job.way]
        self.host = Host("--lent", f"{4 * job.programs * job.mib}M", memory=f"{job.programs * job.mib}M", before=group.before) if self.is_ours else None
        self.programs = [Program(number, job, group, self.host) for number in range(job.programs)]
        filled = [it.line().split() for it in self.programs]
        must(all(it[:1] == ["filled"] for it in filled), f"a program isn't filled: {filled}")
        self.bound = bound_of(job.programs, int(filled[0][1]), int(filled[0][2]))
        self.busy = [subprocess.Popen([*AS_NOBODY, "sh", "-c", "while :; do :; done"]) for _ in range(job.busy)]
        HERE.place.started += self.busy
        self.series: list[Sample] = []

    def processor(self) -> float:
        if not self.host:
            return nanoseconds_of(pathlib.Path(f"/proc/{ksmd()}")) / 1e9
        host = sum(nanoseconds_of(it) for it in pathlib.Path(f"/proc/{self.host.process.pid}/task").iterdir())
        return (host + sum(it.library_nanoseconds() for it in self.programs)) / 1e9

    def memory(self) -> int:
        return self.group.used() + (0 if self.is_ours else ksm_slab())

    def watch(self, most: float) -> None:
        """From when the programs offer their memory until nothing more comes back."""
        if not self.is_ours:
            set_ksm({**WAYS[self.job.way], "run": "1"})
        self.processor_before, self.before, self.available = self.processor(), self.memory(), available()
        begin = time.time()
        for it in self.programs:
            it.go_on()
        while time.time() - begin < most and not (self.series and is_still(self.series, self.bound)):
            time.sleep(0.1)
            self.series.append((time.time() - begin, self.before - self.memory(), self.processor() - self.processor_before))

    def row(self) -> dict[str, Any]:
        """All figures of the turn. Ends the programs."""
        counts = [json.loads(read(it.counts)) for it in self.programs] if self.is_ours else []
        state = self.host.status() if self.host else None
        row: dict[str, Any] = {**dataclasses.asdict(self.job), "load": round(os.getloadavg()[0], 1), "bound_mib": self.bound / MIB}
        for part in PARTS:
            row[f"s_{part:.0%}"], row[f"cpu_{part:.0%}"] = reached(self.series, part * self.bound) or ("", "")
        seconds, saved, processor = self.series[-1]
        row |= {"end_percent": 100 * saved / self.bound, "s_end": seconds, "cpu_end": processor, "settled_percent": settled_percent(self.series),
                "available_mib": (available() - self.available) / MIB}
        row |= {"table_mib": ((state["host_bytes"] if state else 0) + sum(it["table_bytes"] for it in counts)) / MIB,
                "mappings": sum(it["mappings"] for it in counts), "lent": sum(it["lent"] for it in counts), "slab_mib": 0 if self.is_ours else ksm_slab() / MIB,
                "page_table_mib": sum(it.kib("status", "VmPTE") for it in self.programs) / 1024,
                "huge_mib": sum(it.kib("smaps_rollup", "AnonHugePages") for it in self.programs) / 1024}
        return row | self.waits()

    def waits(self) -> dict[str, Any]:
        said = [it.end() for it in self.programs]
        row: dict[str, Any] = {"advice_ms": sum(it["advice_ns"] for it in said) / 1e6}
        for name, counts, waits in (("read", [it["reads"] for it in said], [it["reads_waits"] for it in said]),
                                    ("write", [it["writes"] for it in said], [it["writes_waits"] for it in said])):
            row |= {f"{name}s": sum(counts), f"{name}_99.99_us": wait_below(waits, counts, 0.9999) / 1000,
                    f"{name}_worst_us": max(max(it, default=0) for it in waits) / 1000}
        return row


def run_turn(job: Job, group: Group, most: float) -> tuple[dict[str, Any], list[Sample]]:
    turn = Turn(job, group)
    try:
        turn.watch(most)
        row = turn.row()
        if turn.host:
            turn.host.stop()
    finally:
        HERE.place.clean()
        if not turn.is_ours:
            set_ksm({"run": "2"})
            set_ksm({"run": "0", "advisor_mode": "none"})
    return row, turn.series


# ---- what is shown ----


def shown(number: object) -> str:
    return f"{number:.2f}" if isinstance(number, float) else str(number)


def write_table(rows: Sequence[dict[str, Any]], path: pathlib.Path) -> None:
    path.write_text("".join("\t".join(it) + "\n" for it in [list(rows[0]), *([shown(it) for it in row.values()] for row in rows)]))


def print_table(rows: Sequence[dict[str, Any]]) -> None:
    """The medians of each job's turns."""
    names = ["s_50%", "s_80%", "s_90%", "cpu_50%", "cpu_80%", "cpu_90%", "end_percent", "cpu_end", "settled_percent", "read_99.99_us", "read_worst_us",
             "write_99.99_us", "write_worst_us", "table_mib", "slab_mib", "page_table_mib", "huge_mib", "mappings", "available_mib"]
    print("  " + " ".join(f"{it:>11}" for it in ["way", "mib", "run", "busy", *(it.replace("percent", "%")[:11] for it in names)]))
    jobs = [(row["way"], row["mib"], row["run"], row["busy"]) for row in rows]
    for job in dict.fromkeys(jobs):
        of = [row for row, its in zip(rows, jobs) if its == job]
        medians = [statistics.median(found) if (found := [row[it] for row in of if row[it] != ""]) else "" for it in names]
        print("  " + " ".join(f"{shown(it):>11}" for it in [*job, *medians]), flush=True)


def draw(series: dict[str, list[Sample]], bound: float, title: str, path: pathlib.Path) -> None:
    """What each way has saved over time."""
    chart = Chart(title, 60, 80, 40, 40, (640, 320))
    most, top = max(it[-1][0] for it in series.values()), bound / MIB

    def place(seconds: float, mib: float) -> tuple[float, float]:
        across = chart.left + (chart.right - chart.left) * seconds / most
        return across, chart.bottom - (chart.bottom - chart.top) * max(0.0, mib) / top

    for mib in steps(top, 6):
        chart.row(place(0, mib)[1], str(mib), 6)
    for second in steps(most, 8):
        chart.column(place(second, 0)[0], chart.bottom + 18, str(second))
    chart.text(chart.right, chart.height - 6, "seconds", text_anchor="end")
    for (way, found), (colour, dashes) in zip(series.items(), ((BLUE, SOLID), (RED, SOLID), (RED, DASHED))):
        points = [place(seconds, saved / MIB) for seconds, saved, _ in found]
        chart.curve(points, colour, **dashes)
        chart.text(points[-1][0] + 4, points[-1][1] + 4, way, fill=colour)
    chart.save(path)


def numbers_of(name: str, otherwise: str) -> list[int]:
    return [int(it) for it in os.environ.get(name, otherwise).split(",")]


def jobs_of(turns: int) -> list[Job]:
    """All jobs, in turns: each way once, and again."""
    ways = [it for it in os.environ.get("WAYS", ",".join(WAYS)).split(",") if not WAYS[it] or (KSM / "run").exists()]
    sizes, runs, is_huge = numbers_of("SIZES", "256"), numbers_of("RUNS", "1,6,64,512"), os.environ.get("HUGE", "1") != "0"
    each = itertools.product(sizes, runs, numbers_of("BUSY", f"0,{os.cpu_count()}"), range(turns), ways)
    return [Job(way, int(os.environ.get("GUESTS", "3")), mib, run, busy, is_huge) for mib, run, busy, _, way in each]


def case_ksm() -> None:
    """Sharing beside the kernel's KSM, in turns: seconds, processor seconds, waits and memory (SIZES, RUNS, BUSY, WAYS, TURNS, SECONDS, HUGE)."""
    if number_in("run") == 1:
        raise LeftOut("the kernel's KSM, which is at work for others")
    compile_c("offering", "benches/host")
    OUT.mkdir(parents=True, exist_ok=True)
    rows, pictures, group = [], dict[tuple[int, int, int], dict[str, list[Sample]]](), Group()
    try:
        with ksm_kept():
            for job in jobs_of(int(os.environ.get("TURNS", "1"))):
                row, series = run_turn(job, group, float(os.environ.get("SECONDS", 40 + job.programs * job.mib / 16)))
                rows.append(row)
                print(f"  {' '.join(f'{name} {shown(it)}' for name, it in row.items())}", flush=True)
                write_table(rows, OUT / "ksm.tsv")
                pictures.setdefault((job.mib, job.run, job.busy), {})[job.way] = series
    finally:
        group.remove()
    print_table(rows)
    for (mib, run, busy), found in pictures.items():
        bound = next(row["bound_mib"] for row in rows if (row["mib"], row["run"]) == (mib, run)) * MIB
        draw(found, bound, f"MiB saved: programs of {mib} MiB, runs of {run}, {busy} busy processes", OUT / f"ksm-{mib}-{run}-{busy}.svg")
    print(f"  {OUT / 'ksm.tsv'}, {OUT}/ksm-*.svg; load {os.getloadavg()[0]:.1f}")
