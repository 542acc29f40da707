"""Guests of a real size, by a stand-in for a monitor (size.c): huge pages, processor time, mappings, tables, and each byte at the end."""
from __future__ import annotations

import dataclasses
import json
import os
import subprocess
import threading
import time
from typing import Any, Sequence

from harness import StrPath
from places import AS_NOBODY, CC, FLAGS, HERE, OUT, TOP, WINDOW_LIBRARY, Host, compile_c, in_time, must, preloaded
from qemu_guests import read

PAGE, SPARES, PRELOAD = 4096, 2000, TOP / "host/preload"
LIMIT = int(read("/proc/sys/vm/max_map_count") or 65530)


@dataclasses.dataclass(frozen=True)
class Kind:
    """
    What a process has: how many of 100 runs of pages all have, and how many are zeros; pages of a run; MiB written in a second; after how
    many seconds pages become the same in all processes (0: never), and whether most accesses are to few pages.
    """

    equal: int
    zero: int
    run: int
    written: int
    late: int = 0
    is_local: bool = False


USUAL, SHORT, ALONE, RUNS = Kind(40, 10, 16, 20), Kind(40, 10, 16, 5), Kind(50, 0, 1, 1), Kind(60, 0, 16, 1)
# (so many zeros that each part of the memory is split)
FIRST = Kind(40, 20, 16, 20, 1, True)
Counts = dict[str, Any]  # as JSON has them


class Guest:
    """A process of size.c, whose counts are read all the time from when its memory is filled."""

    def __init__(
        self, number: int, mib: int, kind: Kind, seconds: int, host: Host | None = None, is_huge: bool = True, before: Sequence[StrPath] = (),
        percent: int | None = None,
    ) -> None:
        self.number, self.mib, self.said = number, mib, ""
        self.series: list[tuple[float, Counts]] = []
        self.counts_path = HERE.place.room / f"size{number}.json"
        words = [str(it) for it in (number, mib, mib // 4, seconds, kind.equal, kind.zero, kind.run, kind.written, int(is_huge), kind.late,
                                    int(kind.is_local))]
        more = {"PAGESHARE_COUNTS": str(self.counts_path), "PAGESHARE_PERIOD_MS": "1000"} | ({"PAGESHARE_CPU": str(percent)} if percent else {})
        env = preloaded(host, more) if host else dict(os.environ)
        self.process = subprocess.Popen([*before, *AS_NOBODY, HERE.place.room / "size", *words], env=env, text=True, stdout=subprocess.PIPE,
                                        stderr=subprocess.STDOUT)
        HERE.place.started.append(self.process)
        self.reader = threading.Thread(target=self.listen, daemon=True)
        self.reader.start()

    def listen(self) -> None:
        for line in self.process.stdout or ():
            self.said += line
            if line == "filled\n":
                threading.Thread(target=self.sample, args=(time.time(),), daemon=True).start()

    def sample(self, begin: float) -> None:
        while self.process.poll() is None:
            try:
                self.series.append((time.time() - begin, json.loads(self.counts_path.read_text())))
            except (OSError, ValueError):
                pass
            time.sleep(0.25)

    def end(self, seconds: float) -> Counts:
        status = self.process.wait(seconds)
        self.reader.join(10)
        must(status == 0, f"guest {self.number}: status {status}: {self.said[-1500:]}")
        said: Counts = json.loads(self.said.splitlines()[-1])
        return said


def seconds_to_95(series: list[tuple[float, Counts]]) -> float:
    """The seconds until 95 % of the most pages that were shared or given back at a time."""
    shared = [(seconds, it["lent"] + it["zeros_now"]) for seconds, it in series]
    return next(seconds for seconds, pages in shared if pages >= 0.95 * max(it for _, it in shared))


def settled(series: list[tuple[float, Counts]]) -> float:
    """The percentage of a processor that the thread takes in the last third of the time."""
    (first, before), (last, after) = series[len(series) * 2 // 3], series[-1]
    return float(after["processor_ns"] - before["processor_ns"]) / (last - first) / 1e7


def at_second(series: list[tuple[float, Counts]], seconds: float) -> Counts:
    """The counts of a process so many seconds after its memory was filled."""
    return min(series, key=lambda it: abs(it[0] - seconds))[1]


def run_size(
    sizes: Sequence[int], kinds: Sequence[Kind], seconds: int, is_huge: bool = True, memory: str = "4G", lent: str = "64G", late: int = 0,
) -> tuple[list[Counts], Counts]:
    """Processes of these sizes and kinds beside one host. Answers for each what it said, and its row; and the host's state before the end."""
    host = Host("--lent", lent, memory=memory)
    made = [Guest(number, mib, kind, seconds, host, is_huge) for number, (mib, kind) in enumerate(zip(sizes, kinds))]
    fill = max(sizes) / 50  # (a busy machine fills some 50 MiB in a second)
    time.sleep(2 + seconds / 2)
    state = host.status()
    must(state is not None, "the host doesn't answer")
    said = [it.end(seconds + fill + 240) for it in made]
    rows = []
    for it, end in zip(made, said):
        last, before = it.series[-1][1], at_second(it.series, late)
        rows.append({
            "late_round_ms": before["round_ms"], "late_credit_ms": before["credit_ms"],
            "mib": it.mib, **end, "seconds_to_95": seconds_to_95(it.series), "thread_percent": settled(it.series),
            "lent_most": max(sample["lent"] for _, sample in it.series), "pages_of_mapping": last["lent"] / max(1, last["mappings"]), **{
                name: last[name] for name in (
                    "lends", "lent", "zeros", "mappings_most", "no_mapping", "table_bytes", "parts_whole", "parts_split", "made_whole", "hold_most_ns",
                    "round_ms", "turns", "reads", "asked", "seen",
                )
            },
        })
    host.stop()
    HERE.place.clean()
    return rows, state or {}


def show(name: str, rows: list[Counts], state: Counts) -> None:
    for row in rows:
        huge = f"{100 * row['huge_last_kib'] / row['huge_first_kib']:.1f} %" if row["huge_first_kib"] else "none"
        print(f"  {name}, {row['mib']} MiB: huge pages left of private memory {huge}; a random read there {row['read_last_ns']:.0f} ns; thread "
              f"{row['thread_percent']:.2f} %; 95 % after {row['seconds_to_95']:.1f} s; lent {row['lent_most']}, {row['pages_of_mapping']:.1f} pages a "
              f"mapping; parts whole {row['parts_whole']}, split {row['parts_split']}, whole again {row['made_whole']}; a look {row['round_ms']} ms; "
              f"99.99 % of accesses {row['bound_10000_ns'] / 1e6:.3f} ms, worst {row['worst_ns'] / 1e6:.1f} ms; tables "
              f"{100 * row['table_bytes'] / (row['mib'] << 20):.2f} %; wrong {row['wrong']}", flush=True)
    print(f"  host: {state['host_bytes'] >> 20} MiB of its own; load {os.getloadavg()[0]:.1f}", flush=True)


def huge_pages_stay(rows: list[Counts]) -> None:
    """At least 98 % of the huge pages of memory of which nothing can be shared are left."""
    for row in rows:
        must(row["huge_last_kib"] >= 0.98 * row["huge_first_kib"], f"huge pages were lost: {row}")


def case_size() -> None:
    """Stand-ins for guests of a real size (SIZES=MIB,..), with and without huge pages, and at the limit of mappings."""
    compile_c("size")
    sizes = [512] if HERE.is_short else [int(it) for it in os.environ.get("SIZES", "1024,2048,4096,8192").split(",")]
    seconds = int(os.environ.get("SECONDS", "20" if HERE.is_short else "60"))
    kind = SHORT if HERE.is_short else USUAL
    table: dict[str, Any] = {}
    for mib in sizes:
        alone = Guest(9, mib, kind, 1).end(600) if not HERE.is_short else None
        for is_huge in (True, False):
            name = f"{mib} {'huge' if is_huge else 'small'}"
            rows, state = run_size([mib, max(256, mib // 4)], [kind] * 2, seconds, is_huge)
            show(name, rows, state)
            in_time(all(it["lends"] > 0 for it in rows), f"nothing was lent: {rows}")
            for it in state["processes"]:
                must(it["client_mappings"] > 0 and it["client_parts_whole"] + it["client_parts_split"] >= is_huge, f"a status: {it}")
            if is_huge:
                huge_pages_stay(rows)
            table[name] = {"rows": rows, "host": state, "alone": alone}
    # (half of the pages are equal, one by one: so most that are lent are a mapping by themselves)
    rows, state = run_size([768, 768], [ALONE] * 2, max(seconds, 45))
    show("runs of 1", rows, state)
    is_met = [it["no_mapping"] > 0 for it in rows]
    print(f"  the limit of {LIMIT} mappings was {'met' if any(is_met) else 'not met'}")
    for row in rows:
        must(row["mappings"] <= row["mappings_most"] + SPARES and row["spare_mappings"] == SPARES, f"too many mappings: {row}")
    in_time(any(is_met) or LIMIT > 65530, f"the limit of mappings wasn't met: {rows}")
    table["runs of 1"] = {"rows": rows, "host": state}
    OUT.mkdir(parents=True, exist_ok=True)
    (OUT / "size.json").write_text(json.dumps(table, indent=1))


def case_runs() -> None:
    """Runs of 16 equal pages are few mappings, also where a domain has many machines (SIZES=MIB of both guests; LENT=64G)."""
    compile_c("size")
    mib, lent = int(os.environ.get("SIZES", "512")), os.environ.get("LENT", "64G")
    rows, state = run_size([mib, mib], [RUNS] * 2, 30 + mib // 50, lent=lent)
    show(f"runs of 16, --lent {lent}", rows, state)
    for row in rows:
        in_time(row["pages_of_mapping"] >= 4, f"too few pages a mapping: {row}")


def case_late() -> None:
    """Pages that become equal late (SIZES=MIB or MIB,MIB of the other, by default 1024; LATE=SECONDS): how long it takes until they are shared."""
    compile_c("size")
    mib, *others = [int(it) for it in os.environ.get("SIZES", "1024").split(",")]
    other = others[0] if others else max(256, mib // 2 if mib < 4096 else mib // 4)
    # (by then the thread has spent most of what it may use for what is new)
    late = int(os.environ.get("LATE", 60 + mib // 32))
    memory, lent = max(1024, (mib + other) // 4), max(4096, mib + other)
    kinds = [dataclasses.replace(FIRST, late=late), FIRST]
    rows, state = run_size([mib, other], kinds, late + 75, memory=f"{memory}M", lent=f"{lent}M", late=late)
    show("late", rows, state)
    since = max(row["late_s"] for row in rows)
    for row in rows:
        times = [row[name] - since if row[name] >= 0 else float("inf") for name in ("late_half_s", "late_95_s")]
        print(f"  {row['mib']} MiB: half of the pages that became equal late were shared {times[0]:.1f} s later, 95 % {times[1]:.1f} s; a look took "
              f"{row['late_round_ms']} ms before, and the thread had {row['late_credit_ms']} ms left for what is new")
        must(times[0] < float("inf"), f"they weren't shared: {row}")


def run_over_proved(name: str, *sources: str) -> bool:
    """Compiles checks/host/NAME.c with sources of the preloaded library and with what is proved of it. Returns whether it ran well."""
    program = HERE.place.room / name
    folders = (PRELOAD, TOP / "host", TOP / "window", TOP / "lib/include")
    words: list[StrPath] = [CC, *FLAGS, *(f"-I{it}" for it in folders), "-o", program, TOP / f"checks/host/{name}.c"]
    must(subprocess.run([*words, *(PRELOAD / it for it in sources), WINDOW_LIBRARY]).returncode == 0, f"{name}.c doesn't compile")
    return subprocess.run([program]).returncode == 0


def case_paced() -> None:
    """A thread that looks works for nearly all of its processor time where sleeps themselves take time, by clocks that a program has."""
    must(run_over_proved("paced"), "the thread works for too little of its time, or too long")


def case_ranges() -> None:
    """The table of ranges that were offered, beside a list of whose each page is."""
    must(run_over_proved("ranges", "ranges.c"), "a page is another's")
