"""The net gain that --status says, beside what the system says: a memory cgroup of the processes and their host, MemAvailable, and Pss."""
from __future__ import annotations

import contextlib
import dataclasses
import os
import pathlib
import re
import statistics
import time
from collections.abc import Callable, Iterator, Sequence

from harness import StrPath
from places import HERE, Host, LeftOut, compile_c, in_time, must, until
from qemu_guests import PAGE, read
from size_cases import Guest, Kind

MIB = 1 << 20
QUIET = 0.25  # (of a processor, which others may take while all memory of the system is compared)
RUNS = (("runs of 16", 16), ("runs of 1", 1))
# The system's limit, and what the package sets it to: a page that is lent by itself takes two mappings.
LIMIT, MAPPINGS = pathlib.Path("/proc/sys/vm/max_map_count"), 4194304


class Group:
    """A memory cgroup for processes, which the system charges with their memory, page tables and slabs. `folder` is None where none can be made."""

    def __init__(self) -> None:
        of = {it.split(":")[1]: it.split(":")[2] for it in read("/proc/self/cgroup").splitlines()}
        above = pathlib.Path(f"/sys/fs/cgroup/memory{of['memory']}" if "memory" in of else "/sys/fs/cgroup")
        folder = above / f"pageshare-{os.getpid()}"
        self.folder: pathlib.Path | None = folder
        self.file = folder / ("memory.usage_in_bytes" if "memory" in of else "memory.current")
        try:
            folder.mkdir()
        except OSError:
            self.folder = None
        if self.folder and not self.file.exists():
            self.remove()

    def inside(self) -> list[StrPath]:
        """Words before those of a program that is to be in it."""
        return ["sh", "-c", 'echo $$ > "$0/cgroup.procs" && exec "$@"', self.folder] if self.folder else []

    def used(self) -> int:
        """The bytes that are in use of it; 0 where there is none."""
        return int(self.file.read_text()) if self.folder else 0

    def remove(self) -> None:
        if self.folder:
            processes = self.folder / "cgroup.procs"
            must(until(20, lambda: not read(processes), 0.1)[0], "the group has processes still")
            self.folder.rmdir()
        self.folder = None


def taken_bytes() -> int:
    """All memory of the system that MemAvailable leaves out."""
    of = {it.split(":")[0]: int(it.split()[1]) for it in read("/proc/meminfo").splitlines()}
    return (of["MemTotal"] - of["MemAvailable"]) << 10


def listed_bytes() -> int:
    """The free pages that each processor keeps in lists of its own. They are part of that, though they are free."""
    return sum(int(it) for it in re.findall(r"^ +count: +(\d+)$", read("/proc/zoneinfo"), re.M)) * PAGE


def busy_seconds() -> float:
    """The processor time that all have taken, since the system began."""
    times = [int(it) for it in read("/proc/stat").split("\n", 1)[0].split()[1:9]]
    return (sum(times) - times[3] - times[4]) / os.sysconf("SC_CLK_TCK")


def settle() -> None:
    """Has the system give up what it keeps of files, and add up what processors have counted by themselves."""
    os.sync()
    for name, word in (("drop_caches", "3"), ("stat_refresh", "1")):
        with contextlib.suppress(OSError):
            pathlib.Path(f"/proc/sys/vm/{name}").write_text(word)
    time.sleep(1)


def median_of(reads: Callable[[], Sequence[int]]) -> list[float]:
    """The median of each of some numbers, which are read nine times."""
    samples = []
    settle()
    for _ in range(9):
        samples.append(reads())
        time.sleep(0.3)
    return [statistics.median(it) for it in zip(*samples)]


def is_settled(host: Host, seconds: float) -> bool:
    """Waits until no more is shared than some seconds before."""
    shared = [0]

    def has_ended() -> bool:
        state = host.status()
        shared.append(state["lent_bytes"] + state["zero_bytes"])
        return len(shared) > 8 and shared[-1] > 0 and shared[-1] <= 1.001 * shared[-8]

    return until(seconds, has_ended, 0.6)[0]


@dataclasses.dataclass(frozen=True)
class Taken:
    """
    What two processes and their host take: by their memory cgroup, by MemAvailable, by that less the free pages in processors' lists, and by
    Pss. Then the net gain that --status says, and how many processors others took. Memory that others take changes within seconds, so what the
    system counts of these is what is given back when they end.
    """

    group: float
    available: float
    unlisted: float
    pss: float
    net: float
    others: float


def pss_of(processes: Sequence[int]) -> int:
    return sum(int(line.split()[1]) << 10 for it in processes for line in read(f"/proc/{it}/smaps_rollup").splitlines() if line.startswith("Pss:"))


def taken_in(group: Group, kind: Kind, mib: int, is_shared: bool) -> Taken:
    host = Host("--lent", f"{2 * mib}M", memory=f"{mib // 2}M", before=group.inside()) if is_shared else None
    made = [Guest(number, mib, kind, 900, host, before=group.inside(), percent=100) for number in range(2)]
    must(until(100 + mib / 10, lambda: all("filled" in it.said for it in made), 0.2)[0], "they aren't filled")
    if host and not is_settled(host, 30 + mib / 10):
        print("    more is shared still when it is measured")
    its = [it.process.pid for it in made] + ([host.process.pid] if host else [])
    of_group, pss, net = median_of(lambda: (group.used(), pss_of(its), host.status()["net_bytes"] if host else 0))
    taken, listed = median_of(lambda: (taken_bytes(), listed_bytes()))
    HERE.place.clean()
    for it in made:
        it.process.wait(20)
    begun, busy = time.time(), busy_seconds()
    rest, rest_listed = median_of(lambda: (taken_bytes(), listed_bytes()))
    others = (busy_seconds() - busy) / (time.time() - begun)
    return Taken(of_group, taken - rest, taken - rest - (listed - rest_listed), pss, net, others)


def taken_by(kind: Kind, mib: int, is_shared: bool) -> Taken:
    """Two processes of this kind, once they are filled and no more is shared."""
    group = Group()
    try:
        return taken_in(group, kind, mib, is_shared)
    finally:
        HERE.place.clean()
        group.remove()


# What a gain is measured by: the name, and the number of each round.
MEASURES: tuple[tuple[str, Callable[[Taken], float]], ...] = (
    ("their memory cgroup", lambda it: it.group),
    ("MemAvailable", lambda it: it.available),
    ("that and the processors' lists of free pages", lambda it: it.unlisted),
    ("Pss", lambda it: it.pss),
)


def apart_by(rounds: Sequence[tuple[Taken, Taken]], number: Callable[[Taken], float]) -> tuple[float, str]:
    """By how much the net gain is more than the gain by a measure (medians), and that in words. Each round is without sharing, and with it."""
    gains = [number(alone) - number(shared) for alone, shared in rounds]
    apart = statistics.median((shared.net - gain) / gain for (_, shared), gain in zip(rounds, gains) if gain)
    return apart, f"{statistics.median(gains) / MIB:.1f} MiB ({min(gains) / MIB:.1f} to {max(gains) / MIB:.1f}), {100 * apart:+.1f} %"


def compare(mib: int, count: int) -> None:
    """So many rounds of each kind, with sharing and without in turn."""
    compile_c("size")
    for name, run in RUNS:
        rounds = [(taken_by(Kind(40, 10, run, 1), mib, False), taken_by(Kind(40, 10, run, 1), mib, True)) for _ in range(count)]
        has_group = rounds[0][0].group > 0
        others, load = max(it.others for both in rounds for it in both), os.getloadavg()[0]
        print(f"  {name}, two processes of {mib} MiB, {count} rounds: net gain {statistics.median(it.net for _, it in rounds) / MIB:.1f} MiB; others "
              f"took {others:.2f} processors, load {load:.1f}")
        apart = {}
        for measure, number in MEASURES:
            if measure != MEASURES[0][0] or has_group:
                apart[measure], words = apart_by(rounds, number)
                print(f"    by {measure} {words}", flush=True)
        if others > QUIET:
            print("    (others used the computer meanwhile: of all but the group and Pss that says little)")
        due = [MEASURES[0][0]] * has_group + [MEASURES[2][0]] * (others <= QUIET)
        wrong = [f"{100 * apart[it]:+.1f} % by {it}" for it in due if abs(apart[it]) > 0.02]
        in_time(not wrong, f"the net gain isn't the system's within 2 %: {', '.join(wrong)}")


@contextlib.contextmanager
def mappings_allowed() -> Iterator[None]:
    """Processes may have as many mappings as the package lets them have, and afterwards as many as before."""
    kept = read(LIMIT)
    try:
        LIMIT.write_text(str(max(MAPPINGS, int(kept))))
    except OSError as cause:
        raise LeftOut(f"the right to raise vm.max_map_count ({cause})") from cause
    try:
        yield
    finally:
        LIMIT.write_text(kept)


def size_or(otherwise: int) -> int:
    return int(os.environ.get("SIZES", str(otherwise)).split(",", maxsplit=1)[0])


def case_gain() -> None:
    """The net gain beside what the system says, in one round with small processes (SIZES=MIB, by default 512)."""
    compare(size_or(512), 1)


def case_net() -> None:
    """The same in ROUNDS (3) with processes of 2 GiB (SIZES=MIB), of whose gain what MemAvailable differs by itself is less than 2 %."""
    with mappings_allowed():
        compare(size_or(2048), int(os.environ.get("ROUNDS", "3")))
