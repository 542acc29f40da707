"""`digest --pid` and `estimate --pid` of processes whose pages are known, beside SHA-256 of these pages and beside `fleet`."""
from __future__ import annotations

import contextlib
import json
import pathlib
import subprocess
import sys
from collections.abc import Iterator, Sequence
from typing import Any

from command_cases.subject import MISSING, SECONDS, Subject, is_clean
from common.plain_fleet import PAGE, digest
from harness import ANY

# A process that fills so many pages of its own, private ones and shared ones, and says so. Page n holds the number n.
OWN_PAGES = 300
FILLED = f"""
import mmap, sys
for flags in [mmap.MAP_PRIVATE, mmap.MAP_SHARED]:
    own = mmap.mmap(-1, {OWN_PAGES} * 4096, flags=flags | mmap.MAP_ANONYMOUS)
    for n in range({OWN_PAGES}):
        own[4096 * n : 4096 * n + 8] = (n + 1).to_bytes(8, "little")
    globals()[f"own_{{flags}}"] = own
print("filled", flush=True)
sys.stdin.read()
"""
# A process that maps so many frames of a file as those of the host, twice each, and says so.
FRAMES = 5
LENT = f"""
import mmap, os, sys
file = os.memfd_create("pageshare-frames")
os.write(file, bytes(range(1, {FRAMES + 1})).ljust({FRAMES} * 4096, b"x"))
shown = [mmap.mmap(file, {FRAMES} * 4096, flags=mmap.MAP_PRIVATE) for _ in range(2)]
read = [it[:] for it in shown]
print("filled", flush=True)
sys.stdin.read()
"""
PAGES = [(n + 1).to_bytes(8, "little").ljust(PAGE, b"\0") for n in range(OWN_PAGES)]


@contextlib.contextmanager
def filled(code: str = FILLED) -> Iterator[str]:
    """The number of a process that has filled its pages and waits; it ends with the case."""
    with subprocess.Popen([sys.executable, "-c", code], stdin=subprocess.PIPE, stdout=subprocess.PIPE) as child:
        assert child.stdin and child.stdout
        child.stdout.readline()
        yield str(child.pid)
        child.stdin.close()
        child.wait(SECONDS)


def digests(subject: Subject) -> None:
    """The pages of a process that waits: each page that it has twice is listed with two copies at least."""
    with filled() as child:
        done = subject.run(["digest", "--all-memory", "--pid", child, "--name", "own"])
    lines = [line.split(",") for line in done.stdout.decode().split("\n")[1:-1]]
    counted = {line[4]: int(line[5]) for line in lines}
    lacking = [page for page in PAGES if counted.get(digest(0, page), 0) < 2]
    is_whole = is_clean(done) and sum(counted.values()) == int(lines[0][2]) and sorted(counted) == [line[4] for line in lines]
    subject.tally.holds("digest of a process", is_whole and not lacking, (done.returncode, done.stderr, f"{len(lacking)} lacking"))
    words = ["digest", "--pid", child, "--name", "own"]
    subject.fails("digest of a process that has ended", words, f"process {child}: {MISSING}\n")


def by_fleet(subject: Subject, folder: pathlib.Path, sources: Sequence[Sequence[str]]) -> Any:
    """The numbers of images and processes by their digests, merged."""
    paths = [folder / f"own-{n}.digest" for n in range(len(sources))]
    for path, own in zip(paths, sources):
        path.write_bytes(subject.run(["digest", "--all-memory", "--name", "own", "--salt", "7", *own]).stdout)
    merged = json.loads(subject.run(["fleet", "--json", *map(str, paths)]).stdout)
    for guest in merged["guests"]:
        guest.pop("guest")
    return merged


def estimates(subject: Subject, folder: pathlib.Path) -> None:
    """Two processes that wait, and an image with their pages: by `estimate` as by `digest` and `fleet`."""
    raw, picture = folder / "own.raw", folder / "own.svg"
    raw.write_bytes(b"".join(PAGES))
    with filled() as one, filled() as other:
        sources = [[str(raw)], ["--pid", one], ["--pid", other]]
        words = [word for source in sources for word in source]
        merged = by_fleet(subject, folder, sources)
        done = subject.run(["estimate", "--all-memory", "--json", "--salts", "7,7,7", *words])
        table = subject.run(["estimate", "--all-memory", "--svg", str(picture), *words])
        own = json.loads(subject.run(["estimate", "--json", "--pid", one, "--pid", other]).stdout or b"{}")
    printed, names = json.loads(done.stdout or b"{}"), [f"process {one}", f"process {other}"]
    shared_already, lent_already = printed.pop("shared_already", None), printed.pop("lent_already", None)
    subject.tally.holds("estimate of processes, shared already", shared_already is not None and table.stdout.endswith(b" is shared already.\n"), table)
    subject.tally.equal("estimate of processes, none lent", (lent_already, table.stdout[:7]), ([0, 0], b"Each nu"))
    subject.tally.holds("estimate of processes, private memory", OWN_PAGES <= own.get("total", {}).get("between", 0) < own["total"]["pages"], own)
    subject.tally.holds("estimate of processes, holes", own["total"]["pages"] < printed["total"]["pages"] < 1 << 17, (own, printed))
    images = [guest.pop("image") for guest in printed.get("guests", [])]
    subject.tally.holds("estimate of processes", is_clean(done) and printed == merged, (done.stderr, printed), f"{merged}")
    subject.tally.equal("estimate of processes, names", images, [str(raw), *names])
    total = printed.get("total", {"reclaimed": None, "parts": {"between": 0, "within": 0}})
    parts = total["parts"]
    is_whole = sum(parts.values()) == total["reclaimed"] and min(parts["between"], parts["within"]) >= 2 * OWN_PAGES
    subject.tally.holds("estimate of processes, parts", is_whole, parts)
    is_printed = is_clean(table) and all(name in table.stdout.decode() for name in names)
    is_drawn = picture.exists() and picture.read_text().count("<title>process ") == 2
    subject.tally.holds("estimate of processes, table and picture", is_printed and is_drawn, table)
    ended_processes(subject, folder, str(raw), other)


def lent_processes(subject: Subject) -> None:
    """Processes whose memory shows frames of the host: they are said first."""
    with filled() as one, filled(LENT) as other:
        done = subject.run(["estimate", "--json", "--pid", one, "--pid", other])
        table = subject.run(["estimate", "--pid", one, "--pid", other])
    subject.tally.equal("estimate of processes, lent", json.loads(done.stdout or b"{}").get("lent_already"), [0, 2 * FRAMES])
    first = f"pageshare-host shares 0.0 MiB of process {other} already, which counts below, too.\nEach number in MiB.\n"
    subject.tally.equal("estimate of processes, lent ones first", table.stdout.decode()[: len(first)], first)


def ended_processes(subject: Subject, folder: pathlib.Path, raw: str, ended: str) -> None:
    """Estimates of a process that has ended, of an image that is missing, and with too few salts."""
    words = ["estimate", raw, "--pid", ended]
    subject.fails("estimate of a process that has ended", words, f"process {ended}: {MISSING}\n")
    words = ["estimate", "none", "--pid", ended]
    subject.fails("estimate of an image that is missing and a process", words, f"none: {MISSING}\n", cwd=folder)
    subject.expect("estimate of a process, salts", ["estimate", "--salts", "1", raw, "--pid", ended], 2, "", ANY)
