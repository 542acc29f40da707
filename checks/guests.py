#!/usr/bin/env python3
"""Builds monitor/ and runs guests under KVM whose memory the library shares.

    checks/guests.py [LIBRARY [SECONDS]]

LIBRARY is libpageshare.a, by default out/libpageshare.a (`make embed`); a fleet and its stress run for SECONDS each, by default 30, and
with 0 everything is only built. All that is built goes to out/monitor. In turn: two guests of a few instructions; a program that is no guest's, refused; a fleet of three
guests, and a table of its figures beside their goals; a fleet under stress, two processors a guest, of which guests end and others
begin; a record of a fleet's events, played by `out/window_trace`; a journal of 100,000 requests, replayed by `out/pageshare replay` to
the same verdicts and report; a stand-in for a kernel, booted as Linux is. What the computer has no KVM, no userfaultfd or no compiler for
is left out, and so said. `make windows` has the tests of windows that need no KVM.

With KERNEL=BZIMAGE in the environment a fleet of Linux guests runs as well, whose first process is init.c.

With KSM=1 in the environment (as root) the same guests run under the kernel's KSM too, at its own settings and faster ones, and
without sharing, and a table of all is printed. KSM's settings are put back when this program ends, however it ends. CC names another
compiler than cc, and CFLAGS more words for it.

A guest that saw a wrong word or did not run prints that. The last line is `N passed, M failed`, of the programs that ran (status 0 where
all passed, else 1).
"""
from __future__ import annotations

import argparse
import json
import os
import pathlib
import struct
import sys
from collections.abc import Sequence
from typing import Any

from common.c_programs import CC, FLAGS, LENDER, WINDOW, WINDOW_LIBRARY, can_open, compile_c, needs_windows, passes, play, run
from harness import OUT as BUILT
from harness import TOP, LeftOut, StrPath, Tally, leave, needs

SOURCES, OUT = TOP / "monitor", BUILT / "monitor"
GUEST_FLAGS = (
    "-std=c11 -O2 -Wall -Wextra -Wconversion -Werror -ffreestanding -nostdlib -static -fno-pic -fno-stack-protector "
    "-fcf-protection=none -mgeneral-regs-only -mno-red-zone -Wl,-Ttext-segment=0x200000,--build-id=none,-e,begin"
).split()
PROGRAMS = {"tiny": ["vm"], "fleet": ["looker", "vm", "linux", "voices", "count", "figures"]}
# (a journal ends where a page more might be too much, up to 65 requests before this number)
REQUESTS = 100_100
KSM = pathlib.Path("/sys/kernel/mm/ksm")
# What a fleet says of itself, by its names in --json.
Figures = dict[str, Any]


def build(name: str, library: StrPath, more: Sequence[str] = (), suffix: str = "") -> pathlib.Path:
    """Builds a program, and returns its path."""
    sources = [SOURCES / f"{part}.c" for part in [name, *PROGRAMS[name]]]
    return compile_c([*FLAGS, *more, f"-I{TOP / 'lib/include'}", *sources, *LENDER, *WINDOW, library, WINDOW_LIBRARY], OUT / (name + suffix))


def build_guest() -> pathlib.Path:
    """A guest's own program, without a system below it."""
    return compile_c([*GUEST_FLAGS, SOURCES / "guest.c"], OUT / "guest")


def padded(data: bytes) -> bytes:
    """Filled up to four bytes."""
    return data + bytes(-len(data) % 4)


def entry(number: int, name: bytes, mode: int, data: bytes) -> bytes:
    """An entry of an archive: thirteen numbers, of which here count inode, mode, links, size, and the name's length."""
    numbers = [number, mode, 0, 0, 1, 0, len(data), 0, 0, 0, 0, len(name) + 1, 0]
    head = b"070701" + b"".join(b"%08X" % of for of in numbers) + name + b"\0"
    return padded(head) + padded(data)


def build_initramfs() -> pathlib.Path:
    """An archive (cpio, newc) with one file, the first process of a Linux guest."""
    init = compile_c([*FLAGS, "-static", "-DGUEST_OF_LINUX", SOURCES / "init.c", SOURCES / "guest.c"], OUT / "init")
    path = OUT / "initramfs"
    path.write_bytes(entry(1, b"init", 0o100755, init.read_bytes()) + entry(0, b"TRAILER!!!", 0, b""))
    return path


def build_standin() -> pathlib.Path:
    """A bzImage of standin.c: two sectors with a header (at 0x1f1), and the program, which is entered 0x200 behind its beginning."""
    at, room, path = 0x1000000, 0x100000, OUT / "standin"
    places = f"-Wl,--section-start=.begin={at + 0x200:#x},-Ttext={at + 0x1000:#x},--build-id=none,--oformat=binary,-e,begin"
    flags = [flag for flag in GUEST_FLAGS if not flag.startswith("-Wl")]
    compile_c([*flags, "-fno-asynchronous-unwind-tables", places, SOURCES / "standin.c"], path)
    head = bytearray(1024)
    for place, form, value in [
        (0x1F1, "<B", 1),  # sectors behind the first
        (0x202, "<4s", b"HdrS"),
        (0x206, "<H", 0x20F),  # the protocol's version
        (0x22C, "<I", 0x7FFFFFFF),  # the last place for an initramfs
        (0x236, "<H", 1),  # it has a 64-bit beginning
        (0x258, "<Q", at),
        (0x260, "<I", room),
    ]:
        struct.pack_into(form, head, place, value)
    path.write_bytes(bytes(head) + bytes(0x200) + path.read_bytes())
    return path


def wrong_program(tally: Tally, fleet: pathlib.Path, guest: pathlib.Path) -> None:
    """A guest's program whose segment would wrap round the end of addresses is refused."""
    image = bytearray(guest.read_bytes())
    at, size, count = struct.unpack_from("<Q", image, 32)[0], *struct.unpack_from("<HH", image, 54)
    for i in range(count):
        if struct.unpack_from("<I", image, at + i * size)[0] == 1:  # a segment that is loaded
            struct.pack_into("<Q", image, at + i * size + 24, 2**64 - 0x1000)
            struct.pack_into("<Q", image, at + i * size + 40, 0x300000 + 0x1000)
    path = OUT / "wrong_guest"
    path.write_bytes(image)
    done = run([fleet, "--guests", "1", "--mib", "6", "--seconds", "1", path], capture_output=True)
    tally.equal("a program that wraps round the end of addresses, its status", done.returncode, 1)


class Settings:
    """KSM's settings. A process of its own puts them back when this one's end of a pipe is closed, whatever closed it."""

    def __init__(self) -> None:
        names = ["sleep_millisecs", "pages_to_scan", "run"]
        self.before = [(name, (KSM / name).read_text()) for name in names]
        ours, self.pipe = os.pipe()
        self.keeper = os.fork()
        if self.keeper == 0:
            os.close(self.pipe)
            os.setsid()
            os.read(ours, 1)
            (KSM / "run").write_text("2")  # parts what was merged
            for name, value in self.before:
                (KSM / name).write_text(value)
            os._exit(0)
        os.close(ours)

    def set(self, sleep: int, pages: int) -> None:
        """KSM at this speed, with nothing merged."""
        (KSM / "run").write_text("2")
        (KSM / "sleep_millisecs").write_text(str(sleep))
        (KSM / "pages_to_scan").write_text(str(pages))
        (KSM / "run").write_text("1")

    def off(self) -> None:
        """No KSM, with nothing merged."""
        (KSM / "run").write_text("2")

    def put_back(self) -> None:
        """Lets the settings be put back."""
        os.close(self.pipe)
        os.waitpid(self.keeper, 0)


def ksmd() -> str:
    """The number of KSM's thread."""
    for path in pathlib.Path("/proc").glob("[0-9]*/comm"):
        if path.read_text().strip() == "ksmd":
            return path.parent.name
    return ""


def row(name: str, of: Figures) -> str:
    """A line of the table."""
    share = 100 * of["saved"] / of["bound"]
    return (
        f"| {name} | {of['mib_before']:.0f}, {of['mib_settled']:.1f}, {of['mib_end']:.1f} "
        f"| {of['saved']:,} of {of['bound']:,} ({share:.1f} %) | {of['settled_s']:.0f} "
        f"| {of['processor_s']:.1f} ({of['rounds']}) | {of['ksmd_s']:.2f} | {of['round_ms']:.0f} | {of['write_cycles']:,.0f} |"
    )


def compare(tally: Tally, fleet: pathlib.Path, guest: pathlib.Path, seconds: str) -> None:
    """The same guests under the library, KSM and nothing: one table."""
    if not os.access(KSM / "run", os.W_OK) or os.geteuid() != 0:
        raise LeftOut("KSM, which takes root and a kernel that has it")
    ways: list[tuple[str, str, tuple[int, int] | None]] = [("plain", "plain", None), ("lend", "lend", None)]
    ways += [(f"KSM {sleep} ms x {pages}", "ksm", (sleep, pages)) for sleep, pages in [(20, 100), (20, 1000)]]
    rows: list[str] = []
    settings = Settings()
    try:
        for name, way, speed in ways:
            if speed:
                settings.set(*speed)
            else:
                settings.off()
            path = OUT / f"way{len(rows)}.json"
            words: list[StrPath] = [fleet, "--seconds", seconds, "--way", way, "--json", path, guest]
            if passes(tally, words, env={**os.environ, "KSMD": ksmd()}):
                rows.append(row(name, json.loads(path.read_text())))
    finally:
        settings.put_back()
    heads = ["", "MiB before, settled, end", "saved of the bound", "settled, s", "processor s (rounds)", "ksmd s", "ms a round"]
    print("| " + " | ".join([*heads, "cycles a seldom write"]) + " |")
    print("|" + "---|" * (len(heads) + 1))
    print("\n".join(rows))


def goals(lend: Figures) -> None:
    """A table of a fleet's figures beside their goals, which are for an idle machine: here none fails the run."""
    rows = [
        ("saved of the bound, %", "at least 99.5", 100 * lend["saved"] / lend["bound"]),
        ("lending a page, us", "at most 10", lend["lend_us"]),
        ("the longest that a page was held, us", "at most 5,000", lend["hold_most_us"]),
        ("memory beside pages, % of what is lent", "at most 1.2", 100 * lend["beside"]),
        ("processor time of looks, % of one processor", "", 100 * lend["look_s"] / lend["samples"][-1][0]),
        ("pages lent for each mapping", "", lend["lent"] / lend["mappings"]),
    ]
    print("| what | goal | here |\n|---|---|---|")
    for what, goal, here in rows:
        print(f"| {what} | {goal} | {here:.1f} |")


def trace(tally: Tally, library: StrPath, guest: pathlib.Path) -> None:
    """A record of a fleet's events through the proved program that plays them."""
    text = OUT / "fleet.trace"
    fleet = build("fleet", library, ["-DWINDOW_TRACE"], "_trace")
    words: list[StrPath] = ["--seconds", "10", "--guests", "2", "--mib", "6", "--round", "50", "--renew", "3", "--trace", text]
    if passes(tally, [fleet, *words, guest]):
        tally.part(play, text)


def replay(tally: Tally, text: pathlib.Path) -> None:
    """A fleet's journal through the proved replay."""
    program = BUILT / "pageshare"
    if not program.exists():
        raise LeftOut("the replay of that journal, since there is no out/pageshare (make build)")
    replayed, due = run([program, "replay", text], capture_output=True).stdout, text.with_suffix(".journal.replay").read_bytes()
    is_so = tally.equal("the replay of a fleet's journal", replayed, due)
    if not is_so:
        print(f"it is at {leave('monitor/fleet.journal.differs', replayed)}, and out/monitor/fleet.journal.replay was due")
        return
    lines = replayed.decode("ascii").splitlines()
    print(f"replayed: {len(lines) - 1:,} verdicts as the monitor got them, and {lines[-1]}")


def journal(tally: Tally, fleet: pathlib.Path, guest: pathlib.Path) -> None:
    """A fleet's journal, and its replay."""
    text = OUT / "fleet.journal"
    words: list[StrPath] = ["--seconds", "60", "--guests", "2", "--mib", "6", "--round", "50"]
    words += ["--requests", str(REQUESTS), "--journal", text]
    if passes(tally, [fleet, *words, guest]):
        tally.part(replay, text)


def kernels(tally: Tally, fleet: pathlib.Path, seconds: str) -> None:
    """A stand-in for a kernel, booted as Linux is; and Linux, if KERNEL names one."""
    initramfs = build_initramfs()
    passes(tally, [fleet, "--seconds", "3", "--mib", "32", "--kernel", build_standin(), "--initrd", initramfs])
    if os.environ.get("KERNEL"):
        words: list[StrPath] = ["--kernel", os.environ["KERNEL"], "--initrd", initramfs]
        passes(tally, [fleet, "--seconds", str(max(int(seconds), 60)), "--mib", "256", *words])


def builds(tally: Tally, library: StrPath) -> None:
    """Every program, and a fleet that records events."""
    needs("the monitor", CC)
    makes = {
        "the fleet": lambda: build("fleet", library), "a fleet that records events": lambda: build("fleet", library, ["-DWINDOW_TRACE"], "_trace"),
        "two guests of a few instructions": lambda: build("tiny", library), "a guest's program": build_guest, "a stand-in": build_standin,
        "the first process of a Linux guest": build_initramfs,
    }
    for name, make in makes.items():
        try:
            tally.case(f"{name} is built", [] if make() else ["it isn't"])
        except SystemExit as cause:
            tally.case(f"{name} is built", [str(cause)])


def with_guests(tally: Tally, library: StrPath, seconds: str) -> None:
    """Each run of guests in turn."""
    needs_windows()
    if not can_open("/dev/kvm"):
        raise LeftOut("guests, since there is no /dev/kvm")
    fleet, guest = build("fleet", library), build_guest()
    passes(tally, [build("tiny", library)])
    wrong_program(tally, fleet, guest)
    figures = OUT / "fleet.json"
    if passes(tally, [fleet, "--seconds", seconds, "--json", figures, guest]):
        goals(json.loads(figures.read_text()))
        passes(tally, [TOP / "benches/held.py", figures])
    stress = ["--processors", "2", "--round", "20", "--rest", "2", "--mib", "64", "--renew", "3"]
    passes(tally, [fleet, "--seconds", seconds, *stress, guest])
    trace(tally, library, guest)
    journal(tally, fleet, guest)
    kernels(tally, fleet, seconds)
    if os.environ.get("KSM") == "1":
        tally.part(compare, fleet, guest, seconds)


def main() -> int:
    options = argparse.ArgumentParser(description=__doc__.splitlines()[0])
    options.add_argument("library", metavar="LIBRARY", nargs="?", type=pathlib.Path, default=BUILT / "libpageshare.a")
    options.add_argument("seconds", metavar="SECONDS", nargs="?", type=int, default=30)
    given = options.parse_args()
    if not given.library.exists():
        sys.exit(f"there is no library {given.library}")
    tally = Tally()
    if given.seconds == 0:
        tally.part(builds, given.library)
    else:
        tally.part(with_guests, given.library, str(given.seconds))
    return tally.close()


if __name__ == "__main__":
    sys.exit(main())
