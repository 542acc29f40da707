"""What the checks share: they run programs, compare, count, and end with the line that the gate reads. Standard library only.

    tally = Tally()
    tally.ends("a journal that is cut off", run([PROGRAM, "replay"], "pageshare"), 1, "fault truncated line 1\n")
    tally.equal("the first page", pages[0], ZEROS)
    tally.holds("the time", seconds < 5, seconds)
    tally.part(with_a_compiler, library)
    sys.exit(tally.close())

Each of these lines but the last two is a case. A case that fails is printed: its name, what was got, and what was due. `close` prints
that once more, as `failed: NAME: ..`, since a long output may lie between. It then prints `N passed, M failed`, with `, K skipped` where
parts were left out, and returns the status of the check, which is 0 where none failed and else 1. A part is a function that takes the
tally; if it raises LeftOut, this computer can't do it, which is printed and counted as skipped. With NOTHING_LEFT_OUT=1 in the environment it counts as failed as well if Debian has a package for it that this computer lacks.
"""
from __future__ import annotations

import contextlib
import functools
import os
import pathlib
import re
import shutil
import subprocess
import tempfile
from collections.abc import Callable, Iterable, Iterator
from typing import Any, Union

TOP = pathlib.Path(__file__).resolve().parent.parent
OUT = TOP / "out"
# The program that most checks are of, unless they are called with another one (`make build` leaves it there).
PROGRAM = str(OUT / "pageshare")
# How a program ended, and its status: a number, or LATE of one that didn't end in time.
Done = subprocess.CompletedProcess[bytes]
Status = Union[int, str]
LATE: Any = "too late"
# A path, or a word of a command.
StrPath = Union[str, "os.PathLike[str]"]
# What an output must be: a text, a pattern of it, or None if nobody looks at it.
Due = Union[str, re.Pattern[str], None]
# Any text but the empty one.
ANY = re.compile(".+", re.S)
CLOSING = re.compile(r"(\d+) passed, (\d+) failed(?:, (\d+) skipped)?\n?")
# How a check begins each line that names a failed case again at its end, and how many such lines there are at most.
FAILED_CASE, NAMED_MOST = "failed: ", 20
# The packages of Debian that have the programs which parts of checks need.
PACKAGES = {
    "cc": "gcc", "c++": "g++", "gcc": "gcc", "g++": "g++", "clang": "clang", "clang++": "clang", "ar": "binutils", "nm": "binutils",
    "cargo": "cargo", "rustc": "rustc", "valgrind": "valgrind", "pkg-config": "pkg-config", "mandoc": "mandoc", "man": "man-db",
    "zsh": "zsh", "fish": "fish", "qemu-x86_64": "qemu-user", "qemu-system-x86_64": "qemu-system-x86", "qemu-img": "qemu-utils",
    "busybox": "busybox-static", "setpriv": "util-linux", "promtool": "prometheus", "systemd-analyze": "systemd", "mypy": "mypy", "flake8": "flake8",
    "systemd-sysusers": "systemd", "systemd-tmpfiles": "systemd", "mmdebstrap": "mmdebstrap", "systemd-nspawn": "systemd-container",
    "dpkg-deb": "dpkg", "lintian": "lintian", "apparmor_parser": "apparmor", "shellcheck": "shellcheck",
}
# How much of a long text is shown, and how much of that comes before the first difference.
MOST, BEFORE = 300, 60


class LeftOut(Exception):
    """What this computer can't do, and why; with the package of Debian that would mend it, if there is one."""

    def __init__(self, what: object, package: str | None = None) -> None:
        super().__init__(f"{what} (Debian's {package})" if package else what)
        self.package = package


def needs(what: str, *programs: str) -> None:
    """Leaves `what` out if one of these programs isn't there."""
    for program in programs:
        if shutil.which(program) is None:
            raise LeftOut(f"{what}, since there is no {program}", PACKAGES.get(pathlib.Path(program).name))


def known_packages(names: Iterable[str]) -> set[str]:
    """Those of these packages of Debian that this computer's apt-get could install."""
    wanted = list(names)
    if not wanted or shutil.which("apt-cache") is None:
        return set()
    how = {**os.environ, "LC_ALL": "C"}
    words = ["apt-cache", "policy", *wanted]
    said = subprocess.run(words, env=how, stdin=subprocess.DEVNULL, capture_output=True, text=True, check=False).stdout
    return set(re.findall(r"(?m)^(\S+):\n.*\n  Candidate: (?!\(none\))", said))


@functools.cache
def has_package(package: str) -> bool:
    """Whether this computer's apt-get could install a package of Debian."""
    return package in known_packages([package])


def must_not_lack(package: str | None) -> bool:
    """Whether a part that was left out for want of this package has failed."""
    return os.environ.get("NOTHING_LEFT_OUT") == "1" and package is not None and has_package(package)


def run(words: Iterable[object], text: str | bytes = "", seconds: float = 60, **how: Any) -> Done:
    """Runs a program with this standard input. Its output is bytes, and its status is LATE if it is ended after these seconds.

    `how` goes on to subprocess.run.
    """
    called, given = list(map(str, words)), text.encode() if isinstance(text, str) else text
    try:
        how = {"stdout": subprocess.PIPE, "stderr": subprocess.PIPE, **how}
        return subprocess.run(called, input=given, timeout=seconds, check=False, **how)
    except subprocess.TimeoutExpired as late:
        return subprocess.CompletedProcess(called, LATE, late.stdout or b"", late.stderr or b"")


@contextlib.contextmanager
def new_folder() -> Iterator[pathlib.Path]:
    """The path of an empty folder, which is removed in the end."""
    with tempfile.TemporaryDirectory(prefix="checks-") as name:
        yield pathlib.Path(name)


def leave(name: str, text: str | bytes) -> pathlib.Path:
    """Leaves what failed at out/NAME, and returns where that is."""
    place = OUT / name
    place.parent.mkdir(parents=True, exist_ok=True)
    place.write_bytes(text.encode() if isinstance(text, str) else text)
    return place


def shown(value: Any, start: int = 0) -> str:
    """How a case prints a value: of a long one a part from here on."""
    value = value.pattern if isinstance(value, re.Pattern) else value
    text: Any = value if isinstance(value, (str, bytes)) else repr(value)
    part = text[start : start + MOST]
    place = f" ({start} to {start + len(part)} of {len(text)})" if len(part) < len(text) else ""
    return str(part if text is not value else repr(part)) + place


def parting(given: Any, due: Any) -> str:
    """What was got and what was due. Two texts are shown from shortly before the place where they part."""
    start = 0
    if isinstance(given, (str, bytes)) and isinstance(due, type(given)):
        same = next((at for at, pair in enumerate(zip(given, due)) if pair[0] != pair[1]), min(len(given), len(due)))
        start = max(0, same - BEFORE) if max(len(given), len(due)) > MOST else 0
    return f"{shown(given, start)}, and {shown(due, start)} was due"


def wrong_end(done: Done, status: Status, out: Due, err: Due) -> Iterator[str]:
    """What is wrong with how a program ended, see Tally.ends."""
    if done.returncode != status:
        yield f"status {done.returncode}, and {status} was due"
    for what, due, given in [("output", out, done.stdout), ("error", err, done.stderr)]:
        if due is not None:
            text = given.decode("utf-8", "replace")
            is_right = due.fullmatch(text) if isinstance(due, re.Pattern) else text == due
            if not is_right:
                yield f"standard {what} is {parting(text, due)}"


def close(passed: int, failed: int, skipped: int | None = None) -> int:
    """Prints the closing line, and returns the status that goes with it. It says how much was skipped unless that is None."""
    print(f"{passed} passed, {failed} failed{'' if skipped is None else f', {skipped} skipped'}", flush=True)
    return 1 if failed else 0


def counts_of(line: str) -> tuple[int, int, int] | None:
    """How many passed, failed and were skipped by a closing line; None of another line."""
    found = CLOSING.fullmatch(line)
    return (int(found[1]), int(found[2]), int(found[3] or 0)) if found else None


def heard(said: str, status: int) -> tuple[list[str], tuple[int, int, int]]:
    """The lines that another check printed before its closing line, and what it counted as passed, failed and skipped. One that ended otherwise
    than it should has failed once more."""
    lines = said.splitlines()
    closing = counts_of(lines[-1]) if lines else None
    passed, failed, skipped = closing or (0, 0, 0)
    is_well = closing is not None and status == (1 if failed else 0)
    return lines[:-1] if closing else lines, (passed, failed if is_well else failed + 1, skipped)


class Tally:
    """The cases so far. What adds a case returns whether it passed."""

    def __init__(self) -> None:
        self.passed = self.failed = self.skipped = 0
        self.wrong: list[str] = []

    def case(self, name: str, wrong: Iterable[str], count: int = 1) -> bool:
        """A case, or so many, with the list of what is wrong: nothing where it passed."""
        wrong = list(wrong)
        for what in wrong:
            print(f"{name}: {what}", flush=True)
        self.wrong += [f"{name}: {what}" for what in wrong]
        self.passed += 0 if wrong else count
        self.failed += count if wrong else 0
        return not wrong

    def equal(self, name: str, given: object, due: object) -> bool:
        """Whether a value is the one that was due."""
        return self.case(name, [] if given == due else [parting(given, due)])

    def holds(self, name: str, is_so: object, given: object, due: str = "") -> bool:
        """Whether something holds of a value. `due` says in words what that is, where the name doesn't."""
        return self.case(name, [] if is_so else [f"not so of {shown(given)}" + (f", and {due} was due" if due else "")])

    def ends(self, name: str, done: Done, status: Status = 0, out: Due = "", err: Due = "") -> bool:
        """Whether a program ended as was due: each output is a whole text, a pattern of it, or None if nobody looks at it."""
        return self.case(name, wrong_end(done, status, out, err))

    def part(self, function: Callable[..., object], *words: object) -> None:
        """A part of the check, which takes this tally and these words, or is left out."""
        try:
            function(self, *words)
        except LeftOut as what:
            self.leave_out(what, what.package)

    def leave_out(self, what: object, package: str | None = None) -> None:
        """Counts what was left out, and prints it."""
        self.skipped += 1
        print(f"left out: {what}", flush=True)
        if must_not_lack(package):
            self.case("nothing may be left out here", [f"there is a package {package}"])

    def take(self, name: str, said: str, status: int) -> None:
        """Prints and counts what another check printed, of this name, which ended with this status."""
        lines, (passed, failed, skipped) = heard(said, status)
        named = [it.removeprefix(FAILED_CASE) for it in lines if it.startswith(FAILED_CASE)]
        print("".join(f"{it}\n" for it in lines if not it.startswith(FAILED_CASE)), end="", flush=True)
        self.passed, self.failed, self.skipped = self.passed + passed, self.failed + failed, self.skipped + skipped
        self.wrong += named if named or not failed else [f"{name}: it ended with status {status}"]

    def close(self) -> int:
        """Ends the check: prints what failed once more and the closing line, and returns the status."""
        for what in self.wrong[:NAMED_MOST]:
            print(f"{FAILED_CASE}{what}")
        return close(self.passed, self.failed, self.skipped or None)
