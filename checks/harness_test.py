#!/usr/bin/env python3
"""Shows checks/harness.py small programs, right and wrong ones, and looks at what it counts and prints.

    checks/harness_test.py

A harness that compares can be wrong itself: it might count a wrong program as right. So each call gets a program or a value that is
as it was due, and others that differ in one byte, in the status or in time. It counts without the harness. Likewise
checks/common/proved.py gets crates that changed since they were proved. Prints what went wrong, and last `N passed, M failed`.
"""
from __future__ import annotations

import argparse
import contextlib
import io
import os
import pathlib
import re
import shutil
import sys
import types
from collections.abc import Callable
from unittest import mock

from common import proved
from harness import ANY, LATE, Done, LeftOut, Tally, close, counts_of, has_package, known_packages, leave, needs, new_folder, parting, run, shown

# A program that repeats its standard input but for so many bytes, says its words on standard error, and ends with a status.
ECHO = """
import sys
less, status, text = int(sys.argv[1]), int(sys.argv[2]), sys.stdin.read()
print(text[:len(text) - less], end="")
print(*sys.argv[3:], end="", file=sys.stderr)
sys.exit(status)
"""
TEXT = "report entries 0\n"
LONG = "a" * 1000 + "b" + "a" * 1000


def echo(less: int = 0, status: int = 0, *words: str) -> Done:
    """How that program ends with TEXT."""
    return run([sys.executable, "-c", ECHO, less, status, *words], TEXT)


class Plain:
    """What was looked at so far, counted without the harness."""

    def __init__(self) -> None:
        self.passed = self.failed = 0

    def same(self, name: str, given: object, due: object) -> None:
        """Two values that must be equal."""
        self.passed += given == due
        self.failed += given != due
        print("" if given == due else f"{name}: {given!r}, and {due!r} was due\n", end="")


def tried(call: str, *words: object) -> tuple[tuple[int, int], object, str]:
    """What a call of a new tally counts, whether it says so, and what it prints."""
    tally, printed = Tally(), io.StringIO()
    with contextlib.redirect_stdout(printed):
        passed = getattr(tally, call)(*words)
    return (tally.passed, tally.failed), passed, printed.getvalue()


def right_ones(plain: Plain) -> None:
    """Cases that must pass, and print nothing."""
    for name, call, words in [
        ("a program", "ends", (echo(), 0, TEXT, "")),
        ("a program that fails as is due", "ends", (echo(0, 3, "no"), 3, TEXT, "no")),
        ("any output", "ends", (echo(), 0, ANY, "")),
        ("a pattern", "ends", (echo(), 0, re.compile(r"report entries \d\n"), "")),
        ("an output that nobody looks at", "ends", (echo(1), 0, None, "")),
        ("equal values", "equal", ([1], [1])),
        ("what holds", "holds", (True, "shown")),
        ("nothing wrong", "case", ([],)),
    ]:
        plain.same(name, tried(call, name, *words), ((1, 0), True, ""))
    plain.same("three cases in one", tried("case", "three", [], 3), ((3, 0), True, ""))


def wrong_ones(plain: Plain) -> None:
    """Cases that must fail, and be printed with their names."""
    for name, call, words in [
        ("a byte less", "ends", (echo(1), 0, TEXT, "")),
        ("a byte more", "ends", (echo(), 0, TEXT[:-1], "")),
        ("another status", "ends", (echo(0, 1), 0, TEXT, "")),
        ("no failure where one is due", "ends", (echo(), 1, TEXT, "")),
        ("a word on standard error", "ends", (echo(0, 0, "a"), 0, TEXT, "")),
        ("another word there", "ends", (echo(0, 1, "a"), 1, TEXT, "b")),
        ("no output where some is due", "ends", (echo(len(TEXT)), 0, ANY, "")),
        ("another status, and no look at the output", "ends", (echo(0, 1), 0, None, None)),
        ("a pattern of less", "ends", (echo(), 0, re.compile(r"report entries \d"), "")),
        ("a program that is too late", "ends", (run(["sleep", "9"], seconds=0.1), 0, "", "")),
        ("a program that is killed", "ends", (run(["sh", "-c", "kill -9 $$"]), 0, "", "")),
        ("other values", "equal", ([1], [2])),
        ("a text with a byte less", "equal", (TEXT[:-1], TEXT)),
        ("bytes and a text", "equal", (TEXT.encode(), TEXT)),
        ("what doesn't hold", "holds", (False, "shown")),
        ("something wrong", "case", (["it is wrong"],)),
    ]:
        counts, passed, printed = tried(call, name, *words)
        plain.same(name, (counts, passed, printed[: len(name) + 2]), ((0, 1), False, f"{name}: "))
    counts, passed, printed = tried("case", "three", ["one", "two"], 3)
    plain.same("three cases in one that fail", (counts, passed, printed), ((0, 3), False, "three: one\nthree: two\n"))


def printed_of(function: Callable[..., object], *words: object) -> tuple[object, str]:
    """What a function returns and prints."""
    printed = io.StringIO()
    with contextlib.redirect_stdout(printed):
        returned = function(*words)
    return returned, printed.getvalue()


def closing_lines(plain: Plain) -> None:
    """The line at the end, and what is read of lines."""
    plain.same("all passed", printed_of(close, 3, 0), (0, "3 passed, 0 failed\n"))
    plain.same("one failed", printed_of(close, 3, 1), (1, "3 passed, 1 failed\n"))
    plain.same("one skipped", printed_of(close, 3, 0, 1), (0, "3 passed, 0 failed, 1 skipped\n"))
    for line, due in [
        ("3 passed, 1 failed\n", (3, 1, 0)), ("3 passed, 1 failed", (3, 1, 0)), ("3 passed, 1 failed, 2 skipped\n", (3, 1, 2)),
        ("3 passed, 1 failed.\n", None), (" 3 passed, 1 failed\n", None), ("3 passed, 1 failed, 2\n", None), ("3 passed\n", None), ("-3 passed, 1 failed\n", None), ("", None),
    ]:
        plain.same(f"the counts of {line!r}", counts_of(line), due)


def named_again(plain: Plain) -> None:
    """What failed is named again before the closing line, but not without end; what passed isn't."""
    cases: list[tuple[list[str], str]] = [([], ""), (["one", "two"], "failed: it: one\nfailed: it: two\n"), (["no"] * 21, "failed: it: no\n" * 20)]
    for wrong, due in cases:
        tally, printed = Tally(), io.StringIO()
        with contextlib.redirect_stdout(io.StringIO()):
            tally.case("it", wrong)
        with contextlib.redirect_stdout(printed):
            status = tally.close()
        plain.same(f"{len(wrong)} wrong", (status, printed.getvalue()), (int(bool(wrong)), f"{due}{int(not wrong)} passed, {int(bool(wrong))} failed\n"))


def taken(plain: Plain) -> None:
    """What another check printed is printed and counted, what failed in it is named at the end, and one that ended otherwise than it should failed."""
    good, bad = "it: good\n3 passed, 0 failed, 1 skipped\n", "it: no\nfailed: it: no\n1 passed, 1 failed\n"
    cases: list[tuple[str, int, str, tuple[int, int, int], list[str]]] = [
        (good, 0, "it: good\n", (3, 0, 1), []),
        (good, 1, "it: good\n", (3, 1, 1), ["case: it ended with status 1"]),
        (bad, 1, "it: no\n", (1, 1, 0), ["it: no"]),
        (bad, 0, "it: no\n", (1, 2, 0), ["it: no"]),
        ("it: good\n", 0, "it: good\n", (0, 1, 0), ["case: it ended with status 0"]),
        ("", -9, "", (0, 1, 0), ["case: it ended with status -9"]),
    ]
    for said, status, printed, counts, wrong in cases:
        tally = Tally()
        shown_then = printed_of(tally.take, "case", said, status)[1]
        found = (shown_then, (tally.passed, tally.failed, tally.skipped), tally.wrong)
        plain.same(f"{said!r} with status {status}", found, (printed, counts, wrong))


def tallied(is_whole: bool, package: str | None) -> tuple[int, int, int]:
    """What a tally counts of a part that lacks a package, where nothing may be left out and where anything may."""
    def part(_of: Tally) -> None:
        raise LeftOut("a part", package)

    tally = Tally()
    with mock.patch.dict(os.environ, {"NOTHING_LEFT_OUT": "1" if is_whole else ""}), contextlib.redirect_stdout(io.StringIO()):
        with mock.patch("harness.has_package", lambda package: package == "there"):
            tally.part(part)
    return tally.passed, tally.failed, tally.skipped


def left_out(plain: Plain) -> None:
    """What a computer can't do is said, and counts as skipped; what it can do is done."""
    def part(of: Tally, program: str) -> None:
        needs("a part", "sh", program)
        of.case("it is done", [])

    plain.same("a part", tried("part", part, "sh"), ((1, 0), None, ""))
    none = "no-such-program-anywhere"
    due = f"left out: a part, since there is no {none}\n"
    plain.same("a part that is left out", tried("part", part, none), ((0, 0), None, due))
    try:
        needs("a part", none)
        plain.same("a program that isn't there", "nothing was left out", "")
    except LeftOut as what:
        plain.same("a program that isn't there", f"left out: {what}\n", due)
    for is_whole, package, counts in [
        (False, "there", (0, 0, 1)), (True, "there", (0, 1, 1)), (True, "nowhere", (0, 0, 1)), (True, None, (0, 0, 1)),
    ]:
        plain.same(f"a part that lacks the package {package}, whole: {is_whole}", tallied(is_whole, package), counts)
    plain.same("a package that there isn't", has_package("no-such-package-anywhere"), False)
    known = {"bash"} if shutil.which("apt-cache") else set()
    plain.same("packages that there are", known_packages(["no-such-package-anywhere", "bash"]), known)


def readable(plain: Plain) -> None:
    """Long texts are cut, around the place where they part."""
    parted = parting(LONG, LONG.replace("b", "c"))
    plain.same("where long texts part", (len(parted) < 800, "ab" in parted, "ac" in parted), (True, True, True))
    plain.same("a short text", shown("a\n"), repr("a\n"))
    plain.same("a long text", (len(shown(LONG)) < 400, "of 2001" in shown(LONG)), (True, True))


def folders(plain: Plain) -> None:
    """A folder that goes away, and a text that stays."""
    with new_folder() as folder:
        (folder / "file").write_text(TEXT)
        is_there = folder.is_dir()
    plain.same("a new folder", (is_there, folder.exists()), (True, False))
    place = leave("harness_test/text", TEXT)
    plain.same("a text that is left", place.read_text(), TEXT)
    place.unlink()
    place.parent.rmdir()
    plain.same("a program that is too late", run(["sleep", "9"], seconds=0.1).returncode, LATE)


def crate_in(folder: pathlib.Path, name: str, *below: types.SimpleNamespace) -> types.SimpleNamespace:
    """A crate as the kit has it, with a file and a folder out/."""
    (folder / name / "src").mkdir(parents=True)
    (folder / name / "out").mkdir()
    (folder / name / "src/lib.rt").write_text(name)
    return types.SimpleNamespace(name=name, folder=f"{folder / name}", deps=below, of_kit=["core"], is_static=False)


def notes(plain: Plain) -> None:
    """A crate counts as proved only of the files that it and the crates below it had, and only over the library of `rt ci`."""
    with new_folder() as folder:
        (folder / "KIT-ID").write_text("kit")
        kit, low = types.SimpleNamespace(KIT=folder), crate_in(folder, "low")
        high = crate_in(folder, "high", low)

        def are_proved() -> list[bool]:
            return [proved.is_proved(it, proved.sums_of(kit, [low, high])[it.name]) for it in (low, high)]

        plain.same("crates without a note", are_proved(), [False, False])
        sums = proved.sums_of(kit, [low, high])
        for it in (low, high):
            proved.note(it, sums[it.name])
        plain.same("crates with a note", are_proved(), [True, True])
        for name, file, due in [
            ("another file above", "high/src/more.rt", [True, False]),
            ("another kit", "KIT-ID", [False, False]),
            ("another command's library", "low/out/rlib/stamp", [False, True]),
            ("a changed file below", "low/src/lib.rt", [False, False]),
        ]:
            place = folder / file
            before = place.read_text() if place.exists() else None
            place.parent.mkdir(exist_ok=True)
            place.write_text("other")
            plain.same(name, are_proved(), due)
            place.unlink() if before is None else place.write_text(before)
        plain.same("the files of before", are_proved(), [True, True])


def main() -> int:
    argparse.ArgumentParser(description=__doc__.splitlines()[0]).parse_args()
    plain = Plain()
    for part in (right_ones, wrong_ones, closing_lines, named_again, taken, left_out, readable, folders, notes):
        part(plain)
    print(f"{plain.passed} passed, {plain.failed} failed")
    return 1 if plain.failed else 0


if __name__ == "__main__":
    sys.exit(main())
