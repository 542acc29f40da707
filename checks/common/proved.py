"""Which crates are proved in out/ of the files as they are now, and how to prove the others.

Some kits keep what `rt ci` proved in a folder of their own (`keeps`), and take it from there. Others keep nothing. With these, a note
in crates/NAME/out/proved says of which files the library or program beside it was proved: a sum of the crate's files, of the crates
below it and of the kit. The notes are as trustworthy as out/ itself.
"""
from __future__ import annotations

import copy
import functools
import hashlib
import os
import pathlib
import re
import tempfile
import threading
from collections.abc import Callable, Container, Iterable, Mapping
from typing import Any

from harness import TOP

PARTS = ("src", "specs", "proofs")
# How much is printed of what a check said of a crate that isn't proved.
MOST_SAID = 6000


def keeps(kit: Any) -> bool:
    """Whether the kit keeps what it proved."""
    return hasattr(kit, "Kept")


def crates_of(kit: Any, top: pathlib.Path = TOP) -> dict[str, Any]:
    """All crates of this tree, or of another one, by name, lowest first."""
    kit.Crate.allowed = kit.handles_of(str(top))
    return {it.name: it for it in sorted(kit.rtlib.crates_below(str(top)), key=lambda it: len(it.below()))}


def kit_id(kit: Any) -> str:
    """The kit's one-line identity."""
    return pathlib.Path(kit.KIT, "KIT-ID").read_text(encoding="utf-8")


def whole(_file: pathlib.Path, text: bytes) -> bytes:
    """All of a source."""
    return text


def without_comments(file: pathlib.Path, text: bytes) -> bytes:
    """A source without the lines that are comments."""
    mark = {".rt": rb"//", ".antt": rb"--"}.get(file.suffix)
    return re.sub(rb"(?m)^[ \t]*" + mark + rb".*\n", b"", text) if mark else text


def sums_of(kit: Any, crates: Iterable[Any], prover: str = "", of: Callable[[pathlib.Path, bytes], bytes] = whole) -> dict[str, str]:
    """What each crate's proof rests on, as a sum by its name. A crate comes after those below it. The prover is the kit, or what is given;
    `of` is what counts of a source."""
    sums: dict[str, str] = {}
    prover = prover or kit_id(kit)
    for crate in crates:
        folder, rests = pathlib.Path(crate.folder), hashlib.sha256()
        rests.update(repr((prover, crate.name, crate.is_static, sorted(crate.of_kit), [sums[it.name] for it in crate.deps])).encode())
        for file in sorted(it for part in PARTS for it in (folder / part).rglob("*") if it.is_file()):
            rests.update(repr((str(file.relative_to(folder)), hashlib.sha256(of(file, file.read_bytes())).hexdigest())).encode())
        sums[crate.name] = rests.hexdigest()
    return sums


def is_proved(crate: Any, due: str) -> bool:
    """Whether out/ has what `rt ci` left of the files of this sum. (A stamp is that of another command's library.)"""
    note, stamp = pathlib.Path(crate.folder, "out/proved"), pathlib.Path(crate.folder, "out/rlib/stamp")
    return note.is_file() and note.read_text(encoding="utf-8") == due and not stamp.exists()


def note(crate: Any, due: str) -> None:
    """Notes that out/ has what was proved of the files of this sum."""
    pathlib.Path(crate.folder, "out/proved").write_text(due, encoding="utf-8")


def sums_now(kit: Any) -> dict[str, str]:
    """What all crates rest on; nothing with a kit that keeps what it proved."""
    return {} if keeps(kit) else sums_of(kit, crates_of(kit).values())


def note_all(kit: Any, names: Container[str], before: Mapping[str, str]) -> None:
    """Notes those of these crates that rest on what they rested on before, when `rt ci` began."""
    now = sums_now(kit)
    for crate in crates_of(kit).values():
        if crate.name in names and crate.name in now and now[crate.name] == before[crate.name]:
            note(crate, now[crate.name])


def proved_alone(crate: Any, tests: bool, jobs: int) -> tuple[bool, str]:
    """Proves a crate, or its tests, over the libraries in out/. Returns whether it is proved, and what was said if it isn't."""
    crate = copy.copy(crate)
    os.makedirs(f"{crate.folder}/out", exist_ok=True)
    with tempfile.TemporaryFile("a+", errors="replace") as crate.out:
        is_well = not crate.ci(["--jobs", str(jobs)], tests)
        crate.out.seek(0)
        return is_well, "" if is_well else crate.out.read()[-MOST_SAID:]


def prove(kit: Any, names: Iterable[str], tested: Iterable[str] = ()) -> bool:
    """Proves these crates and those below them, side by side, but for what is proved; and the tests of some. Returns whether all are."""
    every = crates_of(kit)
    sums, printing = sums_of(kit, every.values()), threading.Lock()
    wanted = {it.name for name in [*names, *tested] for it in [*every[name].below(), every[name]]}
    missing = [it for it in every.values() if it.name in wanted and not is_proved(it, sums[it.name])]

    def work(crate: Any, tests: bool, given: Mapping[tuple[str, bool], bool], jobs: int) -> bool:
        if not all(given[it.name, False] for it in crate.below() if it in missing):
            return False
        is_well, said = proved_alone(crate, tests, jobs)
        if is_well and not tests:
            note(crate, sums[crate.name])
        with printing:
            print(f"{said}{crate.name}{': its tests' if tests else ''} {'proved' if is_well else 'NOT PROVED'}", flush=True)
        return is_well

    tasks = {}
    for crate, tests in [*((it, False) for it in missing), *((every[it], True) for it in tested if every[it].has_tests())]:
        waits = [(it.name, False) for it in crate.below() if it in missing]
        tasks[crate.name, tests] = (waits, crate.count(rb"\n"), kit.need(crate), functools.partial(work, crate, tests))
    return all(kit.in_lanes(tasks).values())
