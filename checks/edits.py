#!/usr/bin/env python3
"""Tries edits of crates/NAME/edits, all those of a crate in one check: the prover must refuse each.

    checks/edits.py [--all | --control] [CRATE ..]

To be run at the repository's top after `make test`, over the libraries that it left in out/. checks/common/edit_trial.py says how edits
are tried, and what counts as a refusal.

The record, checks/refusals.txt, has a line for each edit that was refused, with a sum of all that this rests on. This script tries each
edit whose line isn't there or has another sum: those that are new, and those of each crate that changed or stands over one that did. Of
the other crates it tries a tenth whole, another tenth with each commit. With --all it tries every edit, and with names every edit of these
crates. It writes the record anew: commit it with the change.

With --control no edit is put in, and the copies that edits stand in must all be proved: so no edit is refused for being in a copy.

Prints each edit that it tried with its first error, how long each check took, and last 'N passed, M failed' (status 0 where M is 0, else 1).
A line of the record that isn't a name and a sum counts as failed.
"""
from __future__ import annotations

import argparse
import os
import pathlib
import resource
import subprocess
import sys
import threading
from collections.abc import Callable, Iterable, Mapping, Sequence
from typing import Any

from common import proved
from common.edit_trial import Result, Trial
from common.kit import load_kit
from common.refusals import FILE, Record, edits_of

# Which part of the crates a run tries though nothing of them changed.
PARTS = 10


def turn_of(top: pathlib.Path) -> int:
    """The number of commits up to this one, which says whose turn it is; 0 where git has none."""
    said = subprocess.run(["git", "rev-list", "--count", "HEAD"], cwd=top, capture_output=True, text=True, check=False).stdout.strip()
    return int(said) if said.isdigit() else 0


def chosen(record: Record, crates: Sequence[Any], turn: int, is_all: bool) -> dict[str, list[str]]:
    """The edits to try, by crate."""
    found = {}
    for place, crate in enumerate(sorted(crates, key=lambda it: str(it.name))):
        is_whole = is_all or place % PARTS == turn % PARTS
        found[crate.name] = [it for it in edits_of(crate) if is_whole or not record.is_known(crate.name, it)]
    return {name: edits for name, edits in found.items() if edits}


def misnamed(crate: Any) -> list[Result]:
    """What lies among a crate's edits and is none."""
    wrong = sorted(it for it in os.listdir(f"{crate.folder}/edits") if not it.endswith((".edit", ".md")))
    return [(False, f"edit {crate.name}/{it}: BAD EDIT: an edit's name ends in .edit") for it in wrong]


def side_by_side(kit: Any, crates: Iterable[Any], work: Callable[[Any], tuple[list[str], list[Result]]]) -> list[Result]:
    """Does this for all crates, as many side by side as processors and memory allow, and prints what it says. Returns all results."""
    printing = threading.Lock()

    def one(crate: Any) -> list[Result]:
        try:
            lines, results = work(crate)
        except (OSError, RuntimeError) as error:
            lines, results = [], [(False, f"{crate.name}: its edits were not tried: {error}")]
        with printing:
            print("\n".join([*lines, *(said for _is_refused, said in results)]), flush=True)
        return results

    def task(crate: Any) -> tuple[list[str], int, int, Callable[..., list[Result]]]:
        """What a lane is given: what it waits for, how long it takes, how much memory, and the call."""
        return [], crate.count(rb"\n"), kit.need(crate), lambda _given, _jobs: one(crate)

    return [it for results in kit.in_lanes({(crate.name, "edits"): task(crate) for crate in crates}).values() for it in results]


def try_edits(kit: Any, record: Record, crates: Sequence[Any], wanted: Mapping[str, list[str]]) -> list[Result]:
    """Tries these edits, and notes in the record what came of them, crate by crate."""
    writing = threading.Lock()

    def work(crate: Any) -> tuple[list[str], list[Result]]:
        trial = Trial(kit, crate)
        trial.read(wanted[crate.name])
        trial.run()
        with writing:
            for name, (is_refused, _said) in trial.results.items():
                record.note(crate.name, name, is_refused)
            record.write()
        return trial.lines, [trial.results[it] for it in sorted(trial.results)]

    return side_by_side(kit, [it for it in crates if it.name in wanted], work)


def run_control(kit: Any, crates: Sequence[Any]) -> list[Result]:
    """Looks in each crate whether a copy with no edit is proved."""

    def work(crate: Any) -> tuple[list[str], list[Result]]:
        trial = Trial(kit, crate)
        trial.read(edits_of(crate))
        wrong = [*trial.control(), *(said for is_refused, said in trial.results.values() if not is_refused)]
        return trial.lines, [(False, f"{crate.name}: {it}") for it in wrong] or [(True, f"{crate.name}: nothing is refused with no edit")]

    return side_by_side(kit, crates, work)


def say_how_many(crates: Sequence[Any], wanted: Mapping[str, list[str]]) -> None:
    """Prints how many edits are tried."""
    every, tried = sum(len(edits_of(it)) for it in crates), sum(map(len, wanted.values()))
    others = f"; the others were refused of the same files, by {FILE}" if every > tried else ""
    print(f"trying {tried} of {every} edits{others}", flush=True)


def look(given: argparse.Namespace, top: pathlib.Path, kit: Any) -> list[Result]:
    """Does what is asked for, and returns what came of it."""
    every = list(proved.crates_of(kit, top).values())
    crates = [it for it in every if os.path.isdir(f"{it.folder}/edits") and (not given.crates or it.name in given.crates)]
    unknown = sorted({*given.crates} - {it.name for it in crates})
    results = [(False, f"{it}: no crate with edits has this name") for it in unknown]
    if given.control:
        return results + run_control(kit, crates)
    record = Record(top, kit, every)
    results += [(False, f"the record's {it}, which is no line of an edit") for it in record.bad]
    wanted = chosen(record, crates, turn_of(top), given.all or bool(given.crates))
    say_how_many(crates, wanted)
    results += [it for crate in crates for it in misnamed(crate)] + try_edits(kit, record, crates, wanted)
    record.write()
    return results


def main() -> int:
    options = argparse.ArgumentParser(description=__doc__.splitlines()[0])
    options.add_argument("--all", action="store_true", help="try every edit, whatever the record has")
    options.add_argument("--control", action="store_true", help="put no edit in: the copies must be proved")
    options.add_argument("crates", metavar="CRATE", nargs="*")
    results = look(options.parse_args(), pathlib.Path.cwd(), load_kit())
    failed = [said for is_refused, said in results if not is_refused]
    for said in failed:
        print(f"FAILED: {said}")
    used = resource.getrusage(resource.RUSAGE_CHILDREN)
    print(f"{used.ru_utime + used.ru_stime:.0f} processor seconds")
    print(f"{len(results) - len(failed)} passed, {len(failed)} failed")
    return 1 if failed else 0


if __name__ == "__main__":
    sys.exit(main())
