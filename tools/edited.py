#!/usr/bin/env python3
"""Lists the public functions that no edit makes wrong, crate by crate.

    tools/edited.py [CRATE ..]

To be run at the repository's top. Nothing is proved here. A public function with a contract has an edit if a file of crates/NAME/edits
changes the function, or one of its crate that it calls, or one that this one calls. A law has no body: its edit changes its statement,
or a definition in specs/, and names the law in a line 'refused: LAW'. Calls are found by name, so a function may be taken for another
one of its name. Prints for each crate how many public functions with a contract it has and how many of these have an edit, then those
that have none, and last the sums.
"""
from __future__ import annotations

import argparse
import os
import pathlib
import re
import sys
from typing import Any

import checks_path  # noqa: F401
from common.edit_files import Function, functions_of, homes_of
from common.edit_trial import Trial
from common.kit import load_kit
from common.refusals import edits_of

PUBLIC = re.compile(r'\s*pub (?:const )?(?:unsafe )?(?:extern "C" )?fn ')
CALL = re.compile(r"\b(\w+)(?:::<[^>]*>)?\s*\(|[(,]\s*(?:\w+::)*(\w+)\s*(?=[,)])")
# (a function with clauses has its brace on a line of its own)
BRACES = [re.compile(r"\n\s*\{"), re.compile(r"\{")]
# By function: its head and its body.
Functions = dict[Function, tuple[str, str]]


def split(text: str) -> tuple[str, str]:
    """The head and the body of a function's text."""
    found = next((it for it in (brace.search(text) for brace in BRACES) if it), None)
    return (text[: found.start()], text[found.end() :]) if found else (text, "")


def all_functions(crate: Any) -> Functions:
    """The functions of a crate."""
    homes, found = homes_of(crate), {}
    for file in sorted(pathlib.Path(crate.folder, "src").rglob("*.rt")):
        text = file.read_text(encoding="utf-8")
        placed = functions_of(str(file.relative_to(crate.folder)), text, homes)
        found.update({function: split(text[first:last]) for function, first, last in placed})
    return found


def path_of(function: Function) -> tuple[str, ...]:
    """A function's path in its crate. A line 'refused:' names a method by it."""
    return (*function.module, *filter(None, [function.owner]), function.name)


def edited_in(kit: Any, crate: Any) -> set[Function]:
    """The functions that the edits of a crate change or name."""
    trial = Trial(kit, crate)
    trial.read(edits_of(crate))
    return {function for edit in trial.edits for function in edit.functions if function}


def with_callers(functions: Functions, edited: set[Function]) -> set[Function]:
    """Those of the functions that are edited, and those that call one of them."""
    names = {it.name for it in functions}
    calls = {it: {name for words in CALL.findall(body) for name in words} & names for it, (_head, body) in functions.items()}
    found: set[Function] = set()
    more = {it for it in functions if it in edited}
    while more:
        found |= more
        reached = {it.name for it in found}
        more = {it for it in functions if it not in found and calls[it] & reached}
    return found


def main() -> int:
    options = argparse.ArgumentParser(description=__doc__.splitlines()[0])
    options.add_argument("crates", metavar="CRATE", nargs="*")
    names, kit, sums = options.parse_args().crates, load_kit(), [0, 0]
    kit.Crate.allowed = kit.handles_of(os.getcwd())
    for crate in kit.rtlib.crates_below(os.getcwd()):
        if crate.name.startswith("worked_") or names and crate.name not in names:
            continue
        functions = all_functions(crate)
        public = [it for it, (head, _body) in functions.items() if PUBLIC.match(head) and "ensures" in head]
        known = {path_of(it): it for it in functions}
        have = with_callers(functions, {known.get(path_of(it), it) for it in edited_in(kit, crate)}) & {*public}
        sums = [sums[0] + len(public), sums[1] + len(have)]
        print(f"{crate.name}: {len(public)} public functions with a contract, {len(have)} with an edit")
        for it in public:
            if it not in have:
                print("  none: " + "::".join(path_of(it)))
    print(f"in all {sums[0]} public functions with a contract, {sums[1]} with an edit")
    return 0


if __name__ == "__main__":
    sys.exit(main())
