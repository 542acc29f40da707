#!/usr/bin/env python3
"""The map of crates, crates/README.md, made of crates.txt and the crates' READMEs.

    tools/map.py           writes it
    tools/map.py --check   says whether it is current, and whether src/checks.rt is one text in all crates of tests

A layer is a comment line of crates.txt, up to a bracket. The first line of each crate's README is '# NAME: WHAT IT DOES'. A line
'Proved in a line: WHAT.' says what is proved of the crate; a layer in which one crate has that line needs it of each.
Prints what is missing, and with --check last 'N passed, M failed' (status 0 where M is 0, else 1).
"""
from __future__ import annotations

import argparse
import collections
import re
import sys
from collections.abc import Sequence

import checks_path  # noqa: F401
from harness import TOP, close

MAP = TOP / "crates/README.md"
INTRODUCTION = """\
# Crates

`tools/map.py` writes this file from `crates.txt` and the crates' READMEs: change those, and run it again.

A crate uses only the public contracts of the crates that its line in `crates.txt` names. These come before it in the tables below, \
which are the layers from the bottom up. [ARCHITECTURE.md](../docs/ARCHITECTURE.md) shows how data flows through them.

The right column says in a line what is proved: each clause of the crate's contracts, for all inputs, under the premises that these \
name. A crate's README has its laws, what is only tested, what is neither, and its decisions (*Why it is so*). \
[PROMISE.md](../docs/PROMISE.md) has the promise of the whole, and [GLOSSARY.md](../docs/GLOSSARY.md) the words.
"""
FORM = "# NAME: WHAT IT DOES"
PROVED = "Proved in a line: "


def layers() -> list[tuple[str, list[str]]]:
    """The layers of crates.txt, each a heading and the names of its crates."""
    found: list[tuple[str, list[str]]] = []
    for line in (TOP / "crates.txt").read_text().splitlines():
        if line.startswith("#"):
            found.append((line.lstrip("# ").partition(" (")[0], []))
        elif ":" in line:
            found[-1][1].append(re.split(r"\W", line, maxsplit=1)[0])
    return found


def lines_of(name: str) -> tuple[str | None, str | None]:
    """What a crate does, and what is proved of it in a line; None for what its README doesn't have."""
    file = TOP / f"crates/{name}/README.md"
    lines = file.read_text().splitlines() if file.is_file() else []
    does = lines[0].removeprefix(f"# {name}: ") if lines and lines[0].startswith(f"# {name}: ") else None
    proved = next((it.removeprefix(PROVED).removesuffix(".") for it in lines if it.startswith(PROVED)), None)
    return does, proved


def table(rows: Sequence[tuple[str, str | None, str | None]]) -> tuple[str, list[str]]:
    """A layer's table, and what its crates lack."""
    are_proved = any(proved for _, _, proved in rows)
    head = ["crate", "what it does", "what is proved, in a line"][: 3 if are_proved else 2]
    lines, lacking = [f"| {' | '.join(head)} |", "|---" * len(head) + "|"], []
    for name, does, proved in rows:
        if does is None:
            lacking.append(f"crates/{name}/README.md: its first line isn't '{FORM}'")
        if are_proved and proved is None:
            lacking.append(f"crates/{name}/README.md: no line begins with '{PROVED}'")
        cells = [f"[{name}]({name}/README.md)", does or "", proved or ""][: len(head)]
        lines.append(f"| {' | '.join(cells)} |")
    return "".join(f"{it}\n" for it in lines), lacking


def drawn() -> tuple[str, int, list[str]]:
    """The map's text, how many crates it has, and what these lack."""
    text, crates = INTRODUCTION, 0
    lacking: list[str] = []
    for heading, names in layers():
        of_layer, lacks = table([(name, *lines_of(name)) for name in names])
        text += f"\n## {heading}\n\n{of_layer}"
        crates, lacking = crates + len(names), lacking + lacks
    return text, crates, lacking


def differing() -> list[str]:
    """What is wrong with the text that tests compare by, which stands in each crate of tests, since no library can have it."""
    texts = {it: it.read_text() for it in sorted((TOP / "crates").glob("worked_*/src/checks.rt"))}
    most = collections.Counter(texts.values()).most_common(1)
    return [f"{it.relative_to(TOP)} isn't what most crates of tests have" for it, text in texts.items() if text != most[0][0]]


def main() -> int:
    options = argparse.ArgumentParser(description=__doc__.splitlines()[0])
    options.add_argument("--check", action="store_true", help="say whether the files are current, and write none")
    is_check = options.parse_args().check
    text, crates, wrong = drawn()
    if not is_check:
        MAP.write_text(text)
    elif not MAP.is_file() or MAP.read_text() != text:
        wrong.append(f"{MAP.relative_to(TOP)} isn't current: run tools/map.py")
    if is_check:
        wrong += differing()
    print("".join(f"{it}\n" for it in wrong), end="")
    if is_check:
        close(crates + 2 - len(wrong), len(wrong))
    return 1 if wrong else 0


if __name__ == "__main__":
    sys.exit(main())
