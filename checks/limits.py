#!/usr/bin/env python3
"""Looks whether the texts that spell out a limit have its present number.

    checks/limits.py                 looks at the tree as it is
    checks/limits.py NAME=NUMBER     says what would have to change if the limit NAME had this number

Code, clauses and their comments cite a limit's constant. Its number, as 65,536, 65536 or 65_536, is spelled in documents, in the
header for C, and in what a user sees when the limit is exceeded. LIMITS has each constant with its file, the words that such a text
counts in, and the at most three other files that spell it; checks read MODEL's table (common/most.py). A case fails

- if a listed file doesn't spell the number that the constant has;
- if a string of a crate or of the library for Rust has another number before a word of a limit, such as "1 to 32,768 items" or
  "at most 65 guests", or any number above 1,000 there that no limit has, but for FIXED;
- if anything else of a file that isn't listed spells a limit above 1,000 in the words of SPELLED.
Of tests, proofs, the changelog and measurements only listed files are looked at. Prints what fails, and last 'N passed, M failed'.
"""
from __future__ import annotations

import argparse
import re
import subprocess
import sys
import typing
from collections.abc import Iterator, Mapping

from harness import TOP, Tally

# Of each constant: its file, its name, what is counted, and the files that spell it, those of crates without the folder `crates`.
LIMITS = """
page_model/src/limits.rt MAX_ACCESS_BYTES bytes: lib/include/pageshare.h lib/rust/src/machine.rs docs/MODEL.md
page_model/src/limits.rt MAX_GUESTS guests: lib/include/pageshare.h docs/MODEL.md
page_model/src/limits.rt MAX_PAGES together slots: lib/include/pageshare.h docs/MODEL.md
page_model/src/limits.rt MAX_FRAMES frames: lib/include/pageshare.h docs/MODEL.md host/daemon/domain.c
page_model/src/limits.rt MAX_RING_CAPACITY items requests: docs/MODEL.md page_model/edits/one_watch_less.edit
    merge_machine/edits/always_blocked.edit
page_model/src/limits.rt MAX_ENTRIES entries requests: docs/MODEL.md
page_model/src/limits.rt MAX_WORKERS: docs/MODEL.md
page_model/src/limits.rt MAX_WATCHES: docs/MODEL.md watched_machine/src/watch.rt
page_model/src/limits.rt MAX_TEXT_BYTES bytes: docs/MODEL.md
guest_digests/src/sample.rt MAX_SAMPLE: command_words/src/digest_words.rt digest_text/src/fields.rt docs/FORMATS.md
digest_text/src/name.rt MAX_NAME_BYTES of: command_words/src/digest_words.rt docs/FORMATS.md
fleet_census/src/merging.rt MAX_DIGESTS digests: command_words/src/help.rt fleet_census/edits/limit_of_65535.edit docs/USING.md
command_terms/src/estimates.rt MOST_WORKERS: command_words/src/help.rt
share_domain/src/config.rt MAX_MACHINES machines: lib/include/pageshare.h
share_domain/src/config.rt MAX_CLIENTS clients: lib/include/pageshare.h
recent_fingerprints/src/limits.rt MAX_PLACES questions: lib/include/pageshare.h host/daemon/domain.c
trace_text/src/trace.rt MAX_TRACE_FRAMES: trace_text/src/laws.rt docs/FORMATS.md
"""
# The bytes of a page, and the greatest numbers of 32 and of 64 bits.
FIXED = {4096, 2**32 - 1, 2**64 - 1}
NUMBER = r"(?<![\d.,_])(\d{1,3}(?:[,_]\d{3})+|\d+)(?![\d_]|[.,]\d)"
SPELLED = r"(?:\b(?:to|at most|more than|above|up to|fewer than|within the page's|may be)|\|) "
TEXTS = re.compile(r"(?!CHANGELOG|docs/PERFORMANCE|docs/FLEETS|checks/|benches/|crates/worked_)(?!.*/proofs/).*\.(rt|antt|md|h|rs)")
STRING = re.compile(r'"((?:[^"\\\n]|\\.)*)"')
# The most that a string names, and what it counts: the next word, or `together`.
COUNTED = re.compile(rf"(together )?\b(?:to|at most|more than) {NUMBER}(?: (\w+))?")


class Limit(typing.NamedTuple):
    name: str
    number: int
    source: str
    counted: list[str]
    files: list[str]


def number_of(digits: str) -> int:
    return int(re.sub(r"[,_]", "", digits))


def place_of(file: str) -> str:
    return file if (TOP / file).is_file() else f"crates/{file}"


def limits(changed: Mapping[str, int]) -> Iterator[Limit]:
    for line in re.sub(r"\n +", " ", LIMITS).strip().split("\n"):
        head, files = line.split(":")
        source, name, *counted = head.split()
        (value,) = re.findall(rf"pub const {name}: \w+ = ([\d_]+(?: << \d+)?);", (TOP / place_of(source)).read_text())
        number = int.__lshift__(*map(int, value.split(" << "))) if "<<" in value else number_of(value)
        yield Limit(name, changed.get(name, number), place_of(source), counted, [place_of(it) for it in files.split()])


def in_string(text: str, known: list[Limit]) -> Iterator[int]:
    """The numbers in a string that aren't those of the limits that it speaks of."""
    for together, digits, word in COUNTED.findall(text):
        number, word = number_of(digits), together.strip() or word
        due = {it.number for it in known if word in it.counted}
        if number not in due | FIXED and (due or number > 1000 and number not in {it.number for it in known}):
            yield number


def others(file: str, text: str, known: list[Limit]) -> list[int]:
    """The numbers that a file spells in the words of a limit, and may not."""
    has_strings = file.endswith((".rt", ".antt", ".rs"))
    found = {it for string in STRING.findall(text) for it in in_string(string, known)} if has_strings else set()
    spelled = {number_of(it) for it in re.findall(SPELLED + NUMBER, STRING.sub("", text) if has_strings else text)}
    large = {it.number for it in known if it.number > 1000}
    here = {it.number for it in known if file in (it.source, *it.files)}
    return sorted(found | (spelled & large) - here)


def limit_of(word: str) -> tuple[str, int]:
    """A limit's name and number, of a word such as MAX_GUESTS=64."""
    name, _, number = word.partition("=")
    return name, number_of(number)


def main() -> int:
    options = argparse.ArgumentParser(description=__doc__.splitlines()[0])
    options.add_argument("changed", metavar="NAME=NUMBER", nargs="*", type=limit_of, help="look as if this limit had this number")
    known = list(limits(dict(options.parse_args().changed)))
    tally = Tally()
    for limit in known:
        for file in limit.files:
            is_spelled = limit.number in map(number_of, re.findall(NUMBER, (TOP / file).read_text()))
            tally.case(f"{limit.name} in {file}", [] if is_spelled else [f"{limit.number:,} isn't there"])
    tracked = subprocess.run(["git", "ls-files", "-co", "--exclude-standard"], cwd=TOP, capture_output=True, text=True, check=True)
    for file in filter(TEXTS.fullmatch, tracked.stdout.splitlines()):
        found = others(file, (TOP / file).read_text(), known) if (TOP / file).is_file() else []
        tally.case(file, [f"{it:,} is spelled as a limit: cite the constant, or mend the number" for it in found])
    return tally.close()


if __name__ == "__main__":
    sys.exit(main())
