#!/usr/bin/env python3
"""Replays random journals three times over: by `pageshare replay`, by calls of the C library, and by the Rust wrapper. All
lines that the three write must be equal. Then as many in which whole pages are stored, lent and taken back: by C and by Rust, one
call after the other; by C and by Rust with the frames in a region, of which what is free is punched out after each call, and with
lends that follow on each other as one list; and as the stores, proposals and releases that these calls stand for by `pageshare
replay`. What is taken back must be what was stored last.

    checks/embed.py [COUNT [SEED]]

COUNT journals of each kind, by default 1,000; the journals follow from SEED, by default 1. It takes out/pageshare (`make build`) and what
`make embed` leaves in out/embed. Journals with salts (version 2) go through C and Rust alone where the program does not read
them, and the output says so. Prints how many journals and lines were compared and how often each verdict came, or the first journal
that differs, which it leaves at out/embed/differs.journal. The last line is `N passed, M failed`, of journals (status 0 where all
passed, else 1).
"""
from __future__ import annotations

import argparse
import collections
import random
import sys
from collections.abc import Iterable, Iterator, Mapping, Sequence

from common.random_texts import header, journal, request, shape, text_of
from harness import OUT, PROGRAM, StrPath, Tally, leave, run

PROGRAMS: dict[str, list[StrPath]] = {
    "pageshare replay": [PROGRAM, "replay"],
    "C": [OUT / "embed/journal"],
    "Rust": [OUT / "embed/cargo/release/examples/journal"],
}

# the same, with frames in a region
IN_REGION: dict[str, list[StrPath]] = {
    "C, in a region": [*PROGRAMS["C"], "region"],
    "Rust, in a region": [*PROGRAMS["Rust"], "region"],
}

SALTED = "pageshare journal 2\nframes 1\npages 1\nsalts 1\nend 0\n"


def replay(words: Sequence[StrPath], text: str) -> str:
    """What a program writes of a text, or how it ended."""
    done = run(words, text)
    output = done.stdout.decode("utf-8", "replace")
    return output if done.returncode == 0 else f"status {done.returncode}: {output}{done.stderr.decode('utf-8', 'replace')}"


def whole_request(rng: random.Random, pages: Sequence[int], kinds: Sequence[int] = (10, 45, 25, 20)) -> str:
    """A request of a whole page, or one of the others."""
    guest = rng.randrange(len(pages))
    ppn = rng.randrange(pages[guest] + (rng.random() < 0.05))
    kind = rng.choices(["store-page", "lend", "take-back", ""], kinds)[0]
    if kind in ("", "take-back"):
        return f"{guest} take-back {ppn}" if kind else request(rng, pages)
    page = bytearray([rng.choice(b"\x00AB")] * 4096)
    if rng.random() < 0.2:
        page[rng.choice([0, 64, 4095])] = 67
    return f"{guest} {kind} {ppn} {page.hex()}"


def whole_requests(rng: random.Random, pages: Sequence[int]) -> list[str]:
    """Requests of whole pages, among them lists of lends."""
    lines = []
    for _ in range(rng.choice([5, 15, 30])):
        lines.append(whole_request(rng, pages))
        if rng.random() < 0.2:
            lines += [whole_request(rng, pages, (0, 1, 0, 0)) for _ in range(rng.randint(3, 9))]
    return lines


def meant_by(line: str, verdict: str) -> list[str]:
    """The requests that a line stands for, given the verdict that it got: a lend whose stores were refused proposes nothing."""
    guest, kind, *rest = line.split()
    if kind == "take-back":
        return [f"{guest} release {rest[0]}"]
    if kind not in ("store-page", "lend"):
        return [line]
    stores = [f"{guest} store {rest[0]} {at} {rest[1][2 * at : 2 * at + 128]}" for at in range(0, 4096, 64)]
    proposes = kind == "lend" and verdict not in ("no-page", "no-frame")
    return [*stores, f"{guest} propose {rest[0]}"] if proposes else stores


def verdict_among(line: str, answers: Sequence[str]) -> str:
    """The verdict of a line by those of the requests that it stands for, whose later stores follow from the first."""
    stores = [it.split()[1] for it in answers[:64]]
    refused = stores[0] in ("no-page", "no-frame")
    if len(answers) > 1 and any(it != (stores[0] if refused else "stored") for it in stores[1:]):
        return f"stores of one page: {stores}"
    return answers[-1] if len(answers) == 65 else answers[0]


class Pages:
    """The bytes last stored to each page."""

    def __init__(self) -> None:
        self.pages: dict[tuple[str, str], str] = {}

    def follow(self, line: str, verdict: str) -> None:
        guest, kind, *rest = line.split()
        if verdict in ("no-page", "no-frame"):
            return
        if kind in ("store-page", "lend"):
            self.pages[guest, rest[0]] = rest[1]
        elif kind == "store":
            page, at = self.pages.get((guest, rest[0]), "00" * 4096), 2 * int(rest[1])
            self.pages[guest, rest[0]] = page[:at] + rest[2] + page[at + len(rest[2]) :]
        elif kind in ("take-back", "release"):
            self.pages.pop((guest, rest[0]), None)


def split_written(lines: Iterable[str], written: str) -> tuple[list[tuple[str, str]], list[str]]:
    """The verdict of each line and what it took back, and the report at the end."""
    answers, rest = [], written.splitlines()
    for line in lines:
        verdict, took = rest.pop(0), ""
        if " take-back " in line and "released" in verdict:
            took = rest.pop(0)
        answers.append((verdict, took))
    return answers, rest


def whole_pages_differ(rng: random.Random, verdicts: collections.Counter[str]) -> tuple[str, str]:
    """What is wrong with one journal of whole pages, if anything, with its text."""
    frames, pages, salts = shape(rng)
    head = header("journal", True, frames, pages, salts)
    lines = whole_requests(rng, pages)
    text = text_of(head, lines)
    written = {name: replay(words, text) for name, words in [*PROGRAMS.items(), *IN_REGION.items()] if name != "pageshare replay"}
    if len(set(written.values())) != 1 or "report" not in written["C"]:
        return f"C and Rust differ: {[lines[:200] for lines in written.values()]}", text
    answers, report = split_written(lines, written["C"])
    groups, last = [], Pages()
    for line, (verdict, took) in zip(lines, answers):
        word = verdict.split()[1]
        verdicts[line.split()[1] + ": " + " ".join(verdict.split()[1:3] if word == "released" else [word])] += 1
        if took and took != last.pages.get((line.split()[0], line.split()[2]), "00" * 4096):
            return f"another page was taken back than was stored: {line[:80]}", text
        last.follow(line, word)
        groups.append(meant_by(line, word))
    meant = replay(PROGRAMS["pageshare replay"], text_of(head, [it for group in groups for it in group])).splitlines()
    for line, group, (verdict, _took) in zip(lines, groups, answers):
        wanted, meant = verdict_among(line, meant[: len(group)]), meant[len(group) :]
        if wanted != verdict:
            return f"{line[:80]}: {verdict}, and by its requests {wanted}", text
    return ("", text) if meant == report else (f"the reports differ: {report} and {meant}", text)


def journal_faults(text: str, written: Mapping[str, str]) -> Iterator[str]:
    """What is wrong with what each way wrote of a journal, if anything."""
    if len(set(written.values())) != 1 or "report" not in written["C"]:
        yield f"it differs; it is at {leave('embed/differs.journal', text)}"
        yield from (f"by {name}:\n{lines}" for name, lines in written.items())


def small_requests(tally: Tally, rng: random.Random, count: int, seed: int) -> None:
    """Random journals by each way, up to the first that differs."""
    knows_salts, unknown = replay(PROGRAMS["pageshare replay"], SALTED).startswith("report"), 0
    verdicts: collections.Counter[str] = collections.Counter()
    for nth in range(count):
        text = journal(rng)
        is_unknown = not knows_salts and text.startswith("pageshare journal 2")
        unknown += is_unknown
        ways = {name: words for name, words in PROGRAMS.items() if not (is_unknown and name == "pageshare replay")}
        written = {name: replay(words, text) for name, words in ways.items()}
        if not tally.case(f"journal {nth} of seed {seed}", journal_faults(text, written)):
            return
        verdicts.update(line.split()[1] for line in written["C"].splitlines()[:-1])
    print(f"{count} journals, {sum(verdicts.values()) + count} lines: all equal")
    if unknown:
        print(f"{unknown} of them with salts, which `pageshare replay` does not read here: C beside Rust alone")
    print(", ".join(f"{verdict} {times}" for verdict, times in sorted(verdicts.items())))


def whole_pages(tally: Tally, rng: random.Random, count: int, seed: int) -> None:
    """Random journals of whole pages by each way, up to the first that differs."""
    verdicts: collections.Counter[str] = collections.Counter()
    for nth in range(count):
        wrong, text = whole_pages_differ(rng, verdicts)
        faults = [f"{wrong}; it is at {leave('embed/differs.journal', text)}"] if wrong else []
        if not tally.case(f"journal {nth} of whole pages, of seed {seed}", faults):
            return
    print(f"{count} journals of whole pages, {sum(verdicts.values())} lines: all equal, and all taken back as stored")
    print(", ".join(f"{verdict} {times}" for verdict, times in sorted(verdicts.items())))


def main() -> int:
    options = argparse.ArgumentParser(description=__doc__.splitlines()[0])
    options.add_argument("count", metavar="COUNT", nargs="?", type=int, default=1000)
    options.add_argument("seed", metavar="SEED", nargs="?", type=int, default=1)
    given = options.parse_args()
    tally, rng = Tally(), random.Random(given.seed)
    small_requests(tally, rng, given.count, given.seed)
    if not tally.failed:
        whole_pages(tally, rng, given.count, given.seed)
    return tally.close()


if __name__ == "__main__":
    sys.exit(main())
