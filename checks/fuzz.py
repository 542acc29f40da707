#!/usr/bin/env python3
"""Gives broken texts to the program. Whatever it reads, it must answer with its output or with one fault line, and soon.

    checks/fuzz.py [COUNT [SEED [PROGRAM]]]

COUNT texts, by default 10,000, follow from SEED, by default 1. Each is a random journal or script that had bytes changed,
cut or doubled, lines swapped or left out, or numbers put at a limit, and goes to one of the commands that read such texts.
PROGRAM is by default out/pageshare (`make build`). Prints how many texts got which answer (status 0), or the first text that
got a wrong one, which it leaves at out/fuzz.text (status 1). The last line is `N passed, M failed`, of texts.

An answer is right where the status is 0, every line but the last is a verdict line, and the last is the report of as many
entries (or, for `run --journal`, the output is a journal that `replay` accepts); or where the status is 1 and the whole
output is one fault line. It must come within SECONDS and BYTE_SECONDS for each byte of the text.
"""
from __future__ import annotations

import argparse
import collections
import concurrent.futures
import os
import random
import re
import sys
from collections.abc import Mapping, Sequence

from common import most
from common.random_texts import journal, script
from harness import LATE, PROGRAM, Done, Tally, leave, run

SECONDS, BYTE_SECONDS = 5.0, 1e-4

COMMANDS = {"journal": [["replay"]], "script": [["serial"], ["run"], ["run", "--journal"]]}
# The commands for each kind of text, each as its words.
Commands = Mapping[str, Sequence[list[str]]]
CAUSES = "header|form|frames|guests|pages|ring|journal|no-guest|length|crosses|after-close|too-many|salts"
FAULT = re.compile(rf"fault (line [1-9][0-9]*: ({CAUSES})|truncated line [1-9][0-9]*|count|memory|run: no-thread)\n")
COUNTS = r"entries (\d+) mapped \d+ shared \d+ frames \d+ reclaimed \d+ hints \d+"
VERDICTS = (
    "no-page|unmapped|already|joined [0-9]+|paired|hinted|kept|replaced|ineligible|mapped|stored|copied|taken|no-frame|"
    rf"bytes ([0-9a-f]{{2}})+|released (freed|held)|totals {COUNTS.replace('(', '(?:')}|closed"
)
VERDICT = re.compile(rf"[0-9]+ ({VERDICTS})")
REPORT = re.compile(f"report {COUNTS}")

LIMITS = [0, 1, 2, 64, 65, 4032, 4033, 4095, 4096, most.RING - 1, most.RING, most.RING + 1, most.PAGES, most.PAGES + 1]
LIMITS += [most.ENTRIES, most.ENTRIES + 1, 2**32 - 1, 2**32, 2**64 - 1, 2**64]


def changed_bytes(rng: random.Random, text: bytes) -> bytes:
    at = rng.randrange(len(text))
    other = rng.choice([b" ", b"\n", b"0", b"9", b"f", b"G", b"\x00", b"\xff", b"\r", rng.randbytes(1)])
    return text[:at] + other + text[at + rng.randrange(2) :]


def cut(rng: random.Random, text: bytes) -> bytes:
    return text[: rng.randrange(len(text))]


def doubled(rng: random.Random, text: bytes) -> bytes:
    at, size = rng.randrange(len(text)), rng.choice([1, 1, 2, 10, 100])
    return text[: at + size] + text[at:]


def without(rng: random.Random, text: bytes) -> bytes:
    at, size = rng.randrange(len(text)), rng.choice([1, 1, 2, 10, 100])
    return text[:at] + text[at + size :]


def swapped_lines(rng: random.Random, text: bytes) -> bytes:
    lines = text.splitlines(keepends=True)
    one, other = rng.randrange(len(lines)), rng.randrange(len(lines))
    lines[one], lines[other] = lines[other], lines[one]
    return b"".join(lines)


def number_at_limit(rng: random.Random, text: bytes) -> bytes:
    found = list(re.finditer(rb"[0-9]+", text))
    if not found:
        return text
    at = rng.choice(found)
    return text[: at.start()] + str(rng.choice(LIMITS)).encode() + text[at.end() :]


CHANGES = [changed_bytes, changed_bytes, cut, doubled, without, swapped_lines, number_at_limit, number_at_limit]


def case(seed: int, nth: int, commands: Commands) -> tuple[bytes, list[str]]:
    """Text number nth, and the command that reads it."""
    rng = random.Random(f"{seed} {nth}")
    kind = rng.choice(sorted(commands))
    text = (journal(rng) if kind == "journal" else script(rng)[0]).encode()
    for _ in range(rng.choice([0, 1, 1, 1, 2, 4])):
        text = rng.choice(CHANGES)(rng, text) if text else text
    return text, rng.choice(commands[kind])


def ask(program: str, words: Sequence[str], text: bytes) -> Done:
    """How a command ends that reads this text."""
    return run([program, *words], text, seconds=SECONDS + BYTE_SECONDS * len(text))


def verdict_lines_are_right(output: str) -> bool:
    lines = output.split("\n")
    report = REPORT.fullmatch(lines[-2]) if len(lines) > 1 and not lines[-1] else None
    return report is not None and int(report[1]) == len(lines) - 2 and all(map(VERDICT.fullmatch, lines[:-2]))


def answer_of(program: str, words: Sequence[str], text: bytes) -> tuple[str, bool]:
    """The answer's name, and whether it is right."""
    done = ask(program, words, text)
    if done.returncode == LATE:
        return LATE, False
    output = done.stdout.decode("latin-1")
    if done.returncode == 1:
        fault = FAULT.fullmatch(output)
        return f"{' '.join(words)}: {re.sub('[0-9]+', 'N', output.strip())}", bool(fault)
    if done.returncode != 0:
        return f"{' '.join(words)}: status {done.returncode}", False
    if words[-1] == "--journal":
        return "run --journal: a journal", ask(program, ["replay"], done.stdout).returncode == 0
    return f"{' '.join(words)}: verdicts", verdict_lines_are_right(output)


def known_commands(program: str) -> Commands:
    """The commands for each kind of text that the program has."""
    known = run([program, "--help"]).stdout.decode()
    commands = {kind: [words for words in many if words[0] in known] for kind, many in COMMANDS.items()}
    return {kind: many for kind, many in commands.items() if many}


def main() -> int:
    options = argparse.ArgumentParser(description=__doc__.splitlines()[0])
    options.add_argument("count", metavar="COUNT", nargs="?", type=int, default=10000)
    options.add_argument("seed", metavar="SEED", nargs="?", type=int, default=1)
    options.add_argument("program", metavar="PROGRAM", nargs="?", default=PROGRAM)
    given = options.parse_args()
    seed, program, commands, tally = given.seed, given.program, known_commands(given.program), Tally()
    answers: collections.Counter[str] = collections.Counter()

    def tried(nth: int) -> tuple[int, bytes, list[str], tuple[str, bool]]:
        text, words = case(seed, nth, commands)
        return nth, text, words, answer_of(program, words, text)

    with concurrent.futures.ThreadPoolExecutor(os.cpu_count()) as pool:
        for nth, text, words, (answer, is_right) in pool.map(tried, range(given.count)):
            wrong = [] if is_right else [f"{answer}; it is at {leave('fuzz.text', text)}"]
            if not tally.case(f"text {nth} of seed {seed}, by {' '.join(words)}", wrong):
                pool.shutdown(cancel_futures=True)
                break
            answers[answer] += 1
    print(f"{tally.passed} texts of seed {seed}: each got its output or one fault line")
    for answer, times in sorted(answers.items()):
        print(f"{times:8} {answer}")
    return tally.close()


if __name__ == "__main__":
    sys.exit(main())
