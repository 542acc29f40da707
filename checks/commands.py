#!/usr/bin/env python3
"""Looks at what each command of the program leaves: its status, standard output and standard error.

    checks/commands.py [PROGRAM]

PROGRAM is by default out/pageshare (`make build`). Nothing is built here. Prints each case that went wrong, and at the end
`N passed, M failed` (status 0 where all passed, else 1).

The cases are in command_cases/: each command on the worked texts below examples/, from a file and from standard input; each text at
fault (common/faults.py), and each front of a journal and of a script; texts that are too long; inputs that can't be opened or read,
outputs that take nothing, too little memory, no room for a thread's stack; texts of many requests; words that are no command line,
help and the version; estimates of small images; digests of small images and of a process beside a count in Python; the numbers of
digests merged, and what each two of their guests have in common; each cause for which there are none of these; and what a terminal
shows.
"""
from __future__ import annotations

import argparse
import os
import pathlib
import sys

from command_cases import digest, estimate, fleet, processes, texts, words
from command_cases import run as runs
from command_cases.subject import Subject
from harness import PROGRAM, Tally, new_folder


def of_texts(subject: Subject, folder: pathlib.Path) -> None:
    """The commands that read a journal or a script."""
    texts.journals(subject)
    texts.many_requests(subject)
    texts.scripts(subject)
    texts.texts_at_fault(subject)
    texts.ends_and_limits(subject, folder)
    texts.no_thread(subject)
    texts.terminals(subject, folder)
    runs.progress(subject)
    runs.progress_of_a_long_run(subject)


def of_words(subject: Subject) -> None:
    """Words that name no command."""
    words.command_lines(subject)
    words.version(subject)


def of_estimates(subject: Subject, folder: pathlib.Path) -> None:
    """`estimate` of images and processes."""
    estimate.numbers(subject, folder)
    estimate.tables(subject)
    estimate.worked(subject, folder)
    estimate.broken_images(subject, folder)
    estimate.pictures(subject, folder)
    estimate.amounts(subject, folder)
    estimate.names(subject, folder)
    estimate.large(subject, folder)
    estimate.bad_paths(subject, folder)
    estimate.too_much(subject, folder)
    estimate.command_line(subject, folder)
    estimate.progress(subject, folder)
    processes.estimates(subject, folder)
    processes.lent_processes(subject)


def of_digests(subject: Subject, folder: pathlib.Path) -> None:
    """`digest` of images and of a process."""
    digest.digests(subject, folder)
    digest.large(subject, folder)
    digest.cores(subject, folder)
    digest.bad_inputs(subject, folder)
    digest.command_line(subject, folder)
    processes.digests(subject)


def of_fleets(subject: Subject, folder: pathlib.Path) -> None:
    """`fleet` of digests."""
    fleet.tables(subject, folder)
    fleet.worked(subject, folder)
    fleet.texts_at_fault(subject, folder)
    fleet.numbers(subject, folder)
    fleet.pairs(subject, folder)
    fleet.many_pairs(subject, folder)
    fleet.extremes(subject, folder)
    fleet.large(subject, folder)
    fleet.by_host(subject, folder)
    fleet.bad_inputs(subject, folder)
    fleet.too_many(subject, folder)
    fleet.command_line(subject)
    fleet.progress(subject)
    fleet.progress_of_slow_reads(subject, folder)


def main() -> int:
    options = argparse.ArgumentParser(description=__doc__.splitlines()[0])
    options.add_argument("program", metavar="PROGRAM", nargs="?", default=PROGRAM)
    program, tally = options.parse_args().program, Tally()
    # (absolute, since some cases run in other folders)
    subject = Subject(os.path.abspath(program), tally)
    of_words(subject)
    for part in (of_texts, of_estimates, of_digests, of_fleets):
        with new_folder() as folder:
            part(subject, folder)
    return tally.close()


if __name__ == "__main__":
    sys.exit(main())
