"""`replay`, `serial` and `run`: worked texts, long texts, texts at fault, and inputs and outputs that fail.

A worked text is NAME.journal or NAME.script, and what a command is to write of it stands beside it as NAME.COMMAND: NAME.replay,
NAME.serial, NAME.run (where each run writes the same) and NAME.run-journal. Which order the guests' requests have in a run's journal
depends on the threads: in NAME.run-journal they stand guest by guest, and each guest's own must be those.
"""
from __future__ import annotations

import itertools
import pathlib
import resource
from collections.abc import Sequence

from command_cases.subject import EXAMPLES, LITTLE, MISSING, ROWS, Subject, is_clean, read
from common import faults, most
from common.script_runs import Differs, by_guest, look, requests_of
from harness import Due

# A script of several guests is run so many times, since threads meet differently each time.
RUNS = 50
# Each word list that reads a text of its kind.
OF_JOURNALS = [["replay"]]
OF_SCRIPTS = [["serial"], ["run"], ["run", "--journal"]]
NOTHING = "mapped 0 shared 0 frames 0 reclaimed 0 hints 0\n"


def worked(ending: str) -> list[pathlib.Path]:
    """The worked texts of one kind."""
    return sorted([*EXAMPLES.glob(f"*.{ending}"), *ROWS.glob(f"*.{ending}")])


def wanted(path: pathlib.Path, command: str) -> str | None:
    """What a command is to write of a worked text; None where that isn't one text."""
    beside = path.with_suffix(f".{command}")
    return beside.read_text() if beside.exists() else None


def from_both(subject: Subject, path: pathlib.Path, words: Sequence[str], out: Due) -> None:
    """Two cases of a command on a worked text: from standard input and from the file."""
    name = f"{' '.join(words)}, {path.name}"
    subject.writes(f"{name}, standard input", words, out, path.read_text())
    subject.writes(f"{name}, a file", [*words, str(path)], out)


def journals(subject: Subject) -> None:
    """Each worked journal replayed, and one whose output is long."""
    for path in worked("journal"):
        from_both(subject, path, ["replay"], wanted(path, "replay"))
    count = 3000
    text = faults.ONE_PAGE + "0 count\n" * count + f"end {count}\n"
    totals = "".join(f"0 totals entries {n} {NOTHING}" for n in range(1, count + 1))
    subject.writes("replay, a long output", ["replay"], f"{totals}report entries {count} {NOTHING}", text)


def many_requests(subject: Subject) -> None:
    """More requests than a list grows to by steps that tests of a few see: memory for them is taken, and it isn't wanting."""
    count = 1_000_000
    journal = faults.ONE_PAGE + "0 load 0 0 1\n" * count + f"end {count}\n"
    subject.writes("replay, a million requests", ["replay"], "0 bytes 00\n" * count + f"report entries {count} {NOTHING}", journal)
    count = 200_000
    head = f"pageshare script 1\nframes 1\npages 1\nring 64\njournal {count + 1}\n"
    for what, lines, verdict in [
        ("requests", "0 load 0 0 1\n" * count + f"end {count}\n", "bytes 00"),
        ("proposals of one scan", f"0 scan sequential {count}\nend 1\n", "unmapped"),
        ("proposals of one random scan", f"0 scan random 7 {count}\nend 1\n", "unmapped"),
    ]:
        due = f"0 {verdict}\n" * count + f"0 closed\nreport entries {count + 1} {NOTHING}"
        for command in ["serial", "run"]:
            subject.writes(f"{command}, 200,000 {what}", [command], due, head + lines)


def parts_of(journal: str) -> tuple[list[str], dict[int, list[str]], list[str]]:
    """What a journal holds but for the order among guests: its head, each guest's requests, and its end."""
    lines = journal.split("\n")
    asked, head = requests_of(lines[:-1])
    return head, by_guest(asked), lines[-2:]


def answers_of(output: str) -> tuple[dict[int, list[str]], str]:
    """Each guest's verdicts, and the report, of what a replay or a run writes."""
    lines = output.split("\n")[:-1]
    return by_guest(lines[:-1]), lines[-1]


def journal_of_a_run(subject: Subject, path: pathlib.Path, due: str, output: str | None) -> None:
    """A run's journal; where each run writes the same, so does the replay of its journal, but for the guests' order."""
    name = f"run --journal, {path.name}"
    done = subject.run(["run", "--journal", str(path)])
    is_due = is_clean(done) and parts_of(done.stdout.decode()) == parts_of(due)
    subject.tally.holds(name, is_due, done, f"{due!r}, but for the guests' order,")
    if is_due and output:
        replayed = subject.run(["replay"], done.stdout)
        is_due = is_clean(replayed) and answers_of(replayed.stdout.decode()) == answers_of(output)
        subject.tally.holds(f"{name}, replayed", is_due, replayed, f"{output!r}, but for the guests' order,")


def scripts(subject: Subject) -> None:
    """Each worked script, by each command, and several times where threads meet; and what must hold of any script."""
    for path in worked("script"):
        text = path.read_text()
        times = range(RUNS if len(text.split("\n")[2].split()) > 2 else 1)
        serial, run, journal = wanted(path, "serial"), wanted(path, "run"), wanted(path, "run-journal")
        if serial:
            from_both(subject, path, ["serial"], serial)
        for _ in times:
            if run:
                from_both(subject, path, ["run"], run)
            if journal:
                journal_of_a_run(subject, path, journal, run)
        try:
            look(subject.program, text, False)
            subject.tally.case(path.name, [])
        except Differs as what:
            subject.tally.case(path.name, [f"it differs in {what}"])


def fronts(text: str) -> list[tuple[str, str]]:
    """Each front of a text, and its fault."""
    return [(text[:size], f"truncated line {text.count(chr(10), 0, size) + 1}") for size in range(len(text))]


def texts_at_fault(subject: Subject) -> None:
    """Each text at fault (common/faults.py), and each front of a journal and of a script: one line with the fault."""
    of_journals = [*faults.OF_JOURNALS, *fronts(read("zeros.journal"))]
    of_scripts = [*faults.OF_SCRIPTS, *fronts(read("scan.script"))]
    for commands, texts in [(OF_JOURNALS, of_journals), (OF_SCRIPTS, of_scripts)]:
        for words, (text, fault) in itertools.product(commands, texts):
            subject.expect(f"{' '.join(words)}, {fault}, {text[-40:]!r}", words, 1, f"fault {fault}\n", "", text)


def ends_and_limits(subject: Subject, folder: pathlib.Path) -> None:
    """Texts that are too long, files that can't be read, a full device, and too little memory."""
    for words in [*OF_JOURNALS, *OF_SCRIPTS]:
        name = " ".join(words)
        text = read("close-alone.journal" if words in OF_JOURNALS else "scan.script")
        subject.fails(f"{name}, too long", words, "fault long\n", b"a" * (most.TEXT_BYTES + 1))
        subject.expect(f"{name}, as long as may be", words, 1, "fault truncated line 1\n", "", b"a" * most.TEXT_BYTES)
        subject.fails(f"{name}, no such file", [*words, str(folder / "none")], "fault read\n")
        subject.fails(f"{name}, a folder", [*words, str(folder)], "fault read\n")
        subject.full_device(f"{name}, a full device", words, "fault write\n", text)
        subject.full_device(f"{name}, a fault to a full device", words, "fault write\n")
        subject.fails(f"{name}, little memory", words, "fault memory\n", b"a" * most.TEXT_BYTES, limits=LITTLE)


def no_thread(subject: Subject) -> None:
    """A thread's stack is as large as the one limit says, and the other leaves no room for it."""
    limits = {resource.RLIMIT_STACK: 1_000_000 << 10, resource.RLIMIT_AS: 500_000 << 10}
    script = read("scan.script")
    for words in [["run"], ["run", "--journal"]]:
        subject.expect(f"{' '.join(words)}, no thread", words, 1, "fault run: no-thread\n", "", script, limits=limits)
    subject.writes("serial, no thread", ["serial"], read("scan.serial"), script, limits=limits)


def terminals(subject: Subject, folder: pathlib.Path) -> None:
    """What a terminal shows of a fault: a sentence, beside the word for programs on standard output."""
    none = str(folder / "none")
    cut_off = 'line 1 is cut off: expected "pageshare script 1" or "pageshare script 2", and a line feed behind it\n'
    rings = faults.ONE_GUEST.replace("ring", "rings")
    journal, end = "pageshare journal 1\nframes 1\npages 1\n", '"end NUMBER" with the number of request lines'
    for words, text, due in [
        (["replay"], read("close-alone.journal"), (0, "")),
        (["replay"], "pageshare journal 1\npages 1\n", (1, 'line 2: expected "frames NUMBER"\n')),
        (["replay"], "pageshare journal 1\nframes 1\npage 1\n", (1, 'line 3: expected "pages NUMBER .."\n')),
        (["replay"], journal + "1 close\n", (1, 'line 4: expected a guest of the "pages" line, counted from 0\n')),
        (["replay"], journal + "0 close\nend 2\n", (1, f"the number of request lines is wrong: expected {end}\n")),
        (["run"], "", (1, cut_off)),
        (["serial"], rings, (1, 'line 4: expected "ring NUMBER"; in version 2 "salts NUMBER .."\n')),
        (["replay", none], "", (1, f"fault read\n{none}: {MISSING}\n")),
    ]:
        subject.tally.equal(f"{' '.join(words)}, a terminal", subject.on_terminal(words, text), due)
