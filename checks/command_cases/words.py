"""Words that are no command line, help, and the version."""
from __future__ import annotations

from command_cases.subject import Subject, read
from harness import ANY


def command_lines(subject: Subject) -> None:
    """Words that the program doesn't take: nothing on standard output. Help goes there."""
    journal = read("close-alone.journal")
    nothing: list[str] = []
    for words in [
        nothing, ["journal"], ["replay", "a", "b"], ["replay", "--journal"], ["serial", "--journal"], ["serial", "--progress", "auto"],
        ["run", "--salts"], ["run", "a", "b"], ["run", "--progress", "often"],
    ]:
        subject.expect(f"the words {words}", words, 2, "", ANY, journal)
    for words in [["--help"], ["replay", "--help"], ["serial", "--help"], ["run", "--help"]]:
        subject.writes(f"the words {words}", words, ANY)


def version(subject: Subject) -> None:
    """The processor level that the program says it was built for: `make build CPU=x86-64-v3` leaves out/pageshare-v3."""
    level = "x86-64-v3" if subject.program.endswith("-v3") else "x86-64-v2"
    subject.writes("the version", ["--version"], f"pageshare 0.1.0, built for {level}\n")
