"""The program under test, and what a case of it says in one call."""
from __future__ import annotations

import os
import pty
import resource
import subprocess
from collections.abc import Iterable, Sequence
from typing import Any

from harness import ANY, TOP, Done, Due, Status, Tally, run

EXAMPLES = TOP / "examples"
ROWS = TOP / "checks/rows"
SECONDS = 60
# What the system says of a path.
MISSING = "No such file or directory (os error 2)"
IS_A_FOLDER = "Is a directory (os error 21)"
NO_ROOM = "No space left on device (os error 28)"
# A child's limit: so much memory is too little for what the cases ask.
LITTLE = {resource.RLIMIT_AS: 48 << 20}
LEAST = {resource.RLIMIT_AS: 24 << 20}

# Limits of a child, by the number that the system gives them.
Limits = dict[int, int]


def set_limits(limits: Limits) -> None:
    """Sets the limits of this process, which is a child that is about to run a program."""
    for name, size in limits.items():
        resource.setrlimit(name, (size, size))


def read(name: str) -> str:
    """A file of checks/rows: a worked text, or what is due of one."""
    return (ROWS / name).read_text()


def is_clean(done: Done) -> bool:
    """Whether a program ended well and had nothing to say of it."""
    return done.returncode == 0 and not done.stderr


class Subject:
    """The program, and the tally of its cases. `how` has limits, or words for subprocess.run such as cwd and stdout."""

    def __init__(self, program: str, tally: Tally) -> None:
        self.program, self.tally = program, tally

    def run(self, words: Sequence[str], text: str | bytes = "", limits: Limits | None = None, **how: Any) -> Done:
        """How the program ends with these words and this standard input."""
        if limits:
            how["preexec_fn"] = lambda: set_limits(limits)
        return run([self.program, *words], text, seconds=SECONDS, **how)

    def expect(self, name: str, words: Sequence[str], status: Status, out: Due, err: Due, text: str | bytes = "", **how: Any) -> None:
        """A case: each output is a whole text, a pattern of it, or None if nobody looks at it."""
        self.tally.ends(name, self.run(words, text, **how), status, out, err)

    def writes(self, name: str, words: Sequence[str], out: Due, text: str | bytes = "", **how: Any) -> None:
        """A case that ends well, with this output and no errors."""
        self.expect(name, words, 0, out, "", text, **how)

    def fails(self, name: str, words: Sequence[str], err: Due, text: str | bytes = "", **how: Any) -> None:
        """A case that fails with this line on standard error, and without output."""
        self.expect(name, words, 1, "", err, text, **how)

    def refuses(self, command: str, many: Iterable[Sequence[str]]) -> None:
        """A case for each of these lists of words: the command doesn't take it, and says something of that."""
        for words in many:
            self.expect(f"{command} {words}", [command, *words], 2, "", ANY)

    def full_device(self, name: str, words: Sequence[str], err: Due, text: str | bytes = "") -> None:
        """A case of a device that takes nothing as standard output."""
        with open("/dev/full", "wb") as full:
            self.expect(name, words, 1, None, err, text, stdout=full)

    def on_terminal(self, words: Sequence[str], text: str | bytes = "") -> tuple[int, str]:
        """The status, and what is written on standard error where that is a terminal."""
        ours, theirs = pty.openpty()
        done = run([self.program, *words], text, seconds=SECONDS, stdout=subprocess.PIPE, stderr=theirs)
        os.close(theirs)
        try:
            given = os.read(ours, 4096).decode()
        except OSError:
            given = ""
        os.close(ours)
        return done.returncode, given.replace("\r\n", "\n")

    def draws_on_terminals(self, name: str, words: Sequence[str], text: str | bytes = "", part: str = "") -> None:
        """Two cases of a line of progress: on a terminal --progress auto draws it, with this part, and --progress never doesn't."""
        for how, due in [("never", False), ("auto", True)]:
            status, given = self.on_terminal([words[0], "--progress", how, *words[1:]], text)
            is_right = given and part in given if due else not given
            self.tally.holds(f"{name}, progress {how} on a terminal", status == 0 and is_right, (status, given))
