"""C programs that a check builds and runs, and what a machine needs for that. CC names another compiler than cc, and CFLAGS more words."""
from __future__ import annotations

import os
import pathlib
import subprocess
from collections.abc import Sequence
from typing import Any

from harness import LATE, TOP, LeftOut, StrPath, Tally, needs

CC = os.environ.get("CC", "cc")
FLAGS = "-std=c11 -O2 -g -Wall -Wextra -Wconversion -Werror -pthread".split() + os.environ.get("CFLAGS", "").split()
# Of windows, through which idle pages are lent: their own sources, and a lender of a domain in the same process.
WINDOW = sorted((TOP / "window").glob("*.c"))
LENDER = sorted((TOP / "window/lender").glob("*.c"))
# What decides for windows: the proved library, which they are linked with.
WINDOW_LIBRARY = os.environ.get("WINDOW_LIBRARY", str(TOP / "out/libpageshare_window.a"))
SECONDS = 600


def needs_windows() -> None:
    """Leaves all out where there is no C compiler, no userfaultfd or no proved library for windows."""
    needs("all windows", CC)
    if not os.path.exists(WINDOW_LIBRARY):
        raise LeftOut(f"all windows, since there is no {WINDOW_LIBRARY} (make host)")
    if not can_open("/dev/userfaultfd"):
        raise LeftOut("all windows, since there is no /dev/userfaultfd for this user")


def can_open(path: str) -> bool:
    """Whether a device can be opened."""
    try:
        os.close(os.open(path, os.O_RDWR | os.O_CLOEXEC))
        return True
    except OSError:
        return False


def run(words: Sequence[StrPath], seconds: float = SECONDS, **more: Any) -> subprocess.CompletedProcess[Any]:
    """Shows a command and runs it. Its status is LATE if it is ended after these seconds."""
    print("$ " + " ".join(str(word).replace(f"{TOP}/", "") for word in words), flush=True)
    try:
        return subprocess.run(words, timeout=seconds, check=False, **more)
    except subprocess.TimeoutExpired:
        return subprocess.CompletedProcess(words, LATE)


def passes(tally: Tally, words: Sequence[StrPath], seconds: float = SECONDS, **more: Any) -> bool:
    """A case: a program, which prints what is wrong, must end with status 0, and in time."""
    return tally.equal(f"{os.path.basename(words[0])}, its status", run(words, seconds, **more).returncode, 0)


def compile_c(words: Sequence[StrPath], path: pathlib.Path) -> pathlib.Path:
    """Compiles and links C with these words to this path, and returns it."""
    path.parent.mkdir(parents=True, exist_ok=True)
    if subprocess.run([CC, *words, "-o", path], check=False).returncode != 0:
        raise SystemExit(f"{path.name} does not compile")
    return path


def play(tally: Tally, trace: StrPath) -> None:
    """A case: a record of events, through the proved program that plays them."""
    program = TOP / "out/window_trace"
    if not program.exists():
        raise LeftOut("the record through the proved program, since there is no out/window_trace (make out/window_trace)")
    passes(tally, [program, trace])
