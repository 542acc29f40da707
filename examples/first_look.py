#!/usr/bin/env python3
"""A first look at the program (`make demo`): two guests' scans meet, a thread for each, and what sharing would reclaim of two images.

    examples/first_look.py FOLDER [--seconds N]

Writes the images to FOLDER (make_images.py). Builds and runs crates/demo_run and crates/demo_estimate by `rt try`, which proves nothing.
Each prints what one command of the program prints, and is compiled with no more than that needs; both are built at the same time.
Prints each command and its output. FOLDER/demo_run.log and FOLDER/demo_estimate.log have what rt said. The status is 0 if both
programs did their work; else the log of the first that didn't is printed, and the status is 1. After N seconds (600) what still runs
is ended.
"""
from __future__ import annotations

import argparse
import contextlib
import pathlib
import subprocess
import sys
import time
import typing
from collections.abc import Iterator

TOP = pathlib.Path(__file__).resolve().parent.parent
SCRIPT = "examples/scans-meet.script"
IMAGES = ("web.raw", "database.core")
# How long a build that is ended may take to remove its files.
GRACE = 10


class Demo(typing.NamedTuple):
    """A crate of the demo, the command whose output it prints, the words after `rt try`, and the file on its standard input."""

    crate: str
    command: str
    words: list[str]
    given: str


class Failed(Exception):
    """Why there is nothing to show."""


def demos(folder: pathlib.Path) -> list[Demo]:
    names = [str(folder / name) for name in IMAGES]
    data = [word for name in names for word in ("--data", f"{name}={pathlib.Path(name).resolve()}")]
    return [
        Demo("demo_estimate", f"pageshare estimate {' '.join(names)}", [*data, "--", *names], "/dev/null"),
        Demo("demo_run", f"pageshare run {SCRIPT}", [], str(TOP / SCRIPT)),
    ]


@contextlib.contextmanager
def started(demo: Demo, folder: pathlib.Path) -> Iterator[subprocess.Popen[bytes]]:
    """The build and run of a crate, which is ended at the latest when this is left."""
    with contextlib.ExitStack() as files:
        given = files.enter_context(open(demo.given, "rb"))
        printed = files.enter_context(open(folder / f"{demo.crate}.txt", "wb"))
        said = files.enter_context(open(folder / f"{demo.crate}.log", "wb"))
        how: dict[str, typing.Any] = {"stdin": given, "stdout": printed, "stderr": said, "cwd": TOP / "crates" / demo.crate}
        try:
            build = subprocess.Popen(["rt", "try", *demo.words], **how)
        except FileNotFoundError:
            raise Failed("there is no rt on the PATH, the command of the Rattle kit: README.md says which one is needed") from None
    try:
        yield build
    finally:
        end(build)


def end(build: subprocess.Popen[bytes]) -> None:
    """Ends a build that still runs: rt first ends what it has started."""
    if build.poll() is None:
        build.terminate()
        try:
            build.wait(GRACE)
        except subprocess.TimeoutExpired:
            build.kill()
            build.wait()


def waited(build: subprocess.Popen[bytes], start: float, seconds: float) -> int | None:
    """The status of a build; None if it hasn't ended so many seconds after the start. A terminal shows how long that takes."""
    while build.poll() is None and time.monotonic() < start + seconds:
        if sys.stderr.isatty():
            print(f"\rbuilding for {time.monotonic() - start:.0f} s \r", end="", file=sys.stderr, flush=True)
        time.sleep(0.2)
    return build.poll()


def show(demo: Demo, folder: pathlib.Path, build: subprocess.Popen[bytes], start: float, seconds: float) -> None:
    """Waits for a build, and prints the command and what it printed."""
    log = folder / f"{demo.crate}.log"
    status = waited(build, start, seconds)
    if status is None:
        late = f"rt try had not ended in crates/{demo.crate} after {seconds:g} seconds, and was ended"
        raise Failed(f"{late}; {log} has what it said")
    if status:
        raise Failed(f"{log.read_text(errors='replace')}rt try ended in crates/{demo.crate} with status {status}")
    print(f"\n$ {demo.command}\n\n{(folder / f'{demo.crate}.txt').read_text()}", end="", flush=True)


def main() -> int:
    options = argparse.ArgumentParser(description=__doc__.splitlines()[0])
    options.add_argument("folder", metavar="FOLDER", type=pathlib.Path)
    options.add_argument("--seconds", metavar="N", type=float, default=600)
    given = options.parse_args()
    print("This build is for a first look and is not proved; make build makes the proved program. It takes about a minute.", flush=True)
    subprocess.run([sys.executable, TOP / "examples/make_images.py", given.folder], check=True)
    start = time.monotonic()
    try:
        with contextlib.ExitStack() as stack:
            for demo, build in [(demo, stack.enter_context(started(demo, given.folder))) for demo in demos(given.folder)]:
                show(demo, given.folder, build, start, given.seconds)
    except Failed as why:
        print(f"make demo: {why}", file=sys.stderr)
        return 1
    except KeyboardInterrupt:
        return 130
    return 0


if __name__ == "__main__":
    sys.exit(main())
