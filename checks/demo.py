#!/usr/bin/env python3
"""Looks whether the programs of `make demo` print what the program prints, and how `make demo` ends if a build of it doesn't.

    checks/demo.py [PROGRAM [CRATES]]

PROGRAM is by default out/pageshare, and CRATES the folder of crates where `rt ci` left demo_run and demo_estimate. If they aren't there,
they are left out. A stand-in for rt then prints, fails, or never ends under examples/first_look.py, or isn't there. The last line is
`N passed, M failed`, with status 0 where all passed, else 1.
"""
from __future__ import annotations

import argparse
import os
import pathlib
import re
import shutil
import sys
import time

from harness import PROGRAM, TOP, Done, LeftOut, Tally, new_folder, run

DEMO = TOP / "examples/first_look.py"
HEAD = "This build is for a first look and is not proved; make build makes the proved program. It takes about a minute.\n"
# Which guest is the first to offer a content is up to the threads.
OFFERED = re.compile(r"\b(hinted|paired)\b")
SCRIPTS = ["examples/scans-meet.script", "examples/stale-hint.journal"]
# What stands in for rt, in the folder of a crate.
PRINTS = 'echo "printed in ${PWD##*/}"; echo said >&2'
FAILS = 'echo "refused in ${PWD##*/}" >&2; exit 4'
HANGS = 'echo $$ >> "$PIDS"; exec sleep 60'


def built(crates: pathlib.Path, name: str) -> pathlib.Path:
    program = crates / name / "out" / name
    if not program.exists():
        raise LeftOut(f"{name}, since {program} isn't there")
    return program


def of_estimate(tally: Tally, program: str, crates: pathlib.Path) -> None:
    """The images of the demo, and images that can't be read."""
    demo = built(crates, "demo_estimate")
    with new_folder() as folder:
        run([TOP / "examples/make_images.py", folder])
        (folder / "short.core").write_bytes(b"\x7fELF")
        for names in (["web.raw", "database.core"], ["database.core", "web.raw", "web.raw"], ["web.raw"]):
            due = run([program, "estimate", *names], cwd=folder)
            tally.ends(f"demo_estimate {' '.join(names)}", run([demo, *names], cwd=folder), 0, due.stdout.decode())
        for name in ("short.core", "nothing.raw"):
            tally.ends(f"demo_estimate {name}", run([demo, name], cwd=folder), 1, "", None)


def of_run(tally: Tally, program: str, crates: pathlib.Path) -> None:
    """The demo's script, and a text that isn't one."""
    demo = built(crates, "demo_run")
    for name in SCRIPTS:
        text = (TOP / name).read_bytes()
        due, done = run([program, "run"], text), run([demo], text)
        tally.equal(f"the status of demo_run with {name}", done.returncode, due.returncode)
        printed, wanted = (OFFERED.sub("hinted or paired", it.stdout.decode()) for it in (done, due))
        tally.equal(f"what demo_run prints of {name}", printed, wanted)


def demo_with(folder: pathlib.Path, rt: str | None, seconds: int = 30) -> Done:
    """How the demo ends where this is what rt does, or where there is none."""
    if rt is not None:
        (folder / "rt").write_text(f"#!/bin/sh\n{rt}\n")
        (folder / "rt").chmod(0o755)
    path = f"{folder}{os.pathsep}/usr/bin:/bin" if rt else str(folder)
    how = {**os.environ, "PATH": path, "PIDS": str(folder / "pids")}
    return run([sys.executable, DEMO, folder, "--seconds", seconds], cwd=TOP, env=how)


def of_ends(tally: Tally) -> None:
    """Both programs print; a build fails; a build never ends; there is no rt."""
    with new_folder() as folder:
        estimate, script = (f"\n$ pageshare {it}\n\nprinted in " for it in (
            f"estimate {folder}/web.raw {folder}/database.core", "run examples/scans-meet.script"))
        tally.ends("a demo", demo_with(folder, PRINTS), 0, f"{HEAD}{estimate}demo_estimate\n{script}demo_run\n")
        why = "make demo: refused in demo_estimate\nrt try ended in crates/demo_estimate with status 4\n"
        tally.ends("a build that fails", demo_with(folder, FAILS), 1, HEAD, why)
        start = time.monotonic()
        done = demo_with(folder, HANGS, 1)
        why = "make demo: rt try had not ended in crates/demo_estimate after 1 seconds, and was ended; .*\n"
        tally.ends("a build that never ends", done, 1, HEAD, re.compile(why))
        tally.holds("the seconds until the demo ended it", time.monotonic() - start < 20, time.monotonic() - start)
        left = [pid for pid in (folder / "pids").read_text().split() if pathlib.Path(f"/proc/{pid}").exists()]
        tally.equal("what is left of two builds that never end", left, [])
    with new_folder() as folder:
        why = "make demo: there is no rt on the PATH, the command of the Rattle kit: README.md says which one is needed\n"
        tally.ends("a demo without rt", demo_with(folder, None), 1, HEAD, why)


def main() -> int:
    options = argparse.ArgumentParser(description=__doc__.splitlines()[0])
    options.add_argument("program", metavar="PROGRAM", nargs="?", default=PROGRAM)
    options.add_argument("crates", metavar="CRATES", nargs="?", default=TOP / "crates", type=pathlib.Path)
    given = options.parse_args()
    tally = Tally()
    if shutil.which(given.program) is None:
        tally.leave_out(f"what the demo prints, since {given.program} isn't there")
    else:
        program = str(pathlib.Path(given.program).resolve())
        tally.part(of_estimate, program, given.crates)
        tally.part(of_run, program, given.crates)
    tally.part(of_ends)
    return tally.close()


if __name__ == "__main__":
    sys.exit(main())
