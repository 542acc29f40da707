#!/usr/bin/env python3
"""Looks where the frames of the proved libraries for C are: in the regions that their callers gave, each machine's in its own part.

    checks/frames.py

No clause says where the memory of a frame is. So a body is proved that leaves a region aside and has its frames on the heap, or one
that exchanges the frames of two machines. Here programs of checks/embed look: region.c at machines, domain_calls.c at domains of one to
four machines, and host_calls.c at a host of three. The libraries are linked from what `tools/build.py --libraries` built. Without a C
compiler all is left out, and so said. Each program must print "ok". The last line is `N passed, M failed` (status 0 where all passed,
else 1).
"""
from __future__ import annotations

import argparse
import sys

from common.c_programs import CC, FLAGS, compile_c
from harness import OUT, TOP, Tally, needs, run

BUILT = OUT / "frames"
# Each program, and the library that it is linked with.
PROGRAMS = {"region": "libpageshare.a", "domain_calls": "libpageshare.a", "host_calls": "libpageshare_host.a"}
SECONDS = 300


def look(tally: Tally) -> None:
    """A case for each program; all is left out where there is no C compiler."""
    needs("where the frames of C are", CC, "ar", "objcopy")
    for name, library in PROGRAMS.items():
        made = run(["make", "--no-print-directory", f"out/{library}"], seconds=SECONDS, cwd=TOP)
        if not tally.equal(f"make out/{library}", (made.returncode, made.stderr.decode() if made.returncode else ""), (0, "")):
            continue
        words = ["-D_POSIX_C_SOURCE=200809L", f"-I{TOP / 'lib/include'}", TOP / f"checks/embed/{name}.c", OUT / library]
        program = compile_c([*FLAGS, *map(str, words)], BUILT / name)
        tally.ends(f"checks/embed/{name}.c", run([program], seconds=SECONDS), 0, "ok\n")


def main() -> int:
    argparse.ArgumentParser(description=__doc__.splitlines()[0]).parse_args()
    tally = Tally()
    tally.part(look)
    return tally.close()


if __name__ == "__main__":
    sys.exit(main())
