#!/usr/bin/env python3
"""Installs the packages of Debian that `make check` needs, as root, in one call of apt-get.

    tools/packages.py

What is installed already stays as it is. A package that apt-get doesn't know is named, and `make check` names what it left out for want
of it. A package that apt-get knows and that isn't installed afterwards is named in a line of its own, and has failed. Anyone but root
gets a line that says so. The last line is 'N passed, M failed', of all packages that apt-get knows (status 0 where M is 0, else 1).
"""
from __future__ import annotations

import argparse
import os
import shutil
import subprocess
import sys
from collections.abc import Iterable, Sequence

import checks_path  # noqa: F401
from harness import FAILED_CASE, close, known_packages

WANTED = (
    "gcc g++ clang libclang-rt-dev binutils make pkg-config valgrind mandoc man-db zsh fish systemd prometheus"
    " apparmor lintian shellcheck"
    " qemu-system-x86 qemu-utils qemu-user busybox-static"
    " librust-vm-memory-dev librust-hex-dev librust-rayon-dev librust-sha2-dev librust-slab-dev"
    " python3-dask python3-distributed python3-pandas python3-numpy python3-scipy mypy flake8"
).split()
# What apt-get may take, in seconds: for its lists, and for all packages.
SECONDS_OF_LISTS, SECONDS = 180, 900


def lacking(names: Iterable[str]) -> list[str]:
    """Those of these packages that aren't installed."""
    words = ["dpkg-query", "-W", "-f", "${Package} ${Status}\n", *names]
    said = subprocess.run(words, stdin=subprocess.DEVNULL, capture_output=True, text=True, check=False).stdout
    there = {line.split()[0] for line in said.splitlines() if line.endswith(" installed")}
    return [it for it in names if it not in there]


def apt_get(words: Sequence[str], seconds: int) -> None:
    """Runs apt-get, and prints the end of what it said if it failed."""
    how = {**os.environ, "DEBIAN_FRONTEND": "noninteractive"}
    try:
        ran = subprocess.run(
            ["apt-get", "-qq", "-o", "DPkg::Lock::Timeout=60", *words], env=how, stdin=subprocess.DEVNULL, stdout=subprocess.PIPE,
            stderr=subprocess.STDOUT, text=True, errors="replace", timeout=seconds, check=False,
        )
    except subprocess.TimeoutExpired:
        print(f"apt-get {words[0]} didn't end in {seconds} s")
        return
    if ran.returncode != 0:
        print(f"apt-get {words[0]} failed:", *ran.stdout.splitlines()[-10:], sep="\n-- ")


def wanted() -> list[str]:
    """All packages; cargo only where there is none from elsewhere."""
    return WANTED if shutil.which("cargo") else [*WANTED, "cargo"]


def main() -> int:
    argparse.ArgumentParser(description=__doc__.splitlines()[0]).parse_args()
    if shutil.which("apt-get") is None or os.geteuid() != 0:
        print("nothing is installed here, since that needs apt-get and root")
        return close(0, 0)
    missing = lacking(wanted())
    if missing:
        apt_get(["update"], SECONDS_OF_LISTS)
    known = known_packages(missing)
    for name in sorted({*missing} - known):
        print(f"apt-get knows no package {name}")
    if known:
        print(f"installing {' '.join(sorted(known))}", flush=True)
        apt_get(["install", "-y", "--no-install-recommends", *sorted(known)], SECONDS)
    failed = lacking(sorted(known))
    for name in failed:
        print(f"{FAILED_CASE}{name} isn't installed, though apt-get knows it")
    return close(len(wanted()) - len(missing) + len(known) - len(failed), len(failed))


if __name__ == "__main__":
    sys.exit(main())
