#!/usr/bin/env python3
"""Builds all of the product that isn't proved, by gcc and by clang, over the libraries that `tools/build.py --products` left.

    checks/builds.py [PART ..]

The parts, by default all: `made`, what make builds of C (the libraries, the host, what monitors preload); `made-v3`, the library for
x86-64-v3; `sources`, each C file of the tree by itself, as gcc and clang see it, plain and with the address and undefined-behaviour
sanitizers, and with a record of events where there is one; `headers`, each public header by itself as C and C++; `benches`, the
benchmarks in C and Rust. Warnings are errors. A C file that is in no folder of FLAGS has failed, so that none is left out. The objects
go to out/builds. What this computer has no compiler for is left out, and so said. The last line is `N passed, M failed`, of files
(status 0 where none failed, else 1).
"""
from __future__ import annotations

import argparse
import concurrent.futures
import functools
import os
import pathlib
import shutil
import subprocess
import sys
from collections.abc import Callable, Sequence

from common.benches import built_in_c, built_in_rust
from harness import OUT, TOP, LeftOut, Tally, needs, run

BUILT = OUT / "builds"
MADE = ["libpageshare.a", "libpageshare_host.a", "libpageshare_window.a", "host/pageshare-host", "host/libpageshare-window.so"]
MADE_V3 = ["v3/libpageshare.a"]
STRICT = "-std=c11 -O2 -g -Wall -Wextra -Wconversion -Werror -pthread -Ilib/include".split()
PRELOAD = ["-Iwindow", "-Ihost", "-Ihost/preload"]
POSIX = ["-D_POSIX_C_SOURCE=200809L"]
FREESTANDING = "-ffreestanding -fno-pic -fno-stack-protector -fcf-protection=none -mgeneral-regs-only -mno-red-zone".split()
# How the C files of each folder, or a file, are compiled: the longest path that a file's begins with counts.
FLAGS: dict[str, list[str]] = {
    "benches/": [], "checks/embed/": POSIX, "checks/host/": [], "checks/host/descriptors.c": ["-Ihost"], "checks/host/lines.c": ["-Iwindow"],
    "checks/host/tiny.c": ["-Ihost"], "checks/host/paced.c": ["-Iwindow"],
    "checks/host/ranges.c": PRELOAD, "checks/host/remote.c": PRELOAD, "checks/host/cuts.c": PRELOAD,
    "examples/": POSIX, "host/": ["-Iwindow", "-Ihost"],
    "lib/src/": ["-DPAGESHARE_BUILT_LEVEL=2", "-fPIC"], "monitor/": [], "monitor/guest.c": FREESTANDING, "monitor/standin.c": FREESTANDING,
    "packaging/": ['-DPAGESHARE_COMMIT="a commit"', '-DPAGESHARE_KIT="a kit"'], "window/": [],
}
# The folders whose files can record events, as well as not.
RECORDING = ("monitor/", "window/")
SANITIZERS = ["-fsanitize=address,undefined", "-fno-sanitize-recover=all"]
COMPILERS = {"gcc": "g++", "clang": "clang++"}
# The crates of benches/Cargo.toml as Debian has them, each with its package.
REGISTRY = pathlib.Path("/usr/share/cargo/registry")
CRATES = {"hex-0.4.3": "librust-hex-dev", "rayon-1.6.1": "librust-rayon-dev", "sha2-0.10.5": "librust-sha2-dev", "slab-0.4.4": "librust-slab-dev"}
SECONDS = 300
# A call of a compiler: a name, and the words.
Call = tuple[str, Sequence[str]]


def made(names: Sequence[str], tally: Tally) -> None:
    """What make builds of C."""
    for name in names:
        done = run(["make", "--no-print-directory", f"out/{name}"], seconds=2 * SECONDS, cwd=TOP)
        tally.case(f"make out/{name}", [] if done.returncode == 0 else [(done.stdout + done.stderr).decode("utf-8", "replace")[-3000:]])


def files_of(*patterns: str) -> list[str]:
    """The files of the tree, also those that aren't committed yet."""
    words = ["git", "ls-files", "-co", "--exclude-standard", "--", *patterns]
    listed = subprocess.run(words, cwd=TOP, capture_output=True, text=True, check=True).stdout.split()
    return sorted(it for it in listed if (TOP / it).is_file())


def flags_of(file: str) -> list[str] | None:
    """How a C file is compiled; None of a file that is in no folder of FLAGS."""
    known = [it for it in FLAGS if file.startswith(it)]
    return FLAGS[max(known, key=len)] if known else None


def variants(file: str, flags: list[str]) -> dict[str, list[str]]:
    """The names of the ways in which a file is compiled, each with its flags."""
    ways: dict[str, list[str]] = {"plain": [], "with sanitizers": SANITIZERS}
    if flags is FREESTANDING:
        return {"plain": []}
    if file.startswith(RECORDING):
        ways["recording events"] = ["-DWINDOW_TRACE"]
    return ways


def compiled(compiler: str, words: Sequence[str], name: str) -> list[str]:
    """What a compiler says of what it can't compile; nothing where it can."""
    path = BUILT / f"{name}.o"
    path.parent.mkdir(parents=True, exist_ok=True)
    done = run([compiler, *words, "-c", "-o", path], seconds=SECONDS, cwd=TOP)
    return [] if done.returncode == 0 else [done.stderr.decode("utf-8", "replace")[:3000] or f"status {done.returncode}"]


def compile_all(tally: Tally, compiler: str, calls: Sequence[Call]) -> None:
    """A case for each call: a name, and the words for the compiler. They run side by side."""
    with concurrent.futures.ThreadPoolExecutor(len(os.sched_getaffinity(0))) as lane:
        said = lane.map(lambda call: compiled(compiler, call[1], f"{compiler}/{call[0]}"), calls)
        for (name, _words), wrong in zip(calls, said):
            tally.case(f"{name} by {compiler}", wrong)


def sources(tally: Tally) -> None:
    """Each C file by each compiler."""
    files = [(it, flags_of(it)) for it in files_of("*.c")]
    for file, flags in files:
        tally.case(f"{file} is in a folder whose flags are known", [] if flags is not None else ["it isn't: FLAGS in checks/builds.py"])
    calls = [
        (f"{file}, {way}", [*STRICT, *flags, *more, file])
        for file, flags in files if flags is not None for way, more in variants(file, flags).items()
    ]
    for compiler in COMPILERS:
        tally.part(by_compiler, compiler, calls)


def by_compiler(tally: Tally, compiler: str, calls: Sequence[Call]) -> None:
    needs(f"all of C by {compiler}", compiler)
    compile_all(tally, compiler, calls)


def headers(tally: Tally) -> None:
    """Each public header, alone, as C and as C++."""
    for compiler, other in COMPILERS.items():
        tally.part(headers_by, compiler, other)


def headers_by(tally: Tally, compiler: str, other: str) -> None:
    needs(f"the headers by {compiler} and {other}", compiler, other)
    names = files_of("lib/include/*.h")
    # (twice, as programs may)
    twice = {it: ["-include", it, "-include", it] for it in names}
    compile_all(tally, compiler, [(f"{it}, as C", [*STRICT, "-Wpedantic", *twice[it], "-x", "c", os.devnull]) for it in names])
    words = "-std=c++11 -O2 -Wall -Wextra -Wconversion -Wpedantic -Werror -Ilib/include".split()
    compile_all(tally, other, [(f"{it}, as C++", [*words, *twice[it], "-x", "c++", os.devnull]) for it in names])


def built(tally: Tally, name: str, call: Callable[[], object]) -> None:
    """A case: a program that is built, or what its compiler said."""
    try:
        call()
        tally.case(name, [])
    except subprocess.CalledProcessError as failure:
        tally.case(name, [str(failure.stderr)[-3000:]])


def benches(tally: Tally) -> None:
    """The benchmarks that link the library, in C; and those in Rust."""
    tally.part(benches_in_c)
    tally.part(benches_in_rust)
    tally.part(opponents)


def benches_in_c(tally: Tally) -> None:
    needs("the benchmarks in C", "cc")
    library = OUT / "libpageshare.a"
    for file in files_of(":(glob)benches/*.c"):
        name = pathlib.Path(file).stem
        flags = ["-pthread", "-Wall", "-Wextra", "-Wconversion", "-Werror"]
        built(tally, f"{file}, linked", functools.partial(built_in_c, name, library, *flags))


def benches_in_rust(tally: Tally) -> None:
    needs("the benchmarks in Rust", "rustc")
    in_package = (TOP / "benches/Cargo.toml").read_text()
    for file in files_of(":(glob)benches/*.rs"):
        name = pathlib.Path(file).stem
        if f'"{name}.rs"' not in in_package and (TOP / f"benches/{name}.c").exists() or name == "lend":
            built(tally, f"{file}, built", functools.partial(built_in_rust, name))


def opponents(tally: Tally) -> None:
    """The Cargo package of benches/, over Debian's crates."""
    needs("the package of benches/", "cargo")
    for crate, package in CRATES.items():
        if not (REGISTRY / crate).is_dir():
            raise LeftOut(f"the package of benches/, since there is no crate {crate}", package)
    folder = BUILT / "opponents"
    shutil.rmtree(folder, ignore_errors=True)
    shutil.copytree(TOP / "benches", folder)
    words = ["cargo", "build", "--quiet", "--offline", "--bins", "--target-dir", BUILT / "target"]
    words += ["--config", 'source.crates-io.replace-with="at-hand"', "--config", f'source.at-hand.directory="{REGISTRY}"']
    done = run(words, seconds=SECONDS, cwd=folder, env={**os.environ, "RUSTFLAGS": "-D warnings"})
    tally.case("the package of benches/", [] if done.returncode == 0 else [done.stderr.decode("utf-8", "replace")[-3000:]])


PARTS: dict[str, Callable[[Tally], object]] = {
    "made": functools.partial(made, MADE), "made-v3": functools.partial(made, MADE_V3), "sources": sources, "headers": headers, "benches": benches,
}


def main() -> int:
    options = argparse.ArgumentParser(description=__doc__.splitlines()[0])
    options.add_argument("parts", metavar="PART", nargs="*", help=", ".join(PARTS))
    parts, tally = options.parse_args().parts, Tally()
    for name in parts:
        if name not in PARTS:
            options.error(f"there is no part {name}: {', '.join(PARTS)}")
    for name in parts or PARTS:
        tally.part(PARTS[name])
    return tally.close()


if __name__ == "__main__":
    sys.exit(main())
