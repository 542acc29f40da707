"""What the benches share: journals to time, programs that are built for it, and how long a program takes."""
from __future__ import annotations

import pathlib
import subprocess
import time
from collections.abc import Callable, Iterable, Iterator, Sequence

from harness import OUT, TOP, StrPath

# Where journals and images for benches lie, and what is built of benches/ for the library.
ROOM, BUILT = OUT / "bench", OUT / "embed"


def journal(name: str, frames: int, pages: int, requests: Iterable[str]) -> pathlib.Path:
    """Writes a journal of guest 0's requests, and returns where it is."""
    path = ROOM / f"{name}.journal"
    with open(path, "w", encoding="ascii") as out:
        out.write(f"pageshare journal 1\nframes {frames}\npages {pages}\n")
        count = 0
        for request in requests:
            out.write(f"0 {request}\n")
            count += 1
        out.write(f"end {count}\n")
    return path


def scanned(pages: int, content: Callable[[int], str]) -> Iterator[str]:
    """Each page is stored to, and then each is proposed, as a scan finds pages at rest."""
    for ppn in range(pages):
        yield f"store {ppn} 0 {content(ppn)}"
    for ppn in range(pages):
        yield f"propose {ppn}"


def different(ppn: int) -> str:
    """A content of the page's own."""
    return f"{ppn:08x}"


def seconds(program: StrPath, words: Iterable[str], path: StrPath) -> float:
    """How long a program takes with a file as its input."""
    with open(path, "rb") as text:
        start = time.perf_counter()
        subprocess.run([program, *words], stdin=text, stdout=subprocess.DEVNULL, check=True)
        return time.perf_counter() - start


def output(program: StrPath, words: Iterable[str], path: StrPath) -> bytes:
    """What a program writes with a file as its input."""
    with open(path, "rb") as text:
        return subprocess.run([program, *words], stdin=text, capture_output=True, check=True).stdout


def must(words: Sequence[StrPath]) -> str:
    """What a program writes, which must end well."""
    return subprocess.run(words, check=True, capture_output=True, text=True).stdout.strip()


def built_in_c(name: str, library: StrPath, *flags: str) -> pathlib.Path:
    """Builds benches/NAME.c with the library, and returns the program."""
    BUILT.mkdir(parents=True, exist_ok=True)
    program = BUILT / f"{name}_c"
    must(["cc", "-std=c11", "-O2", *flags, "-I", TOP / "lib/include", TOP / f"benches/{name}.c", library, "-o", program])
    return program


def built_in_rust(name: str) -> pathlib.Path:
    """Builds benches/NAME.rs, and returns the program."""
    BUILT.mkdir(parents=True, exist_ok=True)
    program = BUILT / f"{name}_rust"
    must(["rustc", "--edition", "2021", "-O", TOP / f"benches/{name}.rs", "-o", program])
    return program
