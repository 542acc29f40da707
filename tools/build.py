#!/usr/bin/env python3
"""Builds programs and the libraries for C from what a gate on this machine has proved.

    tools/build.py CRATE FILE [--cpu LEVEL]
    tools/build.py --products [LEVEL]
    tools/build.py --libraries

First the crates are proved, many side by side, but for what was proved of the same files: by an earlier run on this computer where
the kit keeps that, and else in this tree, for example by `make test`. A program for x86-64-v2 is then put to FILE as it was built when
it was proved, and a static library is compiled from what was checked of it in this tree. A static library of which nothing was checked
here, and what is for another processor LEVEL, such as x86-64-v3, is proved as it is built, over the same libraries. With a kit that
keeps what it proved that is kept, too, in ~/.cache/pageshare, and taken from there as long as the files are the same. A note, FILE.of,
says of which files FILE was built, and nothing is done where these are as they were.

--products builds all that is installed and all that `make check` needs, or of these what is for a processor LEVEL, side by side, and ends
with 'N passed, M failed'. --libraries does the same for the static libraries of x86-64-v2: out/proved.a, out/proved_host.a and
out/proved_window.a. Status 0 where each FILE was written, else 1.
"""
from __future__ import annotations

import argparse
import concurrent.futures
import contextlib
import copy
import hashlib
import os
import pathlib
import re
import shutil
import subprocess
import sys
import tempfile
import typing
from collections.abc import Iterable, Mapping, Sequence
from typing import Any

import checks_path  # noqa: F401
from common import proved
from common.kit import load_kit
from common.lanes import lanes
from harness import OUT, TOP, close, new_folder

DEFAULT = "x86-64-v2"
# How much is printed of what was said of a crate that isn't built.
MOST_SAID = 6000


class Product(typing.NamedTuple):
    """A crate's program or static library, built for a processor level, and where it is put."""

    crate: str
    file: pathlib.Path
    cpu: str = DEFAULT

    def is_given(self, crate: Any) -> bool:
        """Whether a proof of the crate left what it is made of: a program, or what was checked of a static library."""
        return self.cpu == DEFAULT and (not crate.is_static or checked_of(crate).is_dir())


PRODUCTS = [
    Product("pageshare_c", OUT / "v3/proved.a", "x86-64-v3"),
    Product("pageshare_c", OUT / "proved.a"),
    Product("pageshare_host_c", OUT / "proved_host.a"),
    Product("pageshare_window_c", OUT / "proved_window.a"),
    Product("pageshare", OUT / "pageshare-v3", "x86-64-v3"),
    Product("pageshare", OUT / "pageshare"),
    Product("window_trace", OUT / "window_trace"),
]
LEVELS = sorted({it.cpu for it in PRODUCTS})
LIBRARIES = [it for it in PRODUCTS if it.file.suffix == ".a" and it.cpu == DEFAULT]


# What is written in place of words of a program's main.rt where it is built for a level: a hash of as many pages as fit its vectors.
WIDER = {("pageshare", "x86-64-v3"): {"Sha256Hash": "WideSha256Hash", "Four pages": "Eight pages", DEFAULT: "x86-64-v3"}}


def checked_of(crate: Any) -> pathlib.Path:
    """Where a proof in this tree leaves what it checked of a static library."""
    return TOP / "crates" / str(crate.name) / "out/checked"


def note_of(product: Product) -> pathlib.Path:
    return product.file.with_name(f"{product.file.name}.of")


def rests_on(product: Product, sums: Mapping[str, str]) -> str:
    """What a product is built of, as a sum."""
    return hashlib.sha256(repr((sums[product.crate], product.cpu)).encode()).hexdigest()


def is_built(product: Product, sums: Mapping[str, str]) -> bool:
    """Whether a product was built of these files. Then it counts as new, so that `make` takes it."""
    note = note_of(product)
    if not product.file.is_file() or not note.is_file() or note.read_text(encoding="utf-8") != rests_on(product, sums):
        return False
    product.file.touch()
    return True


def is_kept(kit: Any, product: Product, crate: Any) -> bool:
    """Whether a product is kept once it is built: it isn't given by a proof that the kit keeps."""
    return proved.keeps(kit) and (crate.is_static or product.cpu != DEFAULT)


def kept_at(product: Product, sums: Mapping[str, str]) -> pathlib.Path | None:
    """Where such a product is kept, in a folder that only this user may write to; None if there can be none."""
    room = pathlib.Path(os.environ.get("XDG_CACHE_HOME") or pathlib.Path.home() / ".cache") / "pageshare"
    try:
        room.mkdir(mode=0o700, parents=True, exist_ok=True)
        found = room.stat()
    except OSError:
        return None
    by = hashlib.sha256((rests_on(product, sums) + pathlib.Path(__file__).read_text(encoding="utf-8")).encode()).hexdigest()
    return room / f"{product.crate}-{product.cpu}-{by}" if found.st_uid == os.geteuid() and not found.st_mode & 0o077 else None


def take_kept(product: Product, sums: Mapping[str, str]) -> bool:
    """Takes a product that an earlier build has kept. Returns whether there is one."""
    kept = kept_at(product, sums)
    if kept is None or not kept.is_file():
        return False
    put(str(kept), product)
    note_of(product).write_text(rests_on(product, sums), encoding="utf-8")
    return True


def keep(product: Product, sums: Mapping[str, str]) -> None:
    """Keeps a product that was built, in place of what was kept of other files."""
    kept = kept_at(product, sums)
    if kept is None:
        return
    part = kept.with_name(f"part-{os.getpid()}-{kept.name}")
    with contextlib.suppress(OSError):
        shutil.copyfile(product.file, part)
        shutil.copymode(product.file, part)
        for older in kept.parent.glob(f"{product.crate}-{product.cpu}-*"):
            older.unlink(missing_ok=True)
        part.rename(kept)


def wanted_of(every: Mapping[str, Any], products: Iterable[Product]) -> list[str]:
    """The crates that are to be proved before these products are built: what isn't given is proved as it is built."""
    wanted = []
    for it in products:
        crate = every[it.crate]
        wanted += [it.crate] if it.is_given(crate) else [below.name for below in crate.deps]
    return list(dict.fromkeys(wanted))


def prove_kept(names: Iterable[str]) -> bool:
    """Proves crates and those below them with a kit that keeps what it proved, and says how far that is."""
    done, said = 0, []
    how: dict[str, typing.Any] = {"cwd": TOP, "stdin": subprocess.DEVNULL, "stdout": subprocess.PIPE, "stderr": subprocess.STDOUT}
    with subprocess.Popen(["rt", "ci", *names], env={**os.environ, "CI": ""}, text=True, errors="replace", **how) as ran:
        for line in ran.stdout or []:
            said.append(line)
            if line.startswith("rt: ") and line.rstrip().endswith(" proved"):
                done += 1
                print(f"{done} proved: {line[4:].rstrip()}", flush=True)
    print("".join(said[-60:] if ran.returncode else []), end="")
    return ran.returncode == 0


def copied(kit: Any, names: Sequence[str], room: str) -> dict[str, Any]:
    """The crates of a copy of the sources in this folder, by name, with what was proved of these and of the crates below them."""
    kit.copy_crates(str(TOP), room)
    (pathlib.Path(room) / ".git").mkdir()
    every = kit.crates_of(room)
    kept, found = kit.Kept(every), {it.name: it for it in every}
    wanted = {below.name for name in names for below in [*found[name].below(), found[name]]}
    for crate in sorted((found[it] for it in wanted), key=lambda it: len(it.below())):
        os.makedirs(f"{crate.folder}/out", exist_ok=True)
        if not kept.give(crate, False, kept.key(crate)):
            sys.exit(f"what was proved of {crate.name} isn't kept on this machine: is its disk full?")
        kept.is_built(crate)
    return found


def widened(crate: Any, product: Product, room: str) -> Any:
    """The crate as it is built for a level: itself, or a copy in this folder with other words in its main.rt."""
    words = WIDER.get((product.crate, product.cpu))
    if words is None:
        return crate
    crate, folder = copy.copy(crate), pathlib.Path(room, product.crate)
    shutil.copytree(crate.folder, folder, ignore=shutil.ignore_patterns("out"))
    text = (folder / "src/main.rt").read_text(encoding="utf-8")
    for old, new in words.items():
        text = re.sub(rf"\b{re.escape(old)}\b", new, text)
    (folder / "src/main.rt").write_text(text, encoding="utf-8")
    crate.folder = str(folder)
    return crate


def compile_checked(kit: Any, crate: Any, words: Sequence[str], to: str) -> int:
    """Compiles a static library from what its proof checked, if that was of the files as they are now. Returns the status."""
    whole = [*words]
    for flag in ("--logic-built", "--jobs"):
        at = whole.index(flag)
        del whole[at : at + 2]
    ran = [kit.rtlib.RATTLE, "build", *whole, "--crate-checked", str(checked_of(crate)), "-o", to]
    return subprocess.run([*kit.rtlib.guarded(), *ran], cwd=crate.folder, stdin=subprocess.DEVNULL, stdout=crate.out, stderr=crate.out, check=False).returncode


def compiled(kit: Any, crate: Any, product: Product, room: str) -> str | None:
    """Builds a crate for a processor level, and returns where its program or library lies. The folder is for a copy of the crate."""
    level = "" if product.cpu == DEFAULT else f"-{product.cpu}"
    crate = widened(crate, product, room)
    made = f"{crate.folder}/out/{f'lib{crate.name}{level}.a' if crate.is_static else f'{crate.name}{level}'}"
    is_given = product.is_given(crate)
    if is_given and not crate.is_static and os.path.isfile(made):
        return made
    os.makedirs(f"{crate.folder}/out", exist_ok=True)
    words = [*crate.words(["--jobs", "1"], keeps=False), "--toolchain", f"{kit.KIT}/toolchain", "--backend", "llvm"]
    to, crate = made if crate.is_static else f"{made}.o", copy.copy(crate)
    with tempfile.TemporaryFile("a+", errors="replace") as crate.out:
        status = compile_checked(kit, crate, words, to) if is_given and crate.is_static else 1
        if status:
            status = crate.prove(["build", *words, "--cpu", product.cpu, "-o", to])
        status = status or (0 if crate.is_static else crate.link(to, os.path.relpath(made, crate.folder)))
        crate.out.seek(0)
        print(crate.out.read()[-MOST_SAID:] if status else "", end="", file=sys.stderr)
    return None if status else made


def put(made: str, product: Product) -> None:
    product.file.parent.mkdir(parents=True, exist_ok=True)
    shutil.copyfile(made, product.file)
    shutil.copymode(made, product.file)


def build_over(kit: Any, every: Mapping[str, Any], products: Sequence[Product], sums: Mapping[str, str]) -> list[Product]:
    """Builds products side by side over what is proved of these crates. Returns those that were built."""
    def build(product: Product) -> bool:
        with new_folder() as room:
            made = compiled(kit, every[product.crate], product, str(room))
            print(f"{product.crate} for {product.cpu} {'built' if made else 'NOT BUILT'}", flush=True)
            if made:
                put(made, product)
                note_of(product).write_text(rests_on(product, sums), encoding="utf-8")
        if made and is_kept(kit, product, every[product.crate]):
            keep(product, sums)
        return made is not None

    with concurrent.futures.ThreadPoolExecutor(lanes()) as lane:
        return [it for it, is_well in zip(products, lane.map(build, products)) if is_well]


def build(kit: Any, products: Sequence[Product]) -> list[Product]:
    """Builds products from what is proved in this tree, or with a kit that keeps what it proved from that. Returns those that are built."""
    every = proved.crates_of(kit)
    sums = proved.sums_of(kit, every.values())
    there = [it for it in products if is_built(it, sums) or (is_kept(kit, it, every[it.crate]) and take_kept(it, sums))]
    for it in there:
        print(f"{it.crate} for {it.cpu} is built already of the same files")
    products = [it for it in products if it not in there]
    names = wanted_of(every, products)
    if not products or not (prove_kept(names) if proved.keeps(kit) else proved.prove(kit, names)):
        return there
    if not proved.keeps(kit):
        return [*there, *build_over(kit, every, products, sums)]
    with new_folder() as room:
        return [*there, *build_over(kit, copied(kit, names, f"{room}/repo"), products, sums)]


def main() -> int:
    options = argparse.ArgumentParser(description=__doc__.splitlines()[0])
    options.add_argument("--products", metavar="LEVEL", nargs="?", const="", choices=["", *LEVELS],
                         help="build all that is installed and that `make check` needs, or what of it is for this processor level")
    options.add_argument("--libraries", action="store_true", help="build the static libraries for x86-64-v2")
    options.add_argument("crate", nargs="?")
    options.add_argument("file", nargs="?", type=pathlib.Path)
    options.add_argument("--cpu", default=DEFAULT)
    given = options.parse_args()
    if (given.products is not None) + given.libraries + (given.file is not None) != 1:
        options.error("give a crate and a file, --products or --libraries")
    several = LIBRARIES if given.libraries else [] if given.products is None else [it for it in PRODUCTS if given.products in ("", it.cpu)]
    products = several or [Product(given.crate, given.file, given.cpu)]
    kit = load_kit()
    os.environ["RT_JOBS"] = str(lanes())
    built = build(kit, products)
    if several:
        return close(len(built), len(products) - len(built))
    return 0 if len(built) == len(products) else 1


if __name__ == "__main__":
    sys.exit(main())
