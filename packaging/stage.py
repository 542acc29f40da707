#!/usr/bin/env python3
"""Puts all that is installed into a folder, as it lies below a prefix.

    packaging/stage.py FOLDER [--libdir LIBDIR] [--prefix PREFIX] [--zsh FOLDER] [--part program|host]

What `make build` and `make embed` leave in out/ for x86-64-v2 and x86-64-v3 has to be there for the part `program`, and what
`make host` leaves in out/host for the part `host`; both parts are put there unless --part names one. LIBDIR is the libraries' folder
below the prefix, by default lib. --zsh is where zsh looks below the prefix, by default share/zsh/site-functions.

With --prefix the files name that prefix. Without it the pkg-config file finds the library from where it lies itself, and the host's
files keep the word @PREFIX@, which packaging/install.sh replaces: programs and the library can be moved, a unit can't.
"""
from __future__ import annotations

import argparse
import os
import pathlib
import re
import shutil
import subprocess
from collections.abc import Sequence

import header

TOP = pathlib.Path(__file__).resolve().parent.parent
OUT = TOP / "out"
HOST = OUT / "host/pageshare-host"
VERSION = header.version((TOP / "lib/include/pageshare.h").read_text())
SONAME = f"libpageshare.so.{VERSION.split('.', maxsplit=1)[0]}"
# What may be installed: `program` is pageshare with its library, `host` is pageshare-host with the library that monitors preload.
PARTS = ("program", "host")
# The files that the host needs of a system: each of packaging/host, where it lies below the prefix, and its mode.
HOST_FILES = {
    "pageshare-host@.service": ("lib/systemd/system/pageshare-host@.service", 0o644),
    "pageshare-host-metrics.service": ("lib/systemd/system/pageshare-host-metrics.service", 0o644),
    "pageshare-host-metrics.timer": ("lib/systemd/system/pageshare-host-metrics.timer", 0o644),
    "pageshare-host.sysusers": ("lib/sysusers.d/pageshare-host.conf", 0o644),
    "pageshare-host.tmpfiles": ("lib/tmpfiles.d/pageshare-host.conf", 0o644),
    "60-pageshare-host.rules": ("lib/udev/rules.d/60-pageshare-host.rules", 0o644),
    "60-pageshare-host.sysctl": ("lib/sysctl.d/60-pageshare-host.conf", 0o644),
    "libvirt-qemu.apparmor": ("share/pageshare/libvirt-qemu.apparmor", 0o644),
    "pageshare-qemu": ("bin/pageshare-qemu", 0o755),
    "write-metrics": ("libexec/pageshare/write-metrics", 0o755),
}
# A link of a document, but no picture: its words, and where it leads.
LINK = re.compile(r"(?<!!)\[([^\[\]]*)\]\(([^()\s]+)\)")
PACKAGE = """\
{prefix}
libdir={libdir}
includedir={includedir}

Name: pageshare
Description: Content-based page sharing for virtual machine monitors
Version: {version}
Libs: -L${{libdir}} -lpageshare
Cflags: -I${{includedir}}
"""


def said(*words: str) -> str:
    """What a command prints, or nothing where it fails."""
    try:
        done = subprocess.run(words, cwd=TOP, stdin=subprocess.DEVNULL, capture_output=True, text=True, check=True)
    except (OSError, subprocess.CalledProcessError):
        return ""
    return done.stdout.strip()


def commit() -> str:
    """The commit of the tree, and whether files differ from it."""
    number = said("git", "rev-parse", "HEAD")
    return f"{number}{' with changes' if said('git', 'status', '--porcelain') else ''}" if number else "unknown"


def commit_time() -> int:
    """The seconds of the last commit, which all files of a package have."""
    return int(os.environ.get("SOURCE_DATE_EPOCH") or said("git", "log", "-1", "--format=%ct") or 0)


def files_below(folder: pathlib.Path, skipped: str) -> list[pathlib.Path]:
    """The files below a folder, but for those of folders of this name."""
    return sorted(it for it in folder.rglob("*") if it.is_file() and skipped not in it.parts)


class Stage:
    """A folder that is being filled."""

    def __init__(self, folder: pathlib.Path, libdir: str, prefix: str | None, zsh: str) -> None:
        self.folder, self.libdir, self.prefix, self.zsh = folder, libdir, prefix, zsh

    def put(self, source: pathlib.Path, path: str, mode: int = 0o644) -> None:
        file = self.folder / path
        file.parent.mkdir(parents=True, exist_ok=True)
        shutil.copyfile(source, file)
        file.chmod(mode)

    def put_code(self, source: pathlib.Path, path: str, mode: int = 0o755) -> None:
        """A program or a library, without what only a debugger reads."""
        self.put(source, path, mode)
        kept = "--strip-debug" if source.suffix == ".a" else "--strip-unneeded"
        strip = os.environ.get("STRIP", "strip")
        subprocess.run([strip, kept, "--enable-deterministic-archives", self.folder / path], check=True)

    def put_named(self, source: pathlib.Path, path: str, mode: int = 0o644) -> None:
        """A text that names what is installed."""
        text = source.read_text().replace("@LIBDIR@", self.libdir)
        self.write(path, text.replace("@PREFIX@", self.prefix) if self.prefix else text)
        (self.folder / path).chmod(mode)

    def link(self, path: str, target: str) -> None:
        file = self.folder / path
        file.parent.mkdir(parents=True, exist_ok=True)
        file.symlink_to(target)

    def write(self, path: str, text: str) -> None:
        file = self.folder / path
        file.parent.mkdir(parents=True, exist_ok=True)
        file.write_text(text)

    def program(self) -> None:
        self.put_code(OUT / "pageshare", "libexec/pageshare/pageshare-v2")
        self.put_code(OUT / "pageshare-v3", "libexec/pageshare/pageshare-v3")
        defines = [f'-DPAGESHARE_COMMIT="{commit()}"', f'-DPAGESHARE_KIT="{said("rt", "version") or "an unknown kit"}"']
        words = [os.environ.get("CC", "cc"), "-std=c11", "-O2", "-march=x86-64", "-Wall", "-Wextra", "-Werror", "-s", "-Wl,--build-id=none"]
        (self.folder / "bin").mkdir(parents=True)
        subprocess.run([*words, *defines, "packaging/launcher.c", "-o", self.folder.resolve() / "bin/pageshare"], cwd=TOP, check=True)

    def library(self) -> None:
        for source, path in [(OUT, self.libdir), (OUT / "v3", f"{self.libdir}/glibc-hwcaps/x86-64-v3")]:
            self.put_code(source / f"libpageshare.so.{VERSION}", f"{path}/libpageshare.so.{VERSION}", 0o644)
            self.link(f"{path}/{SONAME}", f"libpageshare.so.{VERSION}")
        self.link(f"{self.libdir}/libpageshare.so", SONAME)
        self.put_code(OUT / "libpageshare.a", f"{self.libdir}/libpageshare.a", 0o644)
        self.put_code(OUT / "v3/libpageshare.a", f"{self.libdir}/pageshare/x86-64-v3/libpageshare.a", 0o644)
        for file in sorted((TOP / "lib/include").glob("*.h")):
            self.put(file, f"include/{file.name}")
        up = "/".join([".."] * (len(pathlib.PurePath(self.libdir).parts) + 1))
        prefix = f"prefix={self.prefix or '${pcfiledir}/' + up}"
        places = {"libdir": f"${{prefix}}/{self.libdir}", "includedir": "${prefix}/include", "version": VERSION}
        self.write(f"{self.libdir}/pkgconfig/pageshare.pc", PACKAGE.format(prefix=prefix, **places))

    def host(self) -> None:
        """The host, the library that monitors preload, and what the system reads of them."""
        self.put_code(HOST, "bin/pageshare-host")
        self.put_code(OUT / "host/libpageshare-window.so", f"{self.libdir}/libpageshare-window.so", 0o644)
        for name, (path, mode) in HOST_FILES.items():
            self.put_named(TOP / "packaging/host" / name, path, mode)

    def texts(self, parts: Sequence[str]) -> None:
        """Man pages and completions of these parts."""
        share, scripts = self.folder / "share", TOP / "packaging"
        programs = {"program": ("pageshare", OUT / "pageshare"), "host": ("pageshare-host", HOST)}
        words = [str(word) for part in parts for word in (f"--{part}", programs[part][1])]
        subprocess.run([scripts / "man.py", share / "man", *words], check=True)
        for name, program in (programs[part] for part in parts):
            subprocess.run([scripts / "completions.py", name, program, share], check=True)
        if self.zsh != "share/zsh/site-functions":
            shutil.move(share / "zsh/site-functions", self.folder / self.zsh)

    def documents(self, at: str) -> None:
        """What the program and its library are documented by, and the Rust crate."""
        for name in ("README.md", "CHANGELOG.md", "LICENSE-MIT", "LICENSE-APACHE"):
            self.put(TOP / name, f"{at}/{name}")
        for file in sorted((TOP / "docs").iterdir()):
            self.put(file, f"{at}/docs/{file.name}")
        for file in files_below(TOP / "examples", "__pycache__"):
            if file.parent.name != "host":
                self.put(file, f"{at}/examples/{file.relative_to(TOP / 'examples')}", file.stat().st_mode & 0o755)
        rust = TOP / "lib/rust"
        for file in files_below(rust, "target"):
            self.put(file, f"share/pageshare/rust/{file.relative_to(rust)}")

    def host_documents(self, at: str) -> None:
        """What the host is documented by, with what that leads to, and examples of its settings."""
        for file in sorted((TOP / "docs").iterdir()):
            self.put(file, f"{at}/docs/{file.name}")
        for file in files_below(TOP / "examples/host", "__pycache__"):
            self.put_named(file, f"{at}/examples/host/{file.name}")

    def cut_links(self, at: str) -> None:
        """In documents a link to what isn't installed becomes its words."""
        for file in (self.folder / at).rglob("*.md"):
            text = file.read_text()
            file.write_text(LINK.sub(lambda found: found[0] if leads(file, found[2]) else found[1], text))


def leads(document: pathlib.Path, target: str) -> bool:
    """Whether a link of a document leads somewhere: to another computer, within it, or to a file that is there."""
    return target.startswith(("#", "http:", "https:", "mailto:")) or (document.parent / target.partition("#")[0]).exists()


def stage(
    folder: pathlib.Path, libdir: str = "lib", prefix: str | None = None, zsh: str = "share/zsh/site-functions",
    parts: Sequence[str] = PARTS, document: str = "pageshare",
) -> None:
    """Fills a folder, which is emptied before, with these parts. Their documents lie below share/doc/DOCUMENT."""
    shutil.rmtree(folder, ignore_errors=True)
    folder.mkdir(parents=True)
    made, at = Stage(folder, libdir, prefix, zsh), f"share/doc/{document}"
    if "program" in parts:
        made.program()
        made.library()
        made.documents(at)
    if "host" in parts:
        made.host()
        made.host_documents(at)
    made.cut_links(at)
    made.texts(parts)


def main() -> None:
    options = argparse.ArgumentParser(description=__doc__.splitlines()[0])
    options.add_argument("folder", type=pathlib.Path)
    options.add_argument("--libdir", default="lib")
    options.add_argument("--prefix", default=None)
    options.add_argument("--zsh", default="share/zsh/site-functions")
    options.add_argument("--part", choices=PARTS, default=None)
    given = options.parse_args()
    stage(given.folder, given.libdir, given.prefix, given.zsh, (given.part,) if given.part else PARTS)


if __name__ == "__main__":
    main()
