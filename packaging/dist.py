#!/usr/bin/env python3
"""Makes the packages: a tarball and two Debian packages, with their sums.

    packaging/dist.py [FOLDER]

FOLDER is by default out/dist. It gets pageshare-VERSION-x86_64-linux.tar.gz, whose program runs where it is unpacked and whose
install.sh installs it; pageshare_VERSION_amd64.deb with the program and its library and pageshare-host_VERSION_amd64.deb with the
host, where there is dpkg-deb; and SHA256SUMS. What `packaging/stage.py` needs has to be in out/. The same tree gives the same bytes:
files are in order, belong to root, and have the last commit's time (or SOURCE_DATE_EPOCH).
"""
from __future__ import annotations

import argparse
import email.utils
import gzip
import hashlib
import os
import pathlib
import re
import shutil
import subprocess
import tarfile
import tempfile
from collections.abc import Iterator

import stage

TOP = stage.TOP
NAME = f"pageshare-{stage.VERSION}-x86_64-linux"
MULTIARCH = "x86_64-linux-gnu"
# In which package of Debian a needed library is.
LIBC = ("libc.so.6", "libm.so.6", "libpthread.so.0", "libdl.so.2", "librt.so.1", "ld-linux-x86-64.so.2")
PACKAGES = {**dict.fromkeys(LIBC, "libc6"), "libgcc_s.so.1": "libgcc-s1"}
MAINTAINER = "The pageshare authors <maintainers@pageshare.invalid>"
# The Debian package of each part: its name, and the fields of its control file that aren't common to both.
DEBIAN = {
    "program": ("pageshare", """\
Depends: {depends}
Suggests: pageshare-host
Description: content-based page sharing for virtual machines
 Finds out how much memory virtual machines would save by sharing equal
 pages, and has a library that shares them, for monitors in C and Rust.
"""),
    "host": ("pageshare-host", """\
Depends: {depends}, systemd
Recommends: udev
Suggests: pageshare, qemu-system-x86, libvirt-daemon-system, prometheus-node-exporter
Breaks: pageshare (<< {version})
Replaces: pageshare (<< {version})
Description: QEMU processes share equal pages of their guests' memory
 A host that monitors of virtual machines connect to, the library that is
 preloaded into them, units of systemd, and what udev, AppArmor and libvirt
 need to know of both. The monitors are not modified and need no privilege.
"""),
}
# Of the files in packaging/debian: what dpkg runs.
SCRIPTS = (".preinst", ".postinst", ".prerm", ".postrm")
CONTROL = """\
Package: {name}
Version: {version}
Architecture: amd64
Maintainer: {maintainer}
Installed-Size: {size}
Section: admin
Priority: optional
"""
CHANGELOG = """\
{name} ({version}) unstable; urgency=medium

  * Changes of this version: {changes}.

 -- {maintainer}  {date}
"""
COPYRIGHT = """\
Format: https://www.debian.org/doc/packaging-manuals/copyright-format/1.0/
Upstream-Name: pageshare

Files: *
Copyright: {owner}
License: Expat or Apache-2.0

License: Expat
{expat}

License: Apache-2.0
 On Debian systems the text of the Apache License, version 2.0, is in
 /usr/share/common-licenses/Apache-2.0.
"""


def rooted(entry: tarfile.TarInfo) -> tarfile.TarInfo:
    """A tarball's entry, as of root and of the commit's time."""
    entry.uid = entry.gid = 0
    entry.uname = entry.gname = "root"
    entry.mtime = stage.commit_time()
    if not entry.issym():
        entry.mode = 0o755 if entry.isdir() or entry.mode & 0o100 else 0o644
    return entry


def make_tarball(folder: pathlib.Path) -> pathlib.Path:
    """The tarball; returns its path."""
    file = folder / f"{NAME}.tar.gz"
    with tempfile.TemporaryDirectory(prefix="dist-") as room:
        tree = pathlib.Path(room) / NAME
        stage.stage(tree)
        for source in ("packaging/install.sh", "LICENSE-MIT", "LICENSE-APACHE", "docs/INSTALL.md"):
            shutil.copy(TOP / source, tree)
        with open(file, "wb") as raw, gzip.GzipFile("", "wb", 9, raw, mtime=0) as packed, tarfile.TarFile(fileobj=packed, mode="w") as tar:
            tar.add(tree, NAME, recursive=False, filter=rooted)
            for path in sorted(tree.rglob("*")):
                tar.add(path, f"{NAME}/{path.relative_to(tree)}", recursive=False, filter=rooted)
    return file


def elf_files(tree: pathlib.Path) -> Iterator[pathlib.Path]:
    """The programs and libraries below a folder."""
    folders = [tree / "bin", tree / "lib", tree / "libexec"]
    for path in sorted(it for folder in folders for it in folder.rglob("*") if it.is_file() and not it.is_symlink()):
        with open(path, "rb") as file:
            if file.read(4) == b"\x7fELF":
                yield path


def depends(tree: pathlib.Path) -> str:
    """The packages that have what the programs and libraries need: the oldest version of the C library that does, and others."""
    versions: set[tuple[int, ...]] = {(2, 17)}
    packages = set()
    for path in elf_files(tree):
        shown = subprocess.run(["objdump", "-p", "-T", path], capture_output=True, text=True, check=True).stdout
        versions |= {tuple(map(int, it.split("."))) for it in re.findall(r"GLIBC_(\d+\.\d+)", shown)}
        packages |= {PACKAGES[it] for it in re.findall(r"NEEDED +(\S+)", shown)}
    libc = f"libc6 (>= {'.'.join(map(str, max(versions)))})"
    return ", ".join([libc, *sorted(packages - {"libc6"})])


def pack(file: pathlib.Path, text: bytes) -> None:
    """Writes what a Debian package has compressed."""
    file.parent.mkdir(parents=True, exist_ok=True)
    file.write_bytes(gzip.compress(text, 9, mtime=0))


def pack_manuals(folder: pathlib.Path) -> None:
    """Compresses the man pages, and lets their other names lead to the compressed ones."""
    for page in sorted(folder.rglob("*.[0-9]")):
        packed = page.with_name(page.name + ".gz")
        if page.is_symlink():
            packed.symlink_to(f"{page.readlink()}.gz")
        else:
            pack(packed, page.read_bytes())
        page.unlink()


def write_notes(documents: pathlib.Path, name: str) -> None:
    """The changelog and the licences, as Debian has them."""
    date = email.utils.formatdate(stage.commit_time())
    changes = "see CHANGELOG.md beside this file" if name == "pageshare" else "see CHANGELOG.md of the package pageshare"
    words = {"name": name, "version": stage.VERSION, "maintainer": MAINTAINER, "date": date, "changes": changes}
    pack(documents / "changelog.gz", CHANGELOG.format(**words).encode())
    licence = (TOP / "LICENSE-MIT").read_text().strip()
    (owner,) = re.findall(r"^Copyright \(c\) (.*)$", licence, re.M)
    expat = "\n".join(f" {it.strip() or '.'}" for it in licence.split("\n"))
    (documents / "copyright").write_text(COPYRIGHT.format(owner=owner, expat=expat))


def write_control(room: pathlib.Path, part: str) -> None:
    """The package's own files: what it is called and needs, its sums, and the scripts that dpkg runs."""
    (name, more), control = DEBIAN[part], room / "DEBIAN"
    control.mkdir()
    files = sorted(it for it in room.rglob("*") if it.is_file() and not it.is_symlink())
    size = sum(-(-it.stat().st_size // 1024) for it in files)
    words = {"name": name, "version": stage.VERSION, "maintainer": MAINTAINER, "size": size, "depends": depends(room / "usr")}
    (control / "control").write_text((CONTROL + more).format(**words))
    sums = "".join(f"{hashlib.md5(it.read_bytes()).hexdigest()}  {it.relative_to(room)}\n" for it in files)
    (control / "md5sums").write_text(sums)
    (control / "triggers").write_text("activate-noawait ldconfig\n")
    for file in sorted((TOP / "packaging/debian").glob(f"{name}.*")):
        shutil.copyfile(file, control / file.suffix[1:])
        (control / file.suffix[1:]).chmod(0o755 if file.suffix in SCRIPTS else 0o644)


def fill_debian(room: pathlib.Path, part: str) -> None:
    """The files of the Debian package of a part."""
    name, tree = DEBIAN[part][0], room / "usr"
    stage.stage(tree, f"lib/{MULTIARCH}", "/usr", "share/zsh/vendor-completions", (part,), name)
    documents = tree / "share/doc" / name
    for licence in documents.glob("LICENSE-*"):
        licence.unlink()
    pack_manuals(tree / "share/man")
    write_notes(documents, name)
    if part == "host":
        (room / "etc/pageshare").mkdir(parents=True)
        profile = room / "etc/apparmor.d/abstractions/libvirt-qemu.d/pageshare"
        profile.parent.mkdir(parents=True)
        shutil.move(tree / "share/pageshare/libvirt-qemu.apparmor", profile)
        (tree / "share/pageshare").rmdir()


def make_debian(folder: pathlib.Path, part: str) -> pathlib.Path:
    """The Debian package of a part; returns its path."""
    file = folder / f"{DEBIAN[part][0]}_{stage.VERSION}_amd64.deb"
    with tempfile.TemporaryDirectory(prefix="dist-") as name:
        room = pathlib.Path(name) / "root"
        room.mkdir()
        fill_debian(room, part)
        write_control(room, part)
        seconds = stage.commit_time()
        for path in [room, *room.rglob("*")]:
            if not path.is_symlink():
                path.chmod(0o755 if path.is_dir() or path.stat().st_mode & 0o100 else 0o644)
            os.utime(path, (seconds, seconds), follow_symlinks=False)
        words = ["dpkg-deb", "--root-owner-group", "-Zxz", "--build", str(room), str(file)]
        subprocess.run(words, env={**os.environ, "SOURCE_DATE_EPOCH": str(seconds)}, stdout=subprocess.DEVNULL, check=True)
    return file


def main() -> None:
    options = argparse.ArgumentParser(description=__doc__.splitlines()[0])
    options.add_argument("folder", metavar="FOLDER", nargs="?", type=pathlib.Path, default=TOP / "out/dist")
    folder = options.parse_args().folder
    shutil.rmtree(folder, ignore_errors=True)
    folder.mkdir(parents=True)
    made = [make_tarball(folder)]
    if shutil.which("dpkg-deb"):
        made += [make_debian(folder, part) for part in stage.PARTS]
    else:
        print("left out: the Debian packages, since there is no dpkg-deb")
    sums = [f"{hashlib.sha256(it.read_bytes()).hexdigest()}  {it.name}\n" for it in made]
    (folder / "SHA256SUMS").write_text("".join(sums))
    print("".join(sums), end="")


if __name__ == "__main__":
    main()
