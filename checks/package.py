#!/usr/bin/env python3
"""Looks whether the packages that `make dist` made install, run and go away again.

    checks/package.py [FOLDER]
    checks/package.py --installed
    checks/package.py --host

FOLDER is by default out/dist; nothing is built here but programs that use the library. The tarball is unpacked in a new folder, and
its program run with nothing of this repository or the kit on PATH: at both levels, on images whose estimate is known. It is installed
below a prefix, where C and Rust programs are linked by pkg-config, shared and static; man pages and completions are read by the
programs that show them; the library of x86-64-v3 is run on an emulated processor without AVX2, where it has to refuse; and what is
uninstalled leaves no file. The host's files are read by those who use them: systemd verifies and rates the units and makes the host's
user and folder, udev, AppArmor and Prometheus read their rules, a host is started and its numbers are checked, shellcheck reads the
scripts, and the emulator for libvirt starts a QEMU whatever is missing. A second `packaging/dist.py` of the same tree has to make the
same bytes. lintian finds no error in the Debian packages. Then they are installed, upgraded, run, removed and purged in an empty Debian
that debootstrap makes, which needs root and the network.

With --installed, `make install` puts everything below a prefix in a new folder, where the same is tried, and `make uninstall` has to
leave nothing. With --host the host alone, from what `make host` left in out/host, is installed below a prefix and tried. Both make the
Debian packages for lintian, and neither needs the network.

What this computer has no program for is left out, and named. Prints each case that went wrong, and last `N passed, M failed` (status 0
where all passed, else 1).
"""
from __future__ import annotations

import argparse
import functools
import hashlib
import json
import os
import pathlib
import re
import shutil
import subprocess
import sys
import time
from collections.abc import Callable, Iterable, Mapping, Sequence

import harness
from harness import OUT, TOP, LeftOut, StrPath, Tally, needs, new_folder

sys.path.append(str(TOP / "packaging"))

import dist  # noqa: E402
import stage  # noqa: E402

ROWS = TOP / "checks/rows"
ESTIMATE = ["estimate", "--json", "--salts", "0,0,5", "first.raw", "second.core", "first.raw"]
# What checks/rows/images.estimate has of these images.
TOTAL = {"pages": 17, "zero": 6, "shared": 14, "frames": 9, "reclaimed": 8}
PLAIN = {"PATH": "/usr/bin:/bin", "HOME": "/nonexistent", "LC_ALL": "C.UTF-8"}
HAS_V3 = "avx2" in pathlib.Path("/proc/cpuinfo").read_text().split()
SUITE = "bookworm"
VERSION = r"pageshare [\d.]+, .*\ncommit .+\nproved and compiled by .+\n"
MAN_READERS = {"mandoc": ["mandoc", "-Tlint"], "man": ["man", "--warnings", "-l"]}
COMPLETIONS = {
    "bash": "bash-completion/completions/{}", "zsh": "zsh/site-functions/_{}", "fish": "fish/vendor_completions.d/{}.fish",
}
UNITS = ("pageshare-host@.service", "pageshare-host-metrics.service", "pageshare-host-metrics.timer")
# systemd rates what a unit may do from 0 to 10.
EXPOSURE_MOST = 1.5
# What systemd-sysusers leaves of the files of users that it changed.
BACKUPS = {"etc/passwd-", "etc/group-", "etc/shadow-", "etc/gshadow-", "etc/.pwd.lock"}
# How a program ended: its status, its output and its errors; and what runs a program in another system.
Said = tuple[int, str, str]
Inside = Callable[..., Said]
PROGRAM = """\
#include <pageshare.h>
#include <stdio.h>
int main(void) {
    struct pageshare machine = PAGESHARE_NONE;
    const uint32_t pages[] = {2}, salts[] = {0};
    const struct pageshare_config config = {.frames = 2, .pages = pages, .salts = salts, .guests = 1};
    const uint8_t page[PAGESHARE_PAGE_BYTES] = {'A'};
    uint32_t status = pageshare_make(&machine, &config);
    if (status == PAGESHARE_OK) {
        pageshare_lend(&machine, 0, 0, page);
        puts(pageshare_verdict_text(pageshare_lend(&machine, 0, 1, page).verdict));
    }
    uint32_t freed = pageshare_free(&machine);
    printf("%s level %u status %u free %u\\n", pageshare_version(), (unsigned)pageshare_level(), (unsigned)status, (unsigned)freed);
    return 0;
}
"""
CRATE = """\
[package]
name = "user"
version = "0.1.0"
edition = "2021"

[dependencies]
pageshare = { path = "RUST" }
"""
# A profile of AppArmor with what the package adds to those of libvirt's guests.
PROFILE = """\
abi <abi/3.0>,
include <tunables/global>
profile pageshare-guest flags=(attach_disconnected) {{
  include <abstractions/base>
  include "{}"
}}
"""
MAIN = """\
fn main() {
    let guests = [pageshare::Guest { pages: 2, salt: 0 }];
    let mut machine = pageshare::Machine::new(2, &guests).expect("a machine");
    let page = [1; pageshare::PAGE_BYTES];
    let _first = machine.lend(0, 0, &page).expect("lent");
    println!("{}", machine.lend(0, 1, &page).expect("lent"));
}
"""


def run(*words: StrPath, env: Mapping[str, str] = PLAIN, folder: StrPath | None = None) -> Said:
    """The status, the output and the errors of a program, which may take long. One that can't be started has status 126, as in a shell."""
    try:
        done = harness.run(words, seconds=3600, env=env, cwd=folder)
    except OSError as cause:
        return 126, "", str(cause)
    return done.returncode, done.stdout.decode("utf-8", "replace"), done.stderr.decode("utf-8", "replace")


def has(name: str) -> bool:
    """Whether this computer has a program."""
    return shutil.which(name) is not None


def is_estimate(said: Said) -> bool:
    """Whether a run of ESTIMATE printed these totals, and ended well."""
    code, out, err = said
    return code == 0 and not err and TOTAL.items() <= json.loads(out or "{}").get("total", {}).items()


def try_program(tally: Tally, program: pathlib.Path) -> None:
    """The program at each level that this processor has, and at a level that there isn't."""
    for level in ["", "v2", *(["v3"] if HAS_V3 else [])]:
        env = {**PLAIN, "PAGESHARE_LEVEL": level}
        said = run(program, *ESTIMATE, env=env, folder=ROWS)
        tally.holds(f"estimate at level {level or 'chosen'}", is_estimate(said), said)
        shown = run(program, "--version", env=env)
        built = f"built for x86-64-{level or ('v3' if HAS_V3 else 'v2')}\n"
        is_version = shown[0] == 0 and built in shown[1] and re.fullmatch(VERSION, shown[1])
        tally.holds(f"--version at level {level or 'chosen'}", is_version, shown)
    tally.equal("a level that there isn't", run(program, "--version", env={**PLAIN, "PAGESHARE_LEVEL": "v9"})[0], 2)
    tally.equal("a wrong command line", run(program, "no-such-command")[0], 2)
    tally.part(try_older, program)


def try_older(tally: Tally, program: pathlib.Path) -> None:
    """The build for x86-64-v3 on an emulated processor without AVX2."""
    needs("older processors", "qemu-x86_64")
    old = run("qemu-x86_64", "-cpu", "Nehalem", program, "--version", env={**PLAIN, "PAGESHARE_LEVEL": "v3"})
    tally.holds("v3 on an older processor", old[0] == 127 and "older than x86-64-v3" in old[2], old)


def flags_of(prefix: pathlib.Path, *words: str) -> list[str]:
    """What pkg-config says of the library."""
    env = {**PLAIN, "PKG_CONFIG_PATH": f"{prefix}/lib/pkgconfig"}
    return run("pkg-config", *words, "pageshare", env=env)[1].split()


def is_paired(said: Said, level: int) -> bool:
    """Whether a program in C printed what it should over the library of this level."""
    return said[1].startswith("paired\n") and said[1].endswith(f"level {level} status 0 free 0\n")


def try_c(tally: Tally, prefix: pathlib.Path, room: pathlib.Path) -> None:
    """Programs in C over the shared and the static libraries."""
    needs("C", "cc", "pkg-config")
    source, library = room / "user.c", prefix / "lib"
    source.write_text(PROGRAM)
    strict = ["cc", "-std=c11", "-Wall", "-Wextra", "-Wpedantic", "-Werror", str(source)]
    shared = run(*strict, *flags_of(prefix, "--cflags", "--libs"), "-o", room / "shared")
    tally.holds("C, shared: compiled", shared[0] == 0, shared)
    said = run(room / "shared", env={**PLAIN, "LD_LIBRARY_PATH": str(library)})
    tally.holds("C, shared: the loader chooses", is_paired(said, 3 if HAS_V3 else 2), said)
    for level, file in [(2, library / "libpageshare.a"), (3, library / "pageshare/x86-64-v3/libpageshare.a")]:
        program = room / f"static-v{level}"
        made = run(*strict, *flags_of(prefix, "--cflags"), file, "-o", program)
        tally.holds(f"C, static for v{level}: compiled", made[0] == 0, made)
        if level == 2 or HAS_V3:
            said = run(program)
            tally.holds(f"C, static for v{level}", is_paired(said, level), said)
    if has("qemu-x86_64"):
        said = run("qemu-x86_64", "-cpu", "Nehalem", room / "static-v3")
        is_refused = said[0] == 0 and said[1].endswith("level 3 status 25 free 6\n")
        tally.holds("the library for v3 refuses an older processor", is_refused, said)


def try_rust(tally: Tally, prefix: pathlib.Path, room: pathlib.Path) -> None:
    """A program in Rust, which finds the library in each of both ways."""
    needs("Rust", "cargo")
    (room / "user/src").mkdir(parents=True)
    (room / "user/Cargo.toml").write_text(CRATE.replace("RUST", f"{prefix}/share/pageshare/rust"))
    (room / "user/src/main.rs").write_text(MAIN)
    library = str(prefix / "lib")
    named = {"PAGESHARE_LIB_DIR": library}
    packaged = {"PKG_CONFIG_PATH": f"{library}/pkgconfig", "LD_LIBRARY_PATH": library}
    for how, more in [("PAGESHARE_LIB_DIR", named), ("pkg-config", packaged)]:
        env = {key: value for key, value in os.environ.items() if not key.startswith("PAGESHARE")}
        env |= {**more, "CARGO_NET_OFFLINE": "true", "CARGO_TARGET_DIR": str(room / f"target-{how}")}
        said = run("cargo", "run", "--quiet", env=env, folder=room / "user")
        tally.holds(f"Rust by {how}", said[:2] == (0, "paired\n"), said)


def try_exports(tally: Tally, prefix: pathlib.Path) -> None:
    """The names that the shared libraries export."""
    needs("exports", "nm")
    for file in sorted((prefix / "lib").rglob("libpageshare.so.*.*")):
        names = run("nm", "-D", "--defined-only", file)[1].split("\n")
        names = [line.split()[-1] for line in names if line]
        is_right = names and all(it.startswith("pageshare_") for it in names)
        tally.holds(f"{file.name} exports pageshare_* alone", is_right, names)


def try_pages(tally: Tally, prefix: pathlib.Path, wanted: Iterable[str]) -> None:
    """The man pages that there should be."""
    pages = sorted(it for it in (prefix / "share/man").rglob("*.[0-9]") if not it.is_symlink())
    names = [it.name for it in pages]
    for name in wanted:
        tally.holds(f"there is {name}", name in names, names)
    for reader in MAN_READERS:
        tally.part(try_reader, reader, pages)


def try_links(tally: Tally, prefix: pathlib.Path) -> None:
    """Each link of an installed document leads to a file that is there."""
    documents = sorted((prefix / "share/doc").rglob("*.md"))
    dead = [f"{it.name}: {target}" for it in documents for _, target in stage.LINK.findall(it.read_text()) if not stage.leads(it, target)]
    tally.holds("there is HOST.md", any(it.name == "HOST.md" for it in documents), documents)
    tally.equal("links that lead nowhere", dead, [])


def try_host_page(tally: Tally, prefix: pathlib.Path) -> None:
    """The host's page is one for who has installed it."""
    text = (prefix / "share/man/man8/pageshare-host.8").read_text()
    tally.equal("sections of options", len(re.findall(r'(?m)^\.SH "?OPTIONS', text)), 1)
    tally.equal("words of the source", re.findall(r"make \w+|out/host", text.replace("\\-", "-")), [])


def try_reader(tally: Tally, reader: str, pages: Sequence[pathlib.Path]) -> None:
    """Each man page as a program reads it, without a warning."""
    needs(f"man pages by {reader}", reader)
    for page in pages:
        code, out, err = run(*MAN_READERS[reader], page)
        said = out if reader == "mandoc" else err
        tally.holds(f"{page.name} by {reader}", code == 0 and not said, said)


def try_shell(tally: Tally, shell: str, file: pathlib.Path) -> None:
    """A shell reads its completions."""
    needs(f"the completion for {shell}", shell)
    tally.equal(f"the completion for {shell}", run(shell, "-n", file), (0, "", ""))


def try_completions(tally: Tally, prefix: pathlib.Path, name: str, words: str, wanted: str) -> None:
    """The completions of a program for each shell, and what bash completes behind these words."""
    for shell, path in COMPLETIONS.items():
        tally.part(try_shell, shell, prefix / "share" / path.format(name))
    function = "_" + name.replace("-", "_")
    script = f""". "$1"; COMP_WORDS=({words}); COMP_CWORD=$((${{#COMP_WORDS[@]}} - 1)); {function}; echo "${{COMPREPLY[*]}}" """
    said = run("bash", "-c", script, "bash", prefix / "share" / COMPLETIONS["bash"].format(name))
    tally.equal(f"bash completes {words}", said[1], wanted)


def try_rules(tally: Tally, folder: pathlib.Path) -> None:
    """What Prometheus says of the host's rules."""
    needs("the rules for Prometheus", "promtool")
    said = run("promtool", "check", "rules", folder / "pageshare.rules.yml")
    tally.holds("the rules for Prometheus", said[0] == 0, said)


def try_dashboard(tally: Tally, folder: pathlib.Path, names: set[str]) -> None:
    """Each number that Grafana's dashboard and the rules ask for is one of those that a host prints."""
    dashboard, rules = json.loads((folder / "grafana.json").read_text()), (folder / "pageshare.rules.yml").read_text()
    panels, variables = dashboard["panels"], dashboard["templating"]["list"]
    tally.holds("the dashboard has panels with a title and a query", panels and all(it["title"] and it["targets"] for it in panels), panels)
    asked = [target["expr"] for it in panels for target in it["targets"]] + [str(it["query"]) for it in variables]
    asked += re.findall(r"(?m)^ +expr: (.*)$", rules)
    used = set(re.findall(r"\bpageshare_\w+", " ".join(asked)))
    tally.holds("the dashboard and the rules ask for numbers", used, asked)
    tally.equal("numbers of the dashboard and the rules that no host prints", sorted(used - names), [])


def try_unit(tally: Tally, folder: pathlib.Path, name: str) -> None:
    """What systemd says of a unit: it can be loaded, and what it may do."""
    needs("the units of systemd", "systemd-analyze")
    said = run("systemd-analyze", "verify", "--man=no", folder / name)
    tally.equal(f"systemd-analyze verify {name}", (said[0], [it for it in said[2].splitlines() if name in it]), (0, []))
    if name.endswith(".timer"):
        return
    code, out, err = run("systemd-analyze", "security", "--offline=true", folder / name)
    if "--offline" in err:
        raise LeftOut("the rating of units, since this systemd-analyze needs a running one")
    level = re.search(r"exposure level for \S+: ([\d.]+)", out)
    tally.holds(f"the exposure of {name} is at most {EXPOSURE_MOST}", code == 0 and level and float(level[1]) <= EXPOSURE_MOST, out[-200:] + err)


def try_udev(tally: Tally, prefix: pathlib.Path) -> None:
    """What udev says of the rule. (Its group need not be here.)"""
    needs("the rule for udev", "udevadm")
    code, out, err = run("udevadm", "verify", "--resolve-names=never", prefix / "lib/udev/rules.d/60-pageshare-host.rules")
    if "Unknown command" in err:
        raise LeftOut("the rule for udev, since this udevadm has no verify")
    tally.holds("udevadm verify", code == 0, out + err)


def try_users(tally: Tally, prefix: pathlib.Path, room: pathlib.Path) -> None:
    """The users and groups that the host needs, and its folder, made below an empty folder."""
    needs("the host's user", "systemd-sysusers", "systemd-tmpfiles")
    root = room / "users"
    (root / "etc").mkdir(parents=True)
    said = run("systemd-sysusers", f"--root={root}", prefix / "lib/sysusers.d/pageshare-host.conf")
    if said[0] != 0 and os.geteuid() != 0:
        raise LeftOut("the host's user, since making one takes root")
    made = (root / "etc/passwd").read_text() + (root / "etc/group").read_text() if said[0] == 0 else ""
    tally.equal("systemd-sysusers makes the user and the groups", re.findall(r"(?m)^(pageshare-host|kvm):", made).count("pageshare-host"), 2)
    said = run("systemd-tmpfiles", f"--root={root}", "--create", prefix / "lib/tmpfiles.d/pageshare-host.conf")
    (user,) = re.findall(r"(?m)^pageshare-host:[^:]*:(\d+):(\d+):.*:", made) or [("", "")]
    folder = root / "run/pageshare"
    found = folder.stat() if folder.is_dir() else None
    is_right = found and (str(found.st_uid), str(found.st_gid), found.st_mode & 0o7777) == (*user, 0o755)
    tally.holds("systemd-tmpfiles makes the folder of the sockets", said == (0, "", "") and is_right, (said, user, found))


def try_profile(tally: Tally, prefix: pathlib.Path, room: pathlib.Path) -> None:
    """What AppArmor's parser says of what guests of libvirt may do besides. (No kernel has to enforce it.)"""
    needs("the abstraction for AppArmor", "apparmor_parser")
    profile = room / "profile"
    profile.write_text(PROFILE.format(prefix / "share/pageshare/libvirt-qemu.apparmor"))
    said = run(shutil.which("apparmor_parser") or "", "--skip-kernel-load", "--skip-cache", profile)
    tally.holds("apparmor_parser reads the abstraction", said[0] == 0, said)


def try_scripts(tally: Tally, prefix: pathlib.Path) -> None:
    """What shellcheck says of the scripts that are installed, or that dpkg runs."""
    scripts = [prefix / "bin/pageshare-qemu", prefix / "libexec/pageshare/write-metrics", TOP / "packaging/install.sh"]
    scripts += [it for end in ("preinst", "postinst", "prerm", "postrm") for it in (TOP / "packaging/debian").glob(f"*.{end}")]
    tally.equal("sh reads each script", [it for it in scripts if run("sh", "-n", it)[0] != 0], [])
    needs("scripts by shellcheck", "shellcheck")
    tally.equal("shellcheck of each script", run("shellcheck", *scripts), (0, "", ""))


def try_names(tally: Tally, prefix: pathlib.Path) -> None:
    """No text that is installed has a word that should have been replaced, and each names this prefix alone."""
    folders = [prefix / "lib", prefix / "bin", prefix / "libexec", prefix / "share/pageshare"]
    texts = [it for folder in folders for it in folder.rglob("*") if it.is_file() and b"\x7fELF" not in it.read_bytes()[:4]]
    left = [str(it) for it in texts if re.search(rb"@[A-Z]+@", it.read_bytes())]
    tally.equal("texts with a word that is to be replaced", left, [])
    for name in UNITS[:2]:
        text = (prefix / "lib/systemd/system" / name).read_text()
        (program,) = re.findall(r"(?m)^ExecStart=(\S+)", text)
        tally.holds(f"{name} starts what is installed", program.startswith(f"{prefix}/") and os.access(program, os.X_OK), program)


def try_soname(tally: Tally, library: pathlib.Path) -> None:
    """The library that monitors preload has its own name."""
    needs("the name of libpageshare-window.so", "objdump")
    said = run("objdump", "-p", library)
    tally.holds("libpageshare-window.so has its soname", "SONAME               libpageshare-window.so\n" in said[1], said)


def numbers_of(prefix: pathlib.Path, room: pathlib.Path) -> str:
    """What a started host prints for Prometheus."""
    host, socket = prefix / "bin/pageshare-host", room / "web.sock"
    with subprocess.Popen([host, "--domain", f"web={socket}", "--memory", "16M"], stderr=subprocess.DEVNULL) as ran:
        said, late = (1, "", ""), time.monotonic() + 20
        while said[0] != 0 and time.monotonic() < late:
            time.sleep(0.1)
            said = run(host, "--status", socket, "--prometheus")
        ran.terminate()
    return said[1]


def try_metrics(tally: Tally, numbers: str) -> None:
    """A host's numbers as Prometheus reads them."""
    tally.holds("a started host prints its numbers", 'pageshare_uptime_seconds{domain="web"}' in numbers, numbers)
    needs("the numbers for Prometheus", "promtool")
    checked = harness.run(["promtool", "check", "metrics"], numbers)
    tally.equal("promtool check metrics", (checked.returncode, checked.stdout, checked.stderr), (0, b"", b""))


def try_emulator(tally: Tally, prefix: pathlib.Path) -> None:
    """The emulator for libvirt starts a QEMU whatever is missing, and says what that is."""
    emulator, settings = prefix / "bin/pageshare-qemu", pathlib.Path("/etc/pageshare/guests.conf")
    needs("the emulator for libvirt", "qemu-system-x86_64")
    said = run(emulator, "--version")
    tally.holds("without a guest it is QEMU", said[0] == 0 and "QEMU" in said[1] and not said[2], said)
    if not settings.exists():
        said = run(emulator, "-name", "guest=web1,debug-threads=on", "--version")
        reason = f"pageshare: guest web1 shares no memory: {settings} can't be read\n"
        tally.holds("without settings QEMU starts", said[0] == 0 and "QEMU" in said[1] and said[2] == reason, said)
    said = run(emulator, "-name", "web1", "--version", env={**PLAIN, "PAGESHARE_SOCKET": "/nonexistent/web.sock"})
    tally.holds("without a host QEMU starts", said[0] == 0 and "QEMU" in said[1] and "ld.so" not in said[2], said)


def try_removal(tally: Tally, room: pathlib.Path) -> None:
    """A removal names guests and saved images that have the emulator, and leaves one that shares nothing until the purge."""
    root, word = room / "removed", "<emulator>/usr/bin/pageshare-qemu</emulator>"
    files = {"etc/libvirt/qemu/web1.xml": word, "etc/libvirt/qemu/db.xml": "<emulator>/usr/bin/qemu-system-x86_64</emulator>"}
    files |= {"var/lib/libvirt/qemu/save/web2.save": f"LibvirtQemudSave\0\1{word}\0", "etc/pageshare/web.conf": "memory 1G\n", "usr/bin/other": ""}
    for name, text in files.items():
        (root / name).parent.mkdir(parents=True, exist_ok=True)
        (root / name).write_text(text)
    script, env = TOP / "packaging/debian/pageshare-host", {**PLAIN, "DPKG_ROOT": str(root)}
    said = run("sh", f"{script}.prerm", "remove", env=env)
    named = "guest web1: virsh edit web1" in said[2] and "image of web2: virsh start web2" in said[2] and " db" not in said[2]
    tally.holds("a removal names guests and images", said[0] == 0 and named, said)
    tally.equal("an upgrade says nothing", run("sh", f"{script}.prerm", "upgrade", "1", env=env), (0, "", ""))
    tally.equal("a removal", run("sh", f"{script}.postrm", "remove", env=env), (0, "", ""))
    emulator = root / "usr/bin/pageshare-qemu"
    is_left = os.access(emulator, os.X_OK) and (root / "etc/pageshare/web.conf").exists()
    if tally.holds("a removal leaves an emulator", is_left, said) and has("qemu-system-x86_64"):
        said = run(emulator, "-name", "guest=web1", "--version")
        tally.holds("it is QEMU", said[0] == 0 and "QEMU" in said[1] and not said[2], said)
    tally.equal("a purge", run("sh", f"{script}.postrm", "purge", env=env), (0, "", ""))
    left = sorted(str(it.relative_to(root)) for it in root.rglob("*") if it.is_file())
    tally.equal("a purge leaves the others' files alone", left, sorted(set(files) - {"etc/pageshare/web.conf"}))


def try_host(tally: Tally, prefix: pathlib.Path, room: pathlib.Path) -> None:
    """What is installed of the host, as its users read it."""
    tally.part(try_soname, prefix / "lib/libpageshare-window.so")
    try_names(tally, prefix)
    for name in UNITS:
        tally.part(try_unit, prefix / "lib/systemd/system", name)
    tally.part(try_udev, prefix)
    for part in (try_users, try_profile):
        tally.part(part, prefix, room)
    tally.part(try_scripts, prefix)
    numbers, examples = numbers_of(prefix, room), prefix / "share/doc/pageshare/examples/host"
    tally.part(try_metrics, numbers)
    tally.part(try_rules, examples)
    try_dashboard(tally, examples, set(re.findall(r"(?m)^# TYPE (\w+) ", numbers)))
    tally.part(try_emulator, prefix)
    tally.part(try_removal, room)
    try_links(tally, prefix)
    try_host_page(tally, prefix)
    try_completions(tally, prefix, "pageshare-host", "pageshare-host --prom", "--prometheus\n")


def try_prefix(tally: Tally, prefix: pathlib.Path, room: pathlib.Path) -> None:
    """What is installed below a prefix."""
    try_program(tally, prefix / "bin/pageshare")
    tally.part(try_c, prefix, room)
    tally.part(try_rust, prefix, room)
    tally.part(try_exports, prefix)
    pages = ("pageshare.1", "pageshare-estimate.1", "pageshare.3", "pageshare-journal.5", "pageshare-digest.5", "pageshare-host.8")
    try_pages(tally, prefix, pages)
    tally.equal("pageshare_make.3 is pageshare.3", (prefix / "share/man/man3/pageshare_make.3").resolve().name, "pageshare.3")
    try_completions(tally, prefix, "pageshare", "pageshare estimate --sv", "--svg\n")
    try_host(tally, prefix, room)


def try_tarball(tally: Tally, file: pathlib.Path, room: pathlib.Path) -> None:
    """The tarball: unpacked, installed twice, tried, and uninstalled."""
    tally.equal("the tarball unpacks", run("tar", "xf", file, "-C", room)[0], 0)
    tree = next(it for it in room.iterdir() if it.name.startswith("pageshare-"))
    try_program(tally, tree / "bin/pageshare")
    root = room / "installed"
    prefix = root / "opt/pageshare"
    for times in ("once", "twice"):
        said = run(tree / "install.sh", f"--prefix={prefix}")
        tally.holds(f"install.sh, {times}", said[0] == 0, said)
    try_prefix(tally, prefix, room)
    said = run(tree / "install.sh", f"--prefix={prefix}", "--uninstall")
    tally.holds("install.sh --uninstall leaves nothing", said[0] == 0 and not root.exists(), said)


def try_make(tally: Tally, room: pathlib.Path) -> None:
    """`make install` into a new folder, as a packager and as a user call it, what is installed there, and `make uninstall`."""
    for destination, prefix in [("", room / "below/prefix"), (room / "destination", pathlib.Path("/opt/pageshare"))]:
        words = [f"PREFIX={prefix}", f"DESTDIR={destination}"]
        root = pathlib.Path(f"{destination}{prefix}")
        said = run("make", "--no-print-directory", "install", *words, env=dict(os.environ), folder=TOP)
        if not tally.holds(f"make install {' '.join(words)}", said[0] == 0, said):
            continue
        if not destination:
            try_prefix(tally, root, room)
        unit = (root / "lib/systemd/system/pageshare-host@.service").read_text()
        tally.holds("the unit names the prefix alone", f"ExecStart={prefix}/bin/pageshare-host " in unit, unit)
        said = run("make", "--no-print-directory", "uninstall", *words, env=dict(os.environ), folder=TOP)
        tally.holds("make uninstall leaves nothing", said[0] == 0 and not root.parent.exists(), said)
    tally.part(try_policy, room, stage.PARTS)


def try_sums(tally: Tally, folder: pathlib.Path) -> None:
    """The sum of each package."""
    for line in (folder / "SHA256SUMS").read_text().splitlines():
        wanted, name = line.split("  ")
        tally.equal(f"the sum of {name}", hashlib.sha256((folder / name).read_bytes()).hexdigest(), wanted)


def try_again(tally: Tally, folder: pathlib.Path, room: pathlib.Path) -> None:
    """The packages made once more."""
    said = run(sys.executable, TOP / "packaging/dist.py", room / "again", env=dict(os.environ))
    sums = (room / "again/SHA256SUMS").read_text() if said[0] == 0 else ""
    tally.holds("the same tree makes the same bytes", sums == (folder / "SHA256SUMS").read_text(), said)


def files_of(root: pathlib.Path) -> set[str]:
    """What a system has below its folders that isn't of a run: each path."""
    skipped = ("proc", "sys", "dev", "tmp", "run", "var/cache", "var/log", "var/lib/dpkg")
    found = set()
    for path in root.rglob("*"):
        name = str(path.relative_to(root))
        if not name.startswith(skipped):
            found.add(name)
    return found


def unmount_below(root: pathlib.Path) -> None:
    """Unmounts what is mounted below a folder, which otherwise could not be removed."""
    mounted = [line.split()[1] for line in pathlib.Path("/proc/mounts").read_text().splitlines()]
    for place in reversed([it for it in mounted if it.startswith(f"{root}/")]):
        run("umount", place)


def new_debian(root: pathlib.Path) -> Inside:
    """A Debian that has systemd and udev, which the host needs, and nothing else; and what runs a program inside."""
    env = {**PLAIN, "PATH": "/usr/sbin:/usr/bin:/sbin:/bin"}
    made = run("debootstrap", "--variant=minbase", "--include=systemd,udev", SUITE, root, env=env)
    unmount_below(root)  # (debootstrap leaves /proc mounted where systemd is among the packages)
    if made[0] != 0:
        raise LeftOut(f"the Debian packages, since debootstrap failed: {(made[1] + made[2]).strip().splitlines()[-1:]}")
    return lambda *words: run("chroot", root, *words, env=env)


def try_inside(tally: Tally, inside: Inside, root: pathlib.Path, room: pathlib.Path) -> None:
    """What the installed package does."""
    said = inside("sh", "-c", f"cd /tmp && pageshare {' '.join(ESTIMATE)}")
    tally.holds("estimate in an empty Debian", is_estimate(said), said)
    said = inside("pageshare", "--version")
    tally.holds("--version in an empty Debian", said[0] == 0 and len(said[1].splitlines()) == 3, said)
    if (room / "shared").is_file():
        shutil.copy(room / "shared", root / "tmp")
        said = inside("/tmp/shared")
        tally.holds("a C program finds the shared library", said[0] == 0 and said[1].startswith("paired\n"), said)


def try_host_inside(tally: Tally, inside: Inside, root: pathlib.Path) -> None:
    """What the installed host has made, and what an upgrade keeps."""
    said = inside("id", "-nu", "pageshare-host")
    tally.equal("the host's user", said[:2], (0, "pageshare-host\n"))
    tally.equal("--version of the host in an empty Debian", inside("pageshare-host", "--version")[0], 0)
    (root / "etc/pageshare/web.conf").write_text("memory 64M\n")
    said = inside("dpkg", "-i", "/tmp/pageshare-host.deb")
    tally.holds("an upgrade keeps the settings", said[0] == 0 and (root / "etc/pageshare/web.conf").exists(), said)
    said = inside("dpkg", "-r", "pageshare-host")
    tally.holds("a removal keeps the settings", said[0] == 0 and (root / "etc/pageshare/web.conf").exists(), said)
    tally.holds("a removal takes the program", not (root / "usr/bin/pageshare-host").exists(), said)


def try_lintian(tally: Tally, file: pathlib.Path) -> None:
    """What Debian's own check says of a package."""
    needs("lintian", "lintian")
    said = run("lintian", "--allow-root", "--fail-on", "error", file)
    tally.holds(f"lintian finds no error in {file.name}", said[0] == 0, said)


def try_policy(tally: Tally, room: pathlib.Path, parts: Sequence[str]) -> None:
    """What Debian's own check says of the packages of these parts, which are made for that."""
    needs("the Debian packages", "dpkg-deb", "lintian")
    for part in parts:
        try_lintian(tally, dist.make_debian(room, part))


def try_debian(tally: Tally, files: Sequence[pathlib.Path], room: pathlib.Path) -> None:
    """The Debian packages: installed, tried, upgraded and removed in a Debian that has nothing else."""
    if not files or not has("debootstrap") or os.geteuid() != 0:
        raise LeftOut("the Debian packages: they need dpkg-deb, debootstrap and root")
    root = room / "debian"
    inside = new_debian(root)
    before = files_of(root)
    for file in files:
        shutil.copy(file, root / "tmp" / f"{file.name.split('_')[0]}.deb")
    for name in ("first.raw", "second.core"):
        shutil.copy(ROWS / name, root / "tmp")
    said = inside("dpkg", "-i", "/tmp/pageshare.deb", "/tmp/pageshare-host.deb")
    if not tally.holds("dpkg -i", said[0] == 0, said):
        return
    try_inside(tally, inside, root, room)
    try_host_inside(tally, inside, root)
    said = inside("dpkg", "-P", "pageshare", "pageshare-host")
    tally.holds("dpkg -P", said[0] == 0, said)
    tally.equal("dpkg -P leaves nothing", sorted((files_of(root) ^ before) - BACKUPS), [])


def host_alone(tally: Tally, room: pathlib.Path) -> None:
    """The host below a prefix, from what `make host` left."""
    root, staged = room / "installed", room / "stage"
    prefix = root / "opt/pageshare"
    said = run(sys.executable, TOP / "packaging/stage.py", staged, "--part", "host", env=dict(os.environ))
    if not tally.holds("packaging/stage.py --part host", said[0] == 0, said):
        return
    install = functools.partial(run, TOP / "packaging/install.sh", f"--from={staged}", f"--prefix={prefix}")
    tally.equal("install.sh", install()[0], 0)
    try_pages(tally, prefix, ("pageshare-host.8",))
    try_host(tally, prefix, room)
    tally.part(try_policy, room, ("host",))
    said = install("--uninstall")
    tally.holds("install.sh --uninstall leaves nothing", said[0] == 0 and not root.exists(), said)


def try_packages(tally: Tally, folder: pathlib.Path, room: pathlib.Path) -> None:
    """What `make dist` left in this folder."""
    debian = sorted(folder.glob("*_amd64.deb"))
    try_sums(tally, folder)
    try_tarball(tally, next(folder.glob("pageshare-*-x86_64-linux.tar.gz")), room)
    try_again(tally, folder, room)
    for file in debian:
        tally.part(try_lintian, file)
    tally.part(try_debian, debian, room)


def main() -> int:
    options = argparse.ArgumentParser(description=__doc__.splitlines()[0])
    options.add_argument("folder", metavar="FOLDER", nargs="?", type=pathlib.Path, default=OUT / "dist")
    options.add_argument("--installed", action="store_true", help="try what `make install` puts into a new folder")
    options.add_argument("--host", action="store_true", help="try the host alone, from what `make host` left")
    given, tally = options.parse_args(), Tally()
    with new_folder() as room:
        if given.host:
            host_alone(tally, room)
        elif given.installed:
            try_make(tally, room)
        else:
            try_packages(tally, given.folder.resolve(), room)
    return tally.close()


if __name__ == "__main__":
    sys.exit(main())
