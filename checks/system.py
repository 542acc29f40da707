#!/usr/bin/env python3
"""Goes through an operator's day on a Debian with systemd and libvirt, which runs in a container of its own.

    checks/system.py [--root FOLDER] [--suite SUITE] [--mirror URL] [--keep]

It makes a Debian by mmdebstrap, boots it by systemd-nspawn, installs the Debian package of the host, and starts three guests by virsh:
two with the emulator of the package and one with variables. Then come, one case each: `--check`, sharing, a restart and a kill of the host, a
reload, suspend, save, managedsave, setmem, a dump by migration, destroy, a second domain, a pause, a refused connection, numbers for Prometheus,
an upgrade, a removal and a purge. Each guest works on files and checks all that it reads; after each step each has gone on, and has
read no wrong byte. Guests are emulated.

Needs root, mmdebstrap, systemd-nspawn, dpkg-deb, a mirror of Debian, and out/host (`make host`). What is missing is left out, and so
said. AppArmor, udev and KVM aren't in the container, and are not tried. FOLDER (by default one below /var/tmp) keeps the Debian for the
next run with --keep, and is removed without it; one with anything else in it is refused. The last line is `N passed, M failed` (status 0
where none failed, else 1).
"""
from __future__ import annotations

import argparse
import json
import os
import pathlib
import re
import shutil
import signal
import subprocess
import sys
import tempfile
import time
from collections.abc import Callable, Sequence
from typing import Any

from harness import TOP, LeftOut, Tally, needs

sys.path[:0] = [str(TOP / "packaging"), str(TOP / "checks/host")]

import dist  # noqa: E402
import places  # noqa: E402
from qemu_guests import initramfs, read  # noqa: E402

INCLUDED = (
    "systemd,systemd-sysv,dbus,udev,libpam-systemd,libvirt-daemon-system,libvirt-clients,qemu-system-x86,qemu-utils,procps,"
    "busybox-static,kmod,ca-certificates"
)
WEB, BUILD = "/run/pageshare/web.sock", "/run/pageshare/build.sock"
LIBRARY = "/usr/lib/x86_64-linux-gnu/libpageshare-window.so"
METRICS = "/var/lib/prometheus/node-exporter"
SECONDS = 400
# A guest of libvirt: its name, memory and emulator, its kernel's words and a log of what it says, and maybe variables of QEMU.
DOMAIN = """\
<domain type='qemu' xmlns:qemu='http://libvirt.org/schemas/domain/qemu/1.0'>
  <name>{name}</name>
  <memory unit='MiB'>192</memory>
  <vcpu>1</vcpu>
  <os><type arch='x86_64' machine='q35'>hvm</type>
    <kernel>/var/lib/libvirt/images/vmlinuz</kernel><initrd>/var/lib/libvirt/images/initrd</initrd>
    <cmdline>console=ttyS0 quiet no_timer_check rdinit=/init seed={seed} work=busy own=8</cmdline></os>
  <features><acpi/></features>
  <cpu mode='custom' match='exact'><model fallback='allow'>qemu64</model></cpu>
  <devices><emulator>{emulator}</emulator>
    <serial type='file'><source path='/var/log/libvirt/qemu/{name}.serial' append='on'/><target port='0'/></serial>
    <memballoon model='virtio'><stats period='5'/></memballoon>
  </devices>{variables}
</domain>
"""
VARIABLES = f"""
  <qemu:commandline>
    <qemu:env name='PAGESHARE_SOCKET' value='{WEB}'/>
    <qemu:env name='LD_PRELOAD' value='{LIBRARY}'/>
  </qemu:commandline>"""


class Wrong(Exception):
    """What isn't as it must be."""


def must(is_so: object, what: object) -> None:
    if not is_so:
        raise Wrong(str(what)[-1500:])


def until(seconds: float, is_so: Callable[[], object], what: Callable[[], object]) -> None:
    end = time.time() + seconds
    while not is_so():
        must(time.time() < end, what())
        time.sleep(1)


class Shop:
    """A Debian that runs in a container."""

    def __init__(self, root: pathlib.Path, suite: str, mirror: str) -> None:
        self.root, self.log = root, root.with_name(f"{root.name}.log")
        if not (root / "etc/os-release").exists():
            make_root(root, suite, mirror)
        self.process: subprocess.Popen[bytes] | None = None
        self.leader = 0

    def boot(self) -> None:
        words = ["systemd-nspawn", "-q", "-D", str(self.root), "--boot", "--register=no", "--keep-unit", "-M", "pageshare-system"]
        words += ["--private-network", "--capability=all", "--resolv-conf=off", "--timezone=off", "--console=pipe"]
        with open(self.log, "wb") as log:
            more = {**os.environ, "SYSTEMD_NSPAWN_UNIFIED_HIERARCHY": "1"}
            self.process = subprocess.Popen(words, stdin=subprocess.DEVNULL, stdout=log, stderr=subprocess.STDOUT, env=more)
        until(60, self.find_leader, lambda: f"systemd doesn't start: {read(self.log)}")
        until(120, self.is_running, lambda: f"it doesn't boot: {read(self.log)}")

    def is_running(self) -> bool:
        return self.try_it("systemctl is-system-running").stdout.strip() in ("running", "degraded")

    def find_leader(self) -> bool:
        if self.process is None or self.process.poll() is not None:
            raise Wrong(f"systemd-nspawn ended: {read(self.log)[-1000:]}")
        children = read(f"/proc/{self.process.pid}/task/{self.process.pid}/children").split()
        found = [int(it) for it in children if "systemd" in read(f"/proc/{it}/comm")]
        self.leader = found[0] if found else 0
        return bool(found) and self.try_it("true").returncode == 0

    def try_it(self, command: str, seconds: float = 120) -> subprocess.CompletedProcess[str]:
        """Runs a command there."""
        words = ["nsenter", "-t", str(self.leader), "-m", "-u", "-i", "-n", "-p", "-C", "-w", "-r"]
        words += ["env", "-i", "HOME=/root", "LC_ALL=C.UTF-8", "PATH=/usr/local/sbin:/usr/local/bin:/usr/sbin:/usr/bin:/sbin:/bin", "sh", "-c", command]
        try:
            return subprocess.run(words, stdin=subprocess.DEVNULL, capture_output=True, text=True, timeout=seconds)
        except subprocess.TimeoutExpired:
            return subprocess.CompletedProcess(words, -1, "", f"{command}: too late")

    def do(self, command: str, seconds: float = 120) -> str:
        ran = self.try_it(command, seconds)
        must(ran.returncode == 0, f"{command}: status {ran.returncode}: {ran.stdout} {ran.stderr}")
        return ran.stdout

    def status(self, socket: str = WEB) -> Any:
        ran = self.try_it(f"pageshare-host --status {socket} --json")
        return json.loads(ran.stdout) if ran.returncode == 0 else None

    def lent(self, socket: str = WEB) -> dict[str, float]:
        """What each guest has lent, in MiB, by its name."""
        state = self.status(socket) or {"processes": []}
        return {it["guest"]: it["client_lent_bytes"] / (1 << 20) for it in state["processes"] if it["connected"]}

    def end(self) -> None:
        if self.process is not None and self.process.poll() is None:
            self.process.send_signal(signal.SIGTERM)
            try:
                self.process.wait(30)
            except subprocess.TimeoutExpired:
                self.process.kill()
                self.process.wait()


def mark_of(root: pathlib.Path) -> pathlib.Path:
    """A file beside a folder that says that this script made it. No other folder is used, or removed."""
    return root.parent / f"{root.name}.made"


def is_ours(root: pathlib.Path) -> bool:
    return mark_of(root).exists() or not root.exists() or (root.is_dir() and not any(root.iterdir()))


def remove(root: pathlib.Path) -> None:
    """Removes a folder that this script made. What can't be removed yet is removed by the next run."""
    shutil.rmtree(root, ignore_errors=True)
    if not root.exists():
        mark_of(root).unlink(missing_ok=True)


def make_root(root: pathlib.Path, suite: str, mirror: str) -> None:
    print(f"makes a Debian ({suite}) in {root}", flush=True)
    remove(root)
    mark_of(root).touch()
    words = ["mmdebstrap", "--quiet", "--variant=minbase", "--mode=root", "--components=main", f"--include={INCLUDED}"]
    words += ["--aptopt=Acquire::Languages \"none\"", suite, str(root), mirror]
    ran = subprocess.run(words, stdin=subprocess.DEVNULL, capture_output=True, text=True)
    if ran.returncode != 0:
        remove(root)
        raise LeftOut(f"the Debian, which mmdebstrap couldn't make from {mirror}: {ran.stderr[-300:]}")


class Guest:
    """A guest of libvirt, and what it says."""

    def __init__(self, shop: Shop, name: str, seed: int, variables: str = "", socket: str = WEB) -> None:
        self.shop, self.name, self.socket = shop, name, socket
        self.log = shop.root / f"var/log/libvirt/qemu/{name}.serial"
        self.log.unlink(missing_ok=True)
        emulator = "/usr/bin/qemu-system-x86_64" if variables else "/usr/bin/pageshare-qemu"
        (shop.root / f"root/{name}.xml").write_text(DOMAIN.format(name=name, seed=seed, emulator=emulator, variables=variables))
        # (a Debian that was kept knows the guest of an earlier run)
        shop.do(f"virsh -q undefine {name} --managed-save || true; virsh -q define /root/{name}.xml && virsh -q start {name}")

    def ticks(self) -> int:
        return read(self.log).count("tick ")

    def right(self) -> None:
        wrong = [line for line in read(self.log).splitlines() if re.search(r"WRONG|segfault|Oops|BUG:|Kernel panic", line)]
        must(not wrong, f"{self.name} read {wrong[:3]}")

    def said(self) -> str:
        return read(self.shop.root / f"var/log/libvirt/qemu/{self.name}.log")[-500:]

    def goes_on(self, rounds: int = 2) -> None:
        """It does some more rounds."""
        before = self.ticks()
        still = f"{self.name} stands still after {before} rounds"
        until(SECONDS, lambda: self.ticks() >= before + rounds, lambda: f"{still}: {read(self.log)[-300:]} {self.said()}")
        self.right()

    def virsh(self, command: str) -> str:
        return self.shop.do(f"virsh -q {command.replace('NAME', self.name)}", 300)


class Day:
    """The steps, in their order, and what they work with."""

    def __init__(self, shop: Shop, package: pathlib.Path) -> None:
        self.shop, self.package = shop, package
        self.guests: list[Guest] = []

    def shares(self, least: float = 8) -> None:
        """Each guest has lent so many MiB, and goes on."""
        names = [it.name for it in self.guests if it.socket == WEB]

        def all_share() -> bool:
            lent = self.shop.lent()
            return all(lent.get(it, 0) >= least for it in names)

        until(SECONDS, all_share, lambda: f"lent {self.shop.lent()}; {[it.said() for it in self.guests]}")
        for it in self.guests:
            it.goes_on()
        state = self.shop.status()
        print("  " + ", ".join(f"{it} {state[f'{it}_bytes'] / (1 << 20):.1f} MiB" for it in ("lent", "frame", "reclaimed", "net")), flush=True)

    def step_install(self) -> None:
        """The package is installed, and the host serves a domain."""
        shutil.copy(self.package, self.shop.root / "root/host.deb")
        self.shop.try_it("dpkg -P pageshare-host")  # (of an earlier run)
        said = self.shop.do("dpkg -i /root/host.deb 2>&1")
        reads_folder = "libvirt-qemu.d" in read(self.shop.root / "etc/apparmor.d/abstractions/libvirt-qemu")
        must(reads_folder != ("include if exists <abstractions/libvirt-qemu.d/pageshare>" in said), f"libvirt's profiles: {said}")
        # (udev doesn't run in a container)
        self.shop.do(f"test -e /dev/userfaultfd || mknod /dev/userfaultfd c {device_numbers()}")
        self.shop.do("chgrp pageshare-host /dev/userfaultfd && chmod 660 /dev/userfaultfd")
        self.shop.do("printf 'memory 128M\\n' > /etc/pageshare/web.conf")
        self.shop.do("printf 'build-*  build\\n*  web\\n' > /etc/pageshare/guests.conf")
        self.shop.do("systemctl enable --now pageshare-host@web")
        until(30, self.shop.status, lambda: self.shop.do("systemctl status pageshare-host@web || true"))
        must(self.shop.try_it("systemctl start pageshare-host@none").returncode != 0, "a domain without settings starts")
        self.shop.do("printf 'memory 128M\\nmemry 1G\\n' > /etc/pageshare/wrong.conf")
        must(self.shop.try_it("systemctl start pageshare-host@wrong").returncode != 0, "a domain with a wrong word starts")
        self.shop.do("rm /etc/pageshare/wrong.conf; systemctl reset-failed pageshare-host@wrong")

    def step_check(self) -> None:
        """--check finds what the package has made, and its trial of sharing is right."""
        said = self.shop.do("pageshare-host --check --seconds 10")
        print("".join(f"  {line}\n" for line in said.splitlines()[-3:]), end="", flush=True)
        must(re.search("(?m)^good +host's user", said) and re.search("(?m)^right", said), said)

    def step_guests(self) -> None:
        """Three guests are started by virsh, and share."""
        shutil.copy(self.kernel()[0], self.shop.root / "var/lib/libvirt/images/vmlinuz")
        first = initramfs(self.shop.root / "usr/bin/busybox", self.kernel()[1], 12 << 20)
        (self.shop.root / "var/lib/libvirt/images/initrd").write_bytes(first)
        self.guests = [Guest(self.shop, "web1", 1), Guest(self.shop, "web2", 2), Guest(self.shop, "web3", 3, VARIABLES)]
        self.shares()

    def kernel(self) -> tuple[pathlib.Path, pathlib.Path]:
        return places.find_kernel()

    def step_restart(self) -> None:
        """The host is started anew: guests go on, and share again."""
        self.shop.do("systemctl restart pageshare-host@web")
        self.shares()

    def main_pid(self) -> str:
        return self.shop.do("systemctl show -p MainPID --value pageshare-host@web")

    def step_kill(self) -> None:
        """The host is killed: systemd starts it again, guests go on and share again."""
        before = self.main_pid()
        self.shop.do("systemctl kill -s KILL pageshare-host@web")
        until(30, lambda: self.main_pid() not in (before, "0\n"), lambda: "it stays down")
        self.shares()

    def step_reload(self) -> None:
        """Settings are read anew."""
        self.shop.do("printf 'memory 256M\\n' > /etc/pageshare/web.conf; systemctl reload pageshare-host@web")
        until(30, lambda: (self.shop.status() or {}).get("limit_bytes") == 256 << 20, lambda: self.shop.status())
        must(self.shop.do("pgrep -x pageshare-host").strip(), "the host is called otherwise")
        self.shares()

    def step_suspend(self) -> None:
        """A guest is suspended and resumed."""
        self.guests[0].virsh("suspend NAME")
        time.sleep(3)
        before = self.guests[0].ticks()
        self.guests[1].goes_on()
        must(self.guests[0].ticks() <= before + 1, "it runs on")
        self.guests[0].virsh("resume NAME")
        self.shares()

    def step_save(self) -> None:
        """A guest is saved to a file and restored."""
        self.guests[0].virsh("save NAME /root/saved")
        self.guests[0].virsh("restore /root/saved")
        self.shares()

    def step_managedsave(self) -> None:
        """A guest is saved by libvirt, and started."""
        self.guests[2].virsh("managedsave NAME")
        self.guests[2].virsh("start NAME")
        self.shares()

    def step_setmem(self) -> None:
        """A balloon takes memory from a guest and gives it back."""
        self.guests[1].virsh("setmem NAME 150M --live")
        self.guests[1].goes_on()
        self.guests[1].virsh("setmem NAME 192M --live")
        self.shares()

    def step_dump(self) -> None:
        """A guest is migrated to a file while it runs (virsh dump --live)."""
        self.guests[1].virsh("dump NAME /root/dumped --live")
        must((self.shop.root / "root/dumped").stat().st_size > 1 << 20, "the file is empty")
        (self.shop.root / "root/dumped").unlink()
        self.shares()

    def step_destroy(self) -> None:
        """A guest is destroyed: its pages are released. It is started again."""
        self.guests[2].virsh("destroy NAME")
        until(30, lambda: self.shop.status()["clients"] == 2, lambda: self.shop.status())
        self.guests[2].virsh("start NAME")
        self.shares()

    def step_domains(self) -> None:
        """A second domain serves the guests that guests.conf gives it, and shares nothing with the first."""
        self.shop.do("printf 'memory 64M\\n' > /etc/pageshare/build.conf; systemctl enable --now pageshare-host@build")
        self.guests.append(Guest(self.shop, "build-1", 4, socket=BUILD))
        until(SECONDS, lambda: self.shop.lent(BUILD).get("build-1", 0) >= 4, lambda: f"{self.shop.lent(BUILD)}; {self.guests[-1].said()}")
        must("build-1" not in self.shop.lent(), "the guest is in both domains")
        self.shares()

    def step_pause(self) -> None:
        """A guest is paused by its name, stays so with a new host while others share, and is resumed."""
        said = self.shop.try_it("pageshare-host --pause web1")
        print(f"  {said.stdout}", end="", flush=True)
        must(said.returncode in (0, 3), f"{said}")
        until(SECONDS, lambda: not self.shop.lent().get("web1"), lambda: self.shop.status())
        self.guests[0].goes_on()
        self.shop.do("systemctl restart pageshare-host@web")
        until(SECONDS, lambda: self.shop.lent().get("web2", 0) >= 8, lambda: self.shop.status())
        until(SECONDS, lambda: self.shop.lent().get("web1") == 0, lambda: self.shop.status())
        self.shop.do("pageshare-host --resume web1")
        self.shares()

    def step_refused(self) -> None:
        """A client that is root isn't taken, and is counted."""
        before = self.shop.status()["turned_away_total"]
        code = "import socket, sys; it = socket.socket(socket.AF_UNIX, socket.SOCK_SEQPACKET); it.connect(sys.argv[1]); print(len(it.recv(9)))"
        ran = subprocess.run([sys.executable, "-c", code, f"/proc/{self.shop.leader}/root{WEB}"], capture_output=True, text=True)
        must(ran.stdout.strip() == "0", f"{ran}")
        must(self.shop.status()["turned_away_total"] == before + 1, self.shop.status())

    def step_metrics(self) -> None:
        """The timer's unit writes each domain's numbers. Of a host that doesn't answer the last ones stay, and nothing half written."""
        folder = self.shop.root / METRICS.lstrip("/")
        self.shop.do(f"mkdir -p {METRICS} && rm -f {METRICS}/pageshare-*")
        self.shop.do("systemctl start pageshare-host-metrics.service")
        written = {it.name: it.read_text() for it in folder.glob("pageshare-*")}
        must(sorted(written) == ["pageshare-build.prom", "pageshare-web.prom"], sorted(written))
        of_guest = r'\{domain="web",[^}]*guest="web1"\} '
        due = [r'net_bytes\{domain="web"\} [1-9]', *(f"client_{it}_bytes{of_guest}[1-9]" for it in ("lent", "table"))]
        due += [f"client_mappings{of_guest}[1-9]", f"client_devices{of_guest}0\n"]
        for it in due:
            must(re.search(f"(?m)^pageshare_{it}", written["pageshare-web.prom"]), (it, written["pageshare-web.prom"]))
        self.shop.do("systemctl kill -s STOP pageshare-host@web")
        ran = self.shop.try_it("systemctl start pageshare-host-metrics.service")
        self.shop.do("systemctl kill -s CONT pageshare-host@web")
        must(ran.returncode != 0, "it counts as good although a host doesn't answer")
        later = {it.name: it.read_text() for it in folder.glob("pageshare-*")}
        must(sorted(later) == sorted(written), sorted(later))
        must(later["pageshare-web.prom"] == written["pageshare-web.prom"], "the last numbers of the host that doesn't answer are gone")
        must(later["pageshare-build.prom"] != written["pageshare-build.prom"], "the other host's numbers are old")
        self.shares()

    def step_upgrade(self) -> None:
        """The package is installed again: hosts start anew, guests go on."""
        before = self.main_pid()
        self.shop.do("dpkg -i /root/host.deb")
        must(self.main_pid() != before, "the host wasn't started anew")
        self.shares()

    def step_remove(self) -> None:
        """The package is removed: the hosts end, guests go on and can be started."""
        said = self.shop.try_it("dpkg -r pageshare-host")
        must(said.returncode == 0 and "the guest web1: virsh edit web1" in said.stderr and "web3" not in said.stderr, f"{said}")
        must(self.shop.try_it("pgrep -x pageshare-host").returncode != 0, "a host runs still")
        must(not [*(self.shop.root / METRICS.lstrip("/")).glob("pageshare-*")], "numbers are left for Prometheus")
        for it in self.guests:
            it.goes_on()
        # (guests that name the emulator can be started, and images restored; they share nothing)
        self.guests[0].virsh("save NAME /root/saved")
        self.guests[0].virsh("restore /root/saved")
        self.guests[1].virsh("destroy NAME")
        self.guests[1].virsh("start NAME")
        for it in self.guests[:2]:
            it.goes_on()

    def step_purge(self) -> None:
        """The package is purged: no setting is left, guests go on."""
        self.shop.do("dpkg -P pageshare-host")
        must(not (self.shop.root / "etc/pageshare").exists(), "settings are left")
        for it in self.guests:
            it.goes_on()


def device_numbers() -> str:
    """The numbers of /dev/userfaultfd, as mknod has them."""
    try:
        device = os.stat("/dev/userfaultfd").st_rdev
    except OSError as cause:
        raise LeftOut(f"the host, since this machine's /dev/userfaultfd: {cause.strerror} (Linux 6.1)") from cause
    return f"{os.major(device)} {os.minor(device)}"


def run_day(tally: Tally, options: argparse.Namespace) -> None:
    """All steps. One that fails ends the day, since the others rest on it."""
    if os.geteuid() != 0:
        raise LeftOut("all of this, which needs root")
    needs("a Debian of its own", "mmdebstrap")
    needs("a Debian that runs", "systemd-nspawn")
    needs("the Debian package", "dpkg-deb")
    if not places.HERE.host.exists():
        raise LeftOut(f"all of this, since there is no {places.HERE.host} (make host)")
    with tempfile.TemporaryDirectory() as room:
        package = dist.make_debian(pathlib.Path(room), "host")
        shop = Shop(options.root, options.suite, options.mirror)
        try:
            shop.boot()
            day = Day(shop, package)
            for name in [it for it in vars(Day) if it.startswith("step_")]:
                if not do_step(tally, name, getattr(day, name)):
                    break
        finally:
            shop.end()
            if not options.keep:
                remove(options.root)


def do_step(tally: Tally, name: str, step: Callable[[], None]) -> bool:
    begin, wrong = time.time(), []
    name = name.removeprefix("step_")
    print(f"{name}: {(step.__doc__ or '').splitlines()[0]}", flush=True)
    try:
        step()
    except (Wrong, OSError, subprocess.SubprocessError) as cause:
        wrong = [f"{type(cause).__name__}: {cause}"]
    tally.case(name, wrong)
    print(f"{name}: {'FAILED' if wrong else 'good'} ({time.time() - begin:.0f} s)", flush=True)
    return not wrong


def suite_here() -> str:
    """This machine's own suite of Debian."""
    found = re.search(r"^VERSION_CODENAME=(\w+)", read("/etc/os-release"), re.M)
    return found[1] if found and "debian" in read("/etc/os-release") else "stable"


def main(words: Sequence[str] | None = None) -> int:
    options = argparse.ArgumentParser(description=(__doc__ or "").splitlines()[0])
    options.add_argument("--root", type=pathlib.Path, default=pathlib.Path("/var/tmp/pageshare-system/root"), help="the folder of the Debian")
    options.add_argument("--suite", default=suite_here(), help="the suite of Debian (default: this machine's)")
    options.add_argument("--mirror", default="http://deb.debian.org/debian", help="where its packages come from")
    options.add_argument("--keep", action="store_true", help="keep the Debian for the next run")
    given, tally = options.parse_args(words), Tally()
    signal.signal(signal.SIGTERM, lambda *_: sys.exit(1))  # (so that the container ends with this script)
    if not is_ours(given.root):
        options.error(f"{given.root} is there, and no Debian that this script made")
    given.root.parent.mkdir(parents=True, exist_ok=True)
    tally.part(run_day, given)
    return tally.close()


if __name__ == "__main__":
    sys.exit(main())
