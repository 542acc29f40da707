"""Where the cases of checks/host.py run: a folder, the host and the library, what the machine has, and what must be so."""
from __future__ import annotations

import json
import os
import pathlib
import re
import shutil
import signal
import subprocess
import tempfile
import time
import types
from collections.abc import Callable, Iterable, Mapping, Sequence
from typing import Any

from common.c_programs import CC as CC
from common.c_programs import FLAGS as FLAGS
from harness import PACKAGES, StrPath
from harness import TOP as TOP
from harness import LeftOut as LeftOut
from qemu_guests import NOBODY as NOBODY
from qemu_guests import QEMU, initramfs, is_there, read

OUT = TOP / "out/host"
# What is proved of the library that monitors preload.
WINDOW_LIBRARY = os.environ.get("WINDOW_LIBRARY", str(TOP / "out/libpageshare_window.a"))
AS_NOBODY = ["setpriv", f"--reuid={NOBODY}", f"--regid={NOBODY}", "--clear-groups"]
PROGRAMS = (QEMU, "qemu-img", "busybox")
KERNEL_PACKAGE = "linux-image-cloud-amd64"


class Wrong(Exception):
    """A case that failed, and how."""


class Late(Wrong):
    """Something took longer than it should, or less was done in its time, but it was done: the computer may have been busy."""


def must(is_so: object, what: str) -> None:
    if not is_so:
        raise Wrong(what)


def in_time(is_so: object, what: str) -> None:
    """As `must`, of what a busy computer may keep from being so. Not of what hangs, ends or leaves something behind."""
    if not is_so:
        raise Late(what)


def until(seconds: float, is_so: Callable[[], object], step: float = 0.5) -> tuple[bool, float]:
    """Waits until something is so. Answers whether it became so, and after how many seconds."""
    begin = time.time()
    while time.time() - begin < seconds:
        if is_so():
            return True, time.time() - begin
        time.sleep(step)
    return bool(is_so()), time.time() - begin


def install(package: str) -> bool:
    if os.environ.get("INSTALL") != "1":
        return False
    print(f"installs {package}", flush=True)
    words = ["apt-get", "-qq", "-o", "DPkg::Lock::Timeout=300", "install", "-y", "--no-install-recommends", package]
    return subprocess.run(words, env={**os.environ, "DEBIAN_FRONTEND": "noninteractive"}, stdout=subprocess.DEVNULL).returncode == 0


def find_kernel() -> tuple[pathlib.Path, pathlib.Path]:
    """A kernel of Debian's for clouds, and its modules: the machine's own, or one that is unpacked in out/host."""
    for root in (pathlib.Path("/"), OUT / "kernel"):
        for image in sorted((root / "boot").glob("vmlinuz-*cloud-amd64")):
            tree = root / "lib/modules" / image.name.removeprefix("vmlinuz-") / "kernel"
            if tree.is_dir():
                return image, tree
    if os.environ.get("INSTALL") != "1":
        raise LeftOut("there is no kernel for clouds (INSTALL=1 unpacks one)", KERNEL_PACKAGE)
    said = subprocess.run(["apt-cache", "depends", KERNEL_PACKAGE], capture_output=True, text=True).stdout
    found = re.findall(r"Depends: (linux-image-\S+)", said)
    must(found, f"{KERNEL_PACKAGE} isn't known to apt-get")
    with tempfile.TemporaryDirectory() as room:
        os.chmod(room, 0o777)
        subprocess.run(["apt-get", "-qq", "download", found[0]], cwd=room, check=True)
        subprocess.run(["dpkg", "-x", next(pathlib.Path(room).glob("*.deb")), OUT / "kernel"], check=True)
    return find_kernel()


class Place:
    """A folder for one run, with what guests boot."""

    def __init__(self) -> None:
        self.room = pathlib.Path(tempfile.mkdtemp(prefix="pageshare-host-"))
        os.chmod(self.room, 0o777)
        self.kernel: pathlib.Path | None = None
        self.started: list[Any] = []

    def guests_possible(self) -> None:
        if self.kernel:
            return
        for program in PROGRAMS:
            if not is_there(program) and not (install(PACKAGES[program]) and is_there(program)):
                raise LeftOut(f"there is no {program} (INSTALL=1 installs it)", PACKAGES[program])
        kernel, modules = find_kernel()
        self.initrd, self.small_initrd = self.room / "initrd", self.room / "small_initrd"
        busybox = shutil.which("busybox") or "busybox"
        self.initrd.write_bytes(initramfs(busybox, modules))
        self.small_initrd.write_bytes(initramfs(busybox, modules, 12 << 20))
        # (anybody may read the copy, also where this tree is root's alone)
        self.kernel = pathlib.Path(shutil.copyfile(kernel, self.room / "kernel"))

    def clean(self) -> None:
        """Ends what a case started."""
        for it in self.started:
            it.kill()
        self.started = []

    def remove(self) -> None:
        self.clean()
        shutil.rmtree(self.room, ignore_errors=True)


class Host:
    """A host that runs as the user daemon, with one domain. `before` are words that stand before the program's name."""

    def __init__(
        self, *more: StrPath, memory: str = "1G", name: str = "web", program: StrPath | None = None,
        user: Sequence[str] = ("--user", "daemon"), before: Sequence[StrPath] = (),
    ) -> None:
        self.socket, self.log = HERE.place.room / f"{name}.sock", HERE.place.room / f"{name}.log"
        self.words = [*before, program or HERE.host, "--domain", f"{name}={self.socket}", "--memory", memory, "--group", str(NOBODY), *user, *more]
        HERE.place.started.append(self)
        self.start()

    def start(self) -> Host:
        with open(self.log, "a", encoding="utf-8") as log:
            self.process = subprocess.Popen(self.words, stdin=subprocess.DEVNULL, stdout=log, stderr=subprocess.STDOUT)
        served, _ = until(10, lambda: self.status() is not None, 0.05)
        must(served, f"the host doesn't serve: {read(self.log)[-400:]}")
        return self

    def status(self) -> Any:
        ran = subprocess.run([HERE.host, "--status", self.socket, "--json"], capture_output=True, text=True)
        return json.loads(ran.stdout) if ran.returncode == 0 else None

    def signal(self, number: int) -> None:
        self.process.send_signal(number)

    def kill(self) -> None:
        if self.process.poll() is None:
            self.process.send_signal(signal.SIGCONT)
            self.process.kill()
        self.process.wait()

    def stop(self) -> None:
        self.process.terminate()
        must(self.process.wait(20) == 0, f"the host ended with a status: {read(self.log)[-2000:]}")


def all_released(host: Host, seconds: float = 20) -> None:
    """When all clients have ended no page is lent, no frame is in use, and their memory is given back."""
    good, _ = until(seconds, lambda: (it := host.status()) and it["clients"] == 0 and it["lent_bytes"] == 0, 0.2)
    state = host.status()
    must(good and state["frame_bytes"] == 0, f"left behind: {state}")
    # (a call that gives memory back may take a second on a busy computer, and the host waits a second after each of those)
    small, _ = until(3 * seconds, lambda: host.status()["file_bytes"] <= 8 << 20, 0.2)
    must(small, f"the file of frames has {host.status()['file_bytes'] >> 20} MiB with no frame in use")


class Here:
    """The folder of this run, the host and the library that it runs, and whether cases are to be short."""

    place: Place
    host, library, is_short = OUT / "pageshare-host", OUT / "libpageshare-window.so", False


HERE = Here()


def compile_c(name: str, folder: str = "checks/host") -> pathlib.Path:
    """Compiles a program to a place from which any user can run it."""
    HERE.place.started.append(types.SimpleNamespace(kill=lambda: None))
    program = HERE.place.room / name
    if subprocess.run([CC, *FLAGS, "-o", program, TOP / folder / f"{name}.c"]).returncode != 0:
        raise Wrong(f"{name}.c doesn't compile")
    return program


def compile_shim(name: str) -> pathlib.Path:
    """Compiles a library that is preloaded before the one that is checked."""
    shim = HERE.place.room / f"{name}.so"
    words: list[StrPath] = [CC, *FLAGS, "-fPIC", "-shared", "-fvisibility=hidden", "-o", shim, TOP / f"checks/host/{name}.c", "-ldl"]
    must(subprocess.run(words).returncode == 0, f"{name}.c doesn't compile")
    return shim


def preloaded(host: Host, more: Mapping[str, str] | Iterable[tuple[str, str]] = ()) -> dict[str, str]:
    words = {**os.environ, "PAGESHARE_SOCKET": str(host.socket), "LD_PRELOAD": str(HERE.library), "PAGESHARE_PERIOD_MS": "10"}
    return {**words, **dict(more)}


def sources(role: str) -> list[pathlib.Path]:
    """The sources in host/ of one of the two programs, `daemon` or `preload`, and what the daemon has besides."""
    beside = [TOP / "window/lines.c", TOP / "window/lender/bus.c", *(TOP / "host/check").glob("*.c")] if role == "daemon" else []
    return sorted([*(TOP / "host").glob("*.c"), *(TOP / "host" / role).glob("*.c"), *beside])


def build_library(to: pathlib.Path, *more: str) -> bool:
    """Builds the library that monitors preload, with some more flags. Answers whether it was built."""
    words: list[StrPath] = [CC, *FLAGS, *more, "-fPIC", "-shared", "-fvisibility=hidden", "-Wl,--wrap=syscall", "-o", to]
    words += [*(f"-I{TOP / it}" for it in ("lib/include", "window", "host")), *sources("preload"), *sorted((TOP / "window").glob("*.c"))]
    to.parent.mkdir(exist_ok=True)
    return subprocess.run([*words, WINDOW_LIBRARY, "-ldl"]).returncode == 0
