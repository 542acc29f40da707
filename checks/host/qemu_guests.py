"""Unmodified QEMU guests with Debian's kernel and busybox, whose first process (init.sh) checks all that it reads."""
from __future__ import annotations

import json
import os
import pathlib
import re
import shutil
import signal
import socket
import subprocess
import time
from collections.abc import Iterable, Mapping, Sequence
from typing import Any

from harness import StrPath

HERE = pathlib.Path(__file__).resolve().parent
QEMU = "qemu-system-x86_64"
NOBODY = 65534
PAGE = 4096


def read(path: StrPath) -> str:
    try:
        return pathlib.Path(path).read_text(errors="replace")
    except OSError:
        return ""


def archive(files: Iterable[tuple[str, int, bytes]]) -> bytes:
    """An initramfs (cpio, newc) of folders, files and devices: a list of (name, mode, bytes)."""
    out = bytearray()
    for number, (name, mode, data) in enumerate([*files, ("TRAILER!!!", 0, b"")], 1):
        numbers = [number, mode, 0, 0, 1, 0, len(data), 0, 0, 0, 0, len(name) + 1, 0]
        if mode == CONSOLE:
            numbers[9:11] = [5, 1]
        out += b"070701" + b"".join(b"%08x" % it for it in numbers) + name.encode() + b"\0"
        out += bytes(-len(out) % 4)
        out += data + bytes(-len(data) % 4)
    return bytes(out)


FOLDER, FILE, PROGRAM, CONSOLE = 0o040755, 0o100644, 0o100755, 0o020600


def initramfs(busybox: StrPath, modules: StrPath, most_bytes: int = 23 << 20) -> bytes:
    """busybox, init.sh and some MiB of the kernel's modules."""
    files = [(name, FOLDER, b"") for name in ("bin", "dev", "modules")]
    files += [("dev/console", CONSOLE, b""), ("bin/busybox", PROGRAM, pathlib.Path(busybox).read_bytes())]
    files += [("init", PROGRAM, (HERE / "init.sh").read_bytes())]
    found = sorted(pathlib.Path(modules).rglob("*.ko"))
    first = [it for it in found if re.match(r"virtio(_|\.)", it.name)]
    size = 0
    for it in [*first, *[it for it in found if it not in first]]:
        data = it.read_bytes()
        if size + len(data) <= most_bytes:
            size += len(data)
            files.append((f"modules/{it.name}", FILE, data))
    return archive(files)


def connected(path: StrPath, seconds: float) -> socket.socket:
    """A connection whose calls have so many seconds. (QEMU makes the file, and listens a little later.)"""
    made, end = socket.socket(socket.AF_UNIX), time.time() + seconds
    made.settimeout(seconds)
    while True:
        try:
            made.connect(str(path))
            return made
        except ConnectionRefusedError:
            if time.time() > end:
                raise
            time.sleep(0.02)


class Qmp:
    """QEMU's monitor."""

    def __init__(self, path: StrPath) -> None:
        self.socket = connected(path, 120)
        self.lines = self.socket.makefile("r")
        self.lines.readline()
        self.do("qmp_capabilities")

    def do(self, command: str, **arguments: Any) -> Any:
        self.socket.sendall(json.dumps({"execute": command, "arguments": arguments}).encode() + b"\n")
        while True:
            answer = json.loads(self.lines.readline())
            if "return" in answer or "error" in answer:
                return answer

    def monitor(self, line: str) -> Any:
        return self.do("human-monitor-command", **{"command-line": line})


class Debugger:
    """QEMU's stub for GDB. While it is connected the guest stands still."""

    def __init__(self, path: StrPath) -> None:
        self.socket = socket.socket(socket.AF_UNIX)
        self.socket.settimeout(30)
        self.socket.connect(str(path))

    def do(self, words: str) -> None:
        self.socket.sendall(b"$%s#%02x" % (words.encode(), sum(words.encode()) % 256))
        said = b""
        while b"$OK#9a" not in said:  # (it may say first that the guest stands still)
            got = self.socket.recv(4096)
            if not got or b"$E" in said:
                raise RuntimeError(f"the stub for GDB said {said!r} to {words[:20]}")
            said += got
        self.socket.sendall(b"+")

    def write(self, at: int, data: bytes) -> None:
        """A store of the guest's, for all that a migration knows."""
        self.do(f"M{at:x},{len(data):x}:{data.hex()}")

    def close(self) -> None:
        """The guest goes on."""
        self.do("D")
        self.socket.close()


class Guest:
    """One QEMU process with a Linux guest; with `work` none, with its firmware alone."""

    def __init__(
        self, place: Any, number: int, library: StrPath | None = None, domain: StrPath | None = None, mib: int = 256,
        more: Sequence[str] = (), environment: Mapping[str, str] | None = None, wrap: Sequence[str] = (), machine: str = "q35",
        work: str = "busy", accelerator: str = "tcg,tb-size=32", own: int = 8, initrd: StrPath | None = None,
    ) -> None:
        self.number, self.mib, self.place = number, mib, place
        self.out, self.log = place.room / f"out{number}", place.room / f"log{number}"
        self.monitor, self.count_file = place.room / f"qmp{number}", place.room / f"counts{number}"
        for path in (self.out, self.log, self.monitor, self.count_file):
            path.unlink(missing_ok=True)
        words = dict(os.environ, **(environment or {}))
        if library:
            words.update(PAGESHARE_SOCKET=str(domain), LD_PRELOAD=str(library), PAGESHARE_COUNTS=str(self.count_file))
        command = [*wrap, QEMU, "-machine", machine, "-accel", accelerator, "-cpu", "host" if accelerator == "kvm" else "max", "-m", str(mib)]
        command += ["-nodefaults", "-display", "none", "-serial", f"file:{self.out}", "-qmp", f"unix:{self.monitor},server,nowait"]
        if work != "none":
            command += ["-device", "virtio-balloon-pci,id=balloon0", "-kernel", str(place.kernel), "-initrd", str(initrd or place.initrd)]
            command += ["-append", f"console=ttyS0 quiet no_timer_check rdinit=/init seed={number} work={work} own={own}"]
        command += ["-no-reboot", *more]
        with open(self.log, "w", encoding="utf-8") as log:
            self.process = subprocess.Popen(command, env=words, stdin=subprocess.DEVNULL, stdout=log, stderr=subprocess.STDOUT)
        self.pid = self.process.pid
        self.qmp_made: Qmp | None = None

    def qmp(self) -> Qmp:
        if not self.qmp_made:
            self.qmp_made = Qmp(self.monitor)
        return self.qmp_made

    def is_alive(self) -> bool:
        return self.process.poll() is None

    def wait(self, seconds: float = 300, word: str = "ready") -> Guest:
        end = time.time() + seconds
        while time.time() < end:
            if word in read(self.out):
                return self
            if not self.is_alive():
                raise RuntimeError(f"guest {self.number} ended: {read(self.log)[-600:]} {read(self.out)[-300:]}")
            time.sleep(0.25)
        raise RuntimeError(f"guest {self.number} said no {word!r} in {seconds} s: {read(self.out)[-300:]}")

    def ticks(self) -> int:
        return read(self.out).count("tick ")

    def wrong(self) -> int:
        text = read(self.out)
        return text.count("WRONG") + len(re.findall(r"segfault|Oops|BUG:|Kernel panic|traps:", text))

    def counts(self) -> Any:
        try:
            return json.loads(read(self.count_file) or "{}")
        except ValueError:
            return {}

    def said(self) -> list[str]:
        """The library's lines on standard error."""
        return [it for it in read(self.log).splitlines() if it.startswith("pageshare:")]

    def processor_seconds(self) -> float:
        fields = read(f"/proc/{self.pid}/stat").rsplit(")", 1)[-1].split()
        return (int(fields[11]) + int(fields[12])) / os.sysconf("SC_CLK_TCK") if len(fields) > 12 else 0.0

    def memory(self) -> dict[str, int]:
        """Of the process, in KiB: Pss, and anonymous."""
        whole = dict(re.findall(r"^(\w+):\s+(\d+) kB", read(f"/proc/{self.pid}/smaps_rollup"), re.M))
        return {"pss": int(whole.get("Pss", 0)), "anonymous": int(whole.get("Anonymous", 0)), "rss": int(whole.get("Rss", 0))}

    def ram(self) -> dict[str, int]:
        """Of the guest's RAM alone, in pages: anonymous, and by Pss; and how many mappings it has."""
        parts = re.split(r"^(?=[0-9a-f]+-[0-9a-f]+ )", read(f"/proc/{self.pid}/smaps"), flags=re.M)[1:]
        spans = [tuple(int(it, 16) for it in part.split(" ", 1)[0].split("-")) for part in parts]
        begin = self.ram_begin(spans)
        found = {"anonymous": 0, "pss": 0, "ksm": 0, "mappings": 0}
        for (low, _), part in zip(spans, parts):
            if begin is not None and begin <= low < begin + (self.mib << 20):
                numbers = dict(re.findall(r"^(\w+):\s+(\d+) kB", part, re.M))
                found["anonymous"] += int(numbers.get("Anonymous", 0)) // 4
                found["pss"] += int(numbers.get("Pss", 0)) // 4
                found["ksm"] += int(numbers.get("KSM", 0)) // 4
                found["mappings"] += 1
        return found

    def ram_begin(self, spans: Iterable[Sequence[int]]) -> int | None:
        """Where the RAM begins: a run of mappings without a gap that is at least as large, aligned to 2 MiB."""
        if not hasattr(self, "begin"):
            self.begin = None
            for low, high in spans:
                if high - low == self.mib << 20:
                    self.begin = low
        return self.begin

    def anonymous(self) -> int:
        """The process's anonymous memory, in pages. Unlike `ram` it holds up nobody who maps memory in the process."""
        found = re.search(r"^RssAnon:\s+(\d+) kB", read(f"/proc/{self.pid}/status"), re.M)
        return int(found[1]) // 4 if found else 0

    def remember_ram(self) -> Guest:
        """Before anything is lent of it, the RAM is one mapping. And what the process has beside the RAM."""
        ram = self.ram()["anonymous"]
        self.beside = self.anonymous() - ram
        return self

    def kill(self) -> None:
        if self.is_alive():
            self.process.send_signal(signal.SIGKILL)
        self.process.wait()
        if self.qmp_made:
            self.qmp_made.socket.close()


def distinct(paths: Iterable[StrPath]) -> dict[str, int]:
    """Of images of memory: pages, pages of zeros, and how many different contents the others have."""
    import hashlib

    contents, pages, zeros = set(), 0, 0
    for path in paths:
        with open(path, "rb") as file:
            while data := file.read(PAGE):
                pages += 1
                if data.count(0) == len(data):
                    zeros += 1
                else:
                    contents.add(hashlib.blake2b(data, digest_size=16).digest())
    return {"pages": pages, "zeros": zeros, "distinct": len(contents), "others": pages - zeros}


def is_there(program: str) -> bool:
    return shutil.which(program) is not None
