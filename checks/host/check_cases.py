"""Cases of `pageshare-host --check`: its lines, its trial of sharing, what it finds wrong, and what is left of it."""
from __future__ import annotations

import concurrent.futures
import errno
import os
import pathlib
import re
import shutil
import signal
import subprocess
import time
from collections.abc import Mapping, Sequence

import bounds_cases
from harness import StrPath
from places import AS_NOBODY, CC, FLAGS, HERE, TOP, LeftOut, compile_shim, in_time, must, until
from qemu_guests import NOBODY

# What is said of any computer.
LINES = (
    "userfaultfd", "write guards", "page tables", "call filter", "mappings", "overcommit", "huge pages", "KSM", "memory", "locked memory",
    "pressure", "host's user", "monitors' group", "AppArmor", "QEMU", "KVM",
)
# A user who may make a userfaultfd, though not by the device.
MAY_GUARD = [*AS_NOBODY[:-1], "--clear-groups", "--inh-caps", "+sys_ptrace", "--ambient-caps", "+sys_ptrace"]
LINES_OF_SCREEN = 50


class Room:
    """A folder of the trial's files, and what there is of it beside."""

    def __init__(self, name: str) -> None:
        self.folder = HERE.place.room / f"check-{name}"
        self.folder.mkdir()
        os.chown(self.folder, NOBODY, NOBODY)
        self.shared = set(os.listdir("/dev/shm"))

    def processes(self) -> list[pathlib.Path]:
        """Those that have this folder in their environment."""
        found = []
        for it in pathlib.Path("/proc").glob("[0-9]*"):
            try:
                if str(self.folder).encode() in (it / "environ").read_bytes():
                    found.append(it)
            except OSError:
                pass
        return found

    def is_clean(self) -> None:
        """Nothing is left: no process, file, socket or shared memory."""
        gone, _ = until(10, lambda: not self.processes(), 0.05)
        must(gone, f"left: {[(it / 'cmdline').read_bytes() for it in self.processes()]}")
        must(not list(self.folder.iterdir()), f"left: {list(self.folder.iterdir())}")
        must(str(self.folder) not in pathlib.Path("/proc/net/unix").read_text(encoding="utf-8"), "a socket is left")
        must(not {it for it in set(os.listdir("/dev/shm")) - self.shared if "pageshare" in it}, "shared memory is left")


def start_check(room: Room, seconds: int, before: Sequence[StrPath] = (), more: Mapping[str, str] | tuple[()] = ()) -> subprocess.Popen[str]:
    words = [*before, HERE.host, "--check", "--seconds", str(seconds)]
    env = {**os.environ, "TMPDIR": str(room.folder), **dict(more)}
    return subprocess.Popen(words, env=env, stdin=subprocess.DEVNULL, stdout=subprocess.PIPE, stderr=subprocess.STDOUT, text=True)


def ended(ran: subprocess.Popen[str], room: Room, seconds: float = 120) -> tuple[int, str]:
    """The status and the text of a check, which leaves nothing."""
    text = ran.communicate(timeout=seconds)[0]
    room.is_clean()
    return ran.returncode, text


def number(word: str, text: str) -> int:
    found = re.search(rf"(\d+) {word}", text)
    return int(found[1]) if found else 0


def case_check() -> None:
    """What --check prints, as root and as another user, and that its trial shares and is right; wrong words, and no library."""
    seconds = 4 if HERE.is_short else 20
    users: tuple[tuple[str, Sequence[str]], ...] = (("root", ()), ("other", MAY_GUARD))
    for name, before in users:
        room = Room(name)
        status, text = ended(start_check(room, seconds, before), room)
        print("".join(f"  {line}\n" for line in text.splitlines()[-3:]), end="")
        said = [line[9:24].strip() for line in text.splitlines() if line[:8].strip() in ("good", "note", "BAD", "unknown")]
        must(all(it in said for it in LINES), f"no line of {[it for it in LINES if it not in said]}: {text}")
        must(len(text.splitlines()) < LINES_OF_SCREEN and "right: each byte was as written" in text and status == 0, f"status {status}: {text}")
        counts = [number(it, text) for it in ("pages compared", "written", "discarded", "children", "pages lent")]
        must(all(counts), f"counts {counts}: {text}")
        due = r"guest of some instructions under KVM: [1-9]\d* pages" if name == "root" and os.access("/dev/kvm", os.W_OK) else "guest under KVM"
        must(re.search(due, text), f"no word of {due}: {text}")
        in_time(re.search(r"at most [1-9]\d*\.\d MiB", text), f"less than 1 MiB was reclaimed: {text}")
    for words in (["--check", "--seconds", "0"], ["--check", "--seconds"], ["--check", "now"]):
        ran = subprocess.run([HERE.host, *words], capture_output=True, text=True)
        must(ran.returncode == 2 and ran.stderr.startswith("pageshare: "), f"{words}: {ran}")
    other = shutil.copy(HERE.host, HERE.place.room / "check-root")
    ran = subprocess.run([other, "--check", "--seconds", "1"], capture_output=True, text=True)
    must(ran.returncode == 1 and "there is no libpageshare-window.so" in ran.stdout, f"without a library: {ran}")


def case_check_guest() -> None:
    """A guest of --check fills pages by KVM, and finds each that isn't as it was filled."""
    program = HERE.place.room / "tiny"
    words: list[StrPath] = [CC, *FLAGS, f"-I{TOP / 'host'}", "-o", program, TOP / "checks/host/tiny.c", TOP / "host/check/tiny.c"]
    must(subprocess.run(words).returncode == 0, "tiny.c doesn't compile")
    ran = subprocess.run([program], capture_output=True, text=True)
    if ran.returncode == 3:
        raise LeftOut(f"guests under KVM: {ran.stdout.strip()}")
    must(ran.returncode == 0 and " 0 wrong" in ran.stdout, f"{ran}")


def case_check_denied() -> None:
    """A user who may make no userfaultfd learns that from --check, and what mends it."""
    room = Room("denied")
    status, text = ended(start_check(room, 2, AS_NOBODY), room)
    must(status == 1 and "nothing was shared" in text, f"status {status}: {text}")
    must(re.search(r"BAD +userfaultfd.*\n.*mend it by:.*--user", text), f"the cause isn't named: {text}")


def case_check_wrong() -> None:
    """--check finds a library that loses a write, one that shares nothing, and a host that ends; signals end it. Nothing is left."""
    room = Room("loses")
    lost = {"LD_PRELOAD": str(compile_shim("loses_writes"))}
    status, text = ended(start_check(room, 20, more=lost), room)
    must(status == 1 and re.search(r"WRONG: process \d+ found another byte", text) and " was written" in text, f"status {status}: {text}")
    for name, number_of in (("killed", signal.SIGKILL), ("term", signal.SIGTERM), ("int", signal.SIGINT)):
        room = Room(name)
        ran = start_check(room, 30)
        served, _ = until(20, lambda: len(room.processes()) >= 5, 0.05)
        must(served, "there is no trial")
        hosts = [it for it in room.processes() if b"--domain" in (it / "cmdline").read_bytes()]
        os.kill(int(hosts[0].name) if name == "killed" else ran.pid, number_of)
        begin = time.time()
        status, text = ended(ran, room)
        cause = "the host ended meanwhile" if name == "killed" else "a signal ended it"
        must(status == 1 and f"WRONG: {cause}" in text, f"{name}: status {status}: {text}")
        in_time(time.time() - begin < 10, f"{name}: ended after {time.time() - begin:.0f} s")


CALLS = (
    "fork", "execv", "waitpid", "kill", "dup2", "pipe2", "mkdtemp", "rmdir", "sigtimedwait", "memfd_create", "setenv", "open", "read",
    "write", "pread", "ioctl", "prctl", "mmap", "madvise", "pthread_create", "socket", "setsockopt", "connect", "recv", "bind", "listen", "accept4",
)


def refused(shim: pathlib.Path, call: str, turn: int) -> str:
    """A check of which one call is refused, and of each of its processes, too: it says right or what was wrong, and ends."""
    room = Room(f"{call}-{turn}")
    env = {"LD_PRELOAD": str(shim), "REFUSE": f"{call},{turn},1,{errno.ENOMEM}"}
    status, text = ended(start_check(room, 1, more=env), room)
    is_right = re.search(r"^right", text, re.M) is not None
    must(status == (0 if is_right else 1) and (is_right or "WRONG: " in text), f"{call} {turn}: status {status}: {text}")
    return "right" if is_right else str(re.findall("WRONG: (.*)", text)[0])


def case_check_refused() -> None:
    """Each call of the system that --check makes is refused in turn: it ends, says so or is right, and nothing is left."""
    shim = bounds_cases.build_shim()
    turns = [(call, turn) for call in CALLS for turn in ((1, 3) if HERE.is_short else (1, 2, 3, 5, 8))]
    with concurrent.futures.ThreadPoolExecutor(8) as lanes:
        said = list(lanes.map(lambda it: refused(shim, *it), turns))
    print(f"  {len(said)} checks, {said.count('right')} of them right; the others: {'; '.join(sorted(set(said) - {'right'}))[:600]}")
    must(any(it != "right" for it in said), "nothing was refused")
