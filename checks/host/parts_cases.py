"""Cases of single things that are hard for a library that maps frames in a monitor's memory: checks/host/parts.c."""
from __future__ import annotations

import pathlib
import signal
import subprocess
import threading
from collections.abc import Callable, Mapping, Sequence

from harness import StrPath
import hostile
from places import AS_NOBODY, CC, FLAGS, HERE, NOBODY, TOP, Host, LeftOut, all_released, compile_c, compile_shim, must, preloaded
import raw_client

LEFT_OUT, PATIENCE_SECONDS = 77, 150
# What to do on lines that a program prints.
During = Mapping[str, Callable[[Host], None]]
PINS = ("mprotect", "mlock", "mlockall", "unmergeable", "dofork", "dofork-part", "dma", "look")


def compile_parts(name: str = "parts") -> pathlib.Path:
    program, found = HERE.place.room / name, [TOP / f"checks/host/{name}.c", TOP / "checks/host/breaker/ring.c"]
    flags = [*FLAGS, "-rdynamic"] if name == "waits" else FLAGS  # (the library finds the program's own `open`)
    must(subprocess.run([CC, *flags, "-o", program, *found]).returncode == 0, f"{name}.c doesn't compile")
    return program


def start(
    program: StrPath, way: str, host: Host, more: Mapping[str, str] | tuple[()] = (), user: Sequence[str] = AS_NOBODY,
) -> subprocess.Popen[str]:
    counts = {"PAGESHARE_PERIOD_MS": "50", "PAGESHARE_CPU": "100", "PAGESHARE_COUNTS": str(HERE.place.room / f"{way}.json"), "MALLOC_PERTURB_": "165"}
    env = preloaded(host, counts | dict(more))
    return subprocess.Popen([*user, program, way], env=env, text=True, stdin=subprocess.PIPE, stdout=subprocess.PIPE, stderr=subprocess.STDOUT)


def run_parts(
    ways: Sequence[str], during: During | None = None, more: Mapping[str, str] | tuple[()] = (), user: Sequence[str] = AS_NOBODY,
    host: Host | None = None, program: str = "parts",
) -> None:
    """Runs parts.c, or another program, for each way, one after the other, beside a host."""
    compiled, host = compile_parts(program), host or Host(memory="512M")
    failed, left = [], []
    for way in ways:
        status, said = follow(start(compiled, way, host, more, user), host, during or {})
        print(f"  {way}: {'good' if status == 0 else 'left out' if status == LEFT_OUT else f'WRONG, status {status}'}", flush=True)
        for line in said:
            if line.startswith(("  ", "left out: ")):
                print(f"  {line.rstrip()}")
        if status not in (0, LEFT_OUT):
            failed.append(f"{way}: status {status}: {''.join(said)[-1500:]}")
        left += [way] if status == LEFT_OUT else []
    must(not failed, "\n".join(failed))
    all_released(host)
    host.stop()
    if len(left) == len(ways):
        raise LeftOut(f"all of it: {said}")


def follow(ran: subprocess.Popen[str], host: Host, during: During) -> tuple[int, list[str]]:
    """Does what a program asks for by a line of its own, and takes all that it says. One that takes too long is killed."""
    assert ran.stdin and ran.stdout
    said = []
    timer = threading.Timer(PATIENCE_SECONDS, ran.kill)
    timer.start()
    for line in ran.stdout:
        said.append(line)
        if line.strip() in during:
            during[line.strip()](host)
            ran.stdin.write("\n")
            ran.stdin.flush()
    timer.cancel()
    return ran.wait(), said


def case_parts() -> None:
    """Parts of a window leave it, in each order; advice on a part; calls that the kernel refuses."""
    run_parts(("kept", "foreign", "hole", "used-later", "moved", "advised", "refused", "refused-hole", "late-hole"))


def case_calls() -> None:
    """Calls of a monitor where the system has no room, within pages, in a signal's handler, of threads that are to end, and odd ones."""
    run_parts(("limited", "within-pages", "interrupted", "cancelled", "cancelled-reads", "jumped", "locked-stderr", "bad-buffers", "by-process",
               "by-another", "put-over", "late-room", "said-once", "request", "requests"))
    run_parts(("counted",), more={"LD_PRELOAD": f"{compile_shim('count_memory')} {HERE.library}"})


def case_closed() -> None:
    """The monitor closes all that it doesn't know, where the library has its userfaultfd by the system call: the host has no device to give."""
    host = Host(memory="64M", user=(), before=["setpriv", "--reuid=daemon", f"--regid={NOBODY}", "--clear-groups"])
    run_parts(("closed-all",), user=[*AS_NOBODY, "--inh-caps=+sys_ptrace", "--ambient-caps=+sys_ptrace"], host=host)


def case_malloc() -> None:
    """A monitor whose malloc gives memory back with its own lock: the library calls no malloc with a lock of its own."""
    program, host = compile_c("own_malloc"), Host(memory="64M")
    status, said = follow(start(program, "own-malloc", host), host, {})
    print("".join(it for it in said if it.startswith("  ")), end="")
    must(status == 0, f"status {status}: {''.join(said)[-1500:]}")
    all_released(host)
    host.stop()


# Where a program asks for it the host stands still for a while.
STANDING: During = {"stop": lambda host: host.signal(signal.SIGSTOP), "go": lambda host: host.signal(signal.SIGCONT)}


def case_forks() -> None:
    """Children of forks: those that begin amid other calls, and a range that they are to have while the host stands still."""
    run_parts(("children", "forked", "inherited"), STANDING)


def case_pins() -> None:
    """A page is pinned, and all kinds of things are done to it before the device writes: what it writes is there."""
    run_parts([f"{first}-{way}" for first in ("pinned", "at-once") for way in PINS] + ["late"])


def case_lent_again() -> None:
    """With files by O_DIRECT pages go on being lent, but not during a read that began before there were windows."""
    run_parts(("direct", "early-read"), STANDING)


def slow_files(milliseconds: int) -> tuple[list[StrPath], pathlib.Path]:
    """What runs a program beside a file system whose reads go past the page cache and take so long, and its file."""
    folder, server = HERE.place.room / "slow", compile_c("slow_files")
    folder.mkdir(exist_ok=True)
    return ["unshare", "-m", server, folder, str(milliseconds)], folder / "file"


def case_uncached() -> None:
    """Files whose reads go past the page cache without O_DIRECT, as FUSE's may: what was read is there; with io_uring or aio_read lending ends."""
    before, file = slow_files(1500)
    ways = ("uncached-leave", "uncached-look", "uncached-ring", "uncached-request")
    run_parts(ways, more={"SLOW_FILE": str(file)}, user=[*map(str, before), *AS_NOBODY])


def case_read_late() -> None:
    """A device that reads a lent page is late: it reads what was there, though the frame is lent anew."""
    run_parts(("read-late",))


def case_locks() -> None:
    """Memory that is locked beside windows, and many mappings: what is lent, and what a look costs."""
    run_parts(("locked", "mappings"))


def case_endings() -> None:
    """Lending ends where the system has no memory for it, and doesn't where a device isn't opened."""
    run_parts(("ended", "not-opened"))


def ask_much(path: str, questions: int) -> None:
    """A process that asks about so many pages that nobody has, so that the host forgets all questions before."""
    client = raw_client.RawClient(path)
    for first in range(0, questions, raw_client.PAGES_MOST):
        client.ask([(page, 1 << 63 | page) for page in range(first, first + raw_client.PAGES_MOST)])


def case_waits() -> None:
    """Nobody waits for what takes long in the library: a new range, the end of lending; and beside a busy disk pages are lent."""
    run_parts(["range", "end", "guard", "disk"], program="waits")
    run_parts(["locks"], more={"PAGESHARE_CPU": "2"}, program="waits")  # (each read takes 10 ms: one in 5 s)


def case_newcomer() -> None:
    """A guest that starts when the questions about lent pages are long forgotten shares what it could."""
    program, host = compile_parts(), Host("--lent", "16M", memory="16M")
    first = start(program, "pairs", host)
    must(first.stdout is not None and first.stdout.readline().strip() == "lent", "the first process lends nothing")
    must(hostile.wait(hostile.in_child(NOBODY, ask_much, str(host.socket), 16 << 8)) == 0, "a process that asks")
    status, said = follow(start(program, "newcomer", host), host, {})
    print("".join(said), end="")
    first.communicate("\n")
    must((status, first.returncode) == (0, 0), f"{said}")
    all_released(host)
    host.stop()
