"""Cases of what an operator does with a guest that runs: sharing is switched off and on, and a guest that shares nothing is listed with the cause."""
from __future__ import annotations

import os
import signal
import struct
import subprocess
import sys
import time
from collections.abc import Sequence
from typing import Any

from breaker_cases import compile_folder, end_breakers, start_breaker
from harness import PACKAGES, StrPath
from parts_cases import compile_parts, start
from places import AS_NOBODY, HERE, Host, LeftOut, all_released, in_time, must, preloaded, until
from qemu_guests import QEMU, is_there
from running_guests import go_on, guest, guests, settle
from system_cases import counting

# Pages that `stays` of raw_calls.c lends at least.
LEAST = 1000
LATE = 3


def ask(what: str, whom: object, user: Sequence[str] = ()) -> subprocess.CompletedProcess[str]:
    return subprocess.run([*user, HERE.host, f"--{what}", str(whom)], capture_output=True, text=True, timeout=100)


def client(host: Host, pid: int) -> dict[str, Any]:
    """What a status says of a client."""
    found: list[dict[str, Any]] = [it for it in (host.status() or {"processes": []})["processes"] if it["pid"] == pid]
    return found[0] if found else {"client_lent_bytes": 0, "client_pause": -1, "why": "", "connected": 0}


def lends(host: Host, pid: int, least: int = LEAST) -> None:
    good, _ = until(40, lambda: client(host, pid)["client_lent_bytes"] >= least * 4096, 0.1)
    in_time(good, f"process {pid} doesn't share: {host.status()}")


def stays(host: Host, program: StrPath, name: str) -> subprocess.Popen[str]:
    """A process that shares and writes its pages now and then, by the name of a guest. It ends by a line, and then says whether all was right."""
    env = preloaded(host, {"PAGESHARE_PERIOD_MS": "50", "PAGESHARE_CPU": "100", "PAGESHARE_COUNTS": str(HERE.place.room / f"{name}.json")})
    ran = subprocess.Popen([*AS_NOBODY, program, "stays", "-name", f"guest={name}"], env=env, text=True, stdin=subprocess.PIPE, stdout=subprocess.PIPE,
                           stderr=subprocess.STDOUT)
    HERE.place.started.append(ran)
    assert ran.stdout
    line = ran.stdout.readline().strip()
    must(line == "lent", f"{name} says {line}")
    return ran


def is_paused(host: Host, pid: int) -> bool:
    it = client(host, pid)
    return it["client_lent_bytes"] == 0 and it["client_pause"] == LATE and "paused" in it["why"]


def case_pause() -> None:
    """--pause takes a guest's memory home while others share; it stays so with a new host; --resume shares again; and what can't be asked."""
    program, host, name = compile_parts("raw_calls"), Host(memory="64M"), f"one-{os.getpid()}"  # (no other guest here is called so)
    one, other = stays(host, program, name), stays(host, program, f"other-{os.getpid()}")
    for ran in (one, other):
        lends(host, ran.pid)
    paused = ask("pause", name)
    must(paused.returncode == 0 and f"guest {name}, process {one.pid}: all of its memory is its own" in paused.stdout, f"{paused}")
    good, _ = until(10, lambda: is_paused(host, one.pid), 0.1)
    must(good, f"{name} isn't paused: {host.status()}")
    must(client(host, other.pid)["client_lent_bytes"] >= LEAST * 4096, f"the other doesn't share any more: {host.status()}")
    host.kill()
    host.start()
    lends(host, other.pid)
    time.sleep(2)
    must(is_paused(host, one.pid) and client(host, one.pid)["connected"], f"{name} isn't paused with a new host: {host.status()}")
    resumed = ask("resume", one.pid)
    must(resumed.returncode == 0 and "it shares again" in resumed.stdout, f"{resumed}")
    lends(host, one.pid)
    refuse_to_pause()
    end_while_pausing(one)
    said = other.communicate("\n", timeout=30)[0]
    must(other.returncode == 0, said)
    all_released(host)
    host.stop()


def word_of(ran: subprocess.Popen[str]) -> str:
    """The next line of a process that isn't its library's."""
    assert ran.stdout
    line = ran.stdout.readline()
    while line.startswith("pageshare: "):
        line = ran.stdout.readline()
    return line.strip()


def case_pause_guarded() -> None:
    """--pause waits while a monitor guards its memory itself, as for a snapshot, and goes on by itself."""
    program, host = compile_parts("raw_calls"), Host(memory="64M")
    ran = start(program, "stays-guarded", host, {"PAGESHARE_FILTER": "1"})
    HERE.place.started.append(ran)
    assert ran.stdin
    said = word_of(ran)
    if said.startswith("left out: "):
        raise LeftOut(said.removeprefix("left out: "))
    must(said == "guarded", said)
    asks = subprocess.Popen([HERE.host, "--pause", str(ran.pid)], stdout=subprocess.PIPE, stderr=subprocess.STDOUT, text=True)
    time.sleep(3)
    must(asks.poll() is None and not is_paused(host, ran.pid), f"guarded memory came home: {host.status()}")
    ran.stdin.write("\n")
    ran.stdin.flush()
    must(word_of(ran) == "free", "the guard doesn't end")
    asked = asks.communicate(timeout=100)[0]
    must(asks.returncode == 0 and is_paused(host, ran.pid), f"status {asks.returncode}: {asked}; {host.status()}")
    must(ask("resume", ran.pid).returncode == 0, "it doesn't share again")
    lends(host, ran.pid)
    said = ran.communicate("\n", timeout=30)[0]
    must(ran.returncode == 0, said)
    all_released(host)
    host.stop()


def refuse_to_pause() -> None:
    """Whom nobody can ask."""
    for whom, why in (("nobody", "no guest that is called nobody"), (2**22 + 5, "No such process"), (os.getpid(), "shares no memory"), (1, "shares no memory")):
        ran = ask("pause", whom)
        must(ran.returncode == 1 and why in ran.stderr and not ran.stdout, f"{whom}: {ran}")
    ran = ask("pause", 1, AS_NOBODY)
    must(ran.returncode == 1 and "ask as root" in ran.stderr, f"as nobody: {ran}")
    for words in (["--pause"], ["--pause", ""], ["--resume", "x" * 100]):
        must(subprocess.run([HERE.host, *words], capture_output=True).returncode == 2, f"{words} is taken")


def end_while_pausing(ran: subprocess.Popen[str]) -> None:
    """A guest whose library stands still is asked, and ends."""
    ran.send_signal(signal.SIGSTOP)
    asks = subprocess.Popen([HERE.host, "--pause", str(ran.pid)], stdout=subprocess.PIPE, stderr=subprocess.PIPE, text=True)
    time.sleep(1)
    must(asks.poll() is None, "a guest that stands still is paused")
    ran.kill()
    said = asks.communicate(timeout=20)
    must(asks.returncode == 1 and "has ended meanwhile" in said[1], f"status {asks.returncode}: {said}")


def case_pause_busy() -> None:
    """Sharing is switched off and on while random calls of a monitor go on beside a shadow of each byte: SECONDS=N."""
    program, host, seconds = compile_folder("breaker"), Host(memory="256M"), int(os.environ.get("SECONDS", "16"))
    ran = [start_breaker(program, host, seed, seconds) for seed in range(4)]
    pids, end, paused = [it.pid for _, it in ran], time.time() + seconds - 2, 0
    for turn in range(1000):
        if time.time() > end:
            break
        asked = [subprocess.Popen([HERE.host, f"--{'resume' if turn % 2 else 'pause'}", str(it)], stdout=subprocess.PIPE, text=True) for it in pids]
        time.sleep(1.5)
        for it in asked:
            it.kill()
            paused += "its memory is its own" in it.communicate()[0]
    end_breakers(ran, seconds)
    print(f"  {paused} times paused")
    in_time(paused > 0, "nothing was paused")
    all_released(host)
    host.stop()


def percent(host: Host, pid: int) -> tuple[int, int]:
    """What a process says that its thread may use, and what an operator's limit is."""
    it = client(host, pid)
    return it["client_cpu_percent"], it["client_cpu_limit_percent"]


def spends(host: Host, pid: int, seconds: float) -> float:
    """The percentage of a processor that a process's thread takes in this time."""
    begun, spent = time.time(), processor_ns(host, pid)
    time.sleep(seconds)
    return (processor_ns(host, pid) - spent) / (time.time() - begun) / 1e7


# A process that writes all of its pages again and again, from when it reads a line. Word: how many pages.
WRITES = """
import mmap, sys
pages = int(sys.argv[1])
it = mmap.mmap(-1, pages * 4096, flags=mmap.MAP_PRIVATE | mmap.MAP_ANONYMOUS)
it.madvise(mmap.MADV_NOHUGEPAGE), it.madvise(mmap.MADV_DONTFORK), it.madvise(mmap.MADV_MERGEABLE)
sys.stdin.readline()
for turn in range(1, 1 << 32):
    for page in range(pages):
        it[page * 4096:page * 4096 + 8] = (turn + page).to_bytes(8, "little")
"""


def run_python(host: Host, code: str, period_ms: int, *words: object) -> subprocess.Popen[str]:
    env = preloaded(host, {"PAGESHARE_CPU": "100", "PAGESHARE_PERIOD_MS": str(period_ms)})
    ran = subprocess.Popen([*AS_NOBODY, sys.executable, "-c", code, *map(str, words)], env=env, text=True, stdin=subprocess.PIPE)
    HERE.place.started.append(ran)
    return ran


def say(ran: subprocess.Popen[str], line: str) -> None:
    assert ran.stdin
    ran.stdin.write(line)
    ran.stdin.flush()


def is_kept(host: Host, pid: int, when: str) -> None:
    """A limit of 1 % is kept: its time is counted in ticks of 10 ms, and a call that it makes may take longer than its budget."""
    kept = spends(host, pid, 4)
    print(f"  {when}: {kept:.1f} % of a processor")
    must(kept <= 2, f"{when} a limit of 1 % leaves it {kept:.1f} %")


def refuse_to_limit(host: Host) -> None:
    """Whom nobody can ask, who never hears of it, whose file refuses it, and words that are no limit."""
    shares, seals = struct.pack("<15Q", 4, *[0] * 14), "fcntl.F_SEAL_SHRINK | fcntl.F_SEAL_GROW"
    ran = ask("limit", f"{counting(str(host.socket), shares)}=5")
    must(ran.returncode == LATE and "hasn't heard of the limit" in ran.stdout, f"one that doesn't hear: {ran}")
    ran = ask("limit", f"{counting(str(host.socket), shares, seals=f'{seals} | fcntl.F_SEAL_WRITE')}=5")
    must(ran.returncode == 1 and "the guest's file: Operation not permitted" in ran.stderr and not ran.stdout, f"a file that refuses it: {ran}")
    for whom, cause in (("nobody=5", "no guest that is called nobody"), (f"{os.getpid()}=5", "shares no memory")):
        ran = ask("limit", whom)
        must(ran.returncode == 1 and cause in ran.stderr and not ran.stdout, f"{whom}: {ran}")
    for word in ("x", "=5", "x=", "x=0", "x=101", "x=5%", "x=NONE", "x" * 64 + "=5", ""):
        must(subprocess.run([HERE.host, "--limit", word], capture_output=True).returncode == 2, f"--limit {word} is taken")


def case_limit() -> None:
    """--limit keeps a guest's thread to a part of a processor, also for what is new and with a new host, until it says none."""
    host, name = Host("--client-cpu", "60", memory="64M"), f"limited-{os.getpid()}"
    one = run_python(host, WRITES, 1, 16384, "-name", name)
    good, _ = until(20, lambda: client(host, one.pid).get("client_cpu_percent") == 60, 0.1)
    must(good and percent(host, one.pid) == (60, 0), f"before: {host.status()}")
    limited = ask("limit", f"{name}=1")
    must(limited.returncode == 0 and f"guest {name}, process {one.pid}: sharing may use 1 %" in limited.stdout, f"{limited}")
    must(percent(host, one.pid) == (1, 1), f"limited: {percent(host, one.pid)}")
    say(one, "\n")
    is_kept(host, one.pid, "with pages that are new")
    host.kill()
    host.start()
    good, _ = until(20, lambda: client(host, one.pid)["connected"] == 1 and percent(host, one.pid) == (1, 1), 0.2)
    must(good, f"with a new host: {client(host, one.pid)}")
    is_kept(host, one.pid, "with a new host")
    more = ask("limit", f"{one.pid}=80")
    must(more.returncode == 0 and "sharing may use 60 %" in more.stdout and percent(host, one.pid) == (60, 80), f"a limit above what it may: {more}")
    none = ask("limit", f"{one.pid}=none")
    must(none.returncode == 0 and "no operator limits it" in none.stdout and percent(host, one.pid) == (60, 0), f"{none}")
    good, _ = until(30, lambda: spends(host, one.pid, 2) > 3, 0)
    in_time(good, "without a limit it takes less than 3 % of a processor, so that the limit shows nothing")
    one.kill()
    all_released(host)
    refuse_to_limit(host)
    host.stop()


# A process with pages of some contents, and as many zeros, that gives all up when it reads a line. Words: how many contents, and how many pages.
OFFERS = """
import mmap, sys
contents, pages = map(int, sys.argv[1:])
own, zeros = (mmap.mmap(-1, pages * 4096, flags=mmap.MAP_PRIVATE | mmap.MAP_ANONYMOUS) for _ in range(2))
for it in own, zeros:
    it.madvise(mmap.MADV_NOHUGEPAGE), it.madvise(mmap.MADV_DONTFORK), it.madvise(mmap.MADV_MERGEABLE)
for page in range(pages):
    own[page * 4096:(page + 1) * 4096] = (1 + page % contents).to_bytes(8, "little") * 512
    zeros[page * 4096:(page + 1) * 4096] = bytes(4096)
sys.stdin.readline(), own.close(), zeros.close(), sys.stdin.readline()
"""


def case_account() -> None:
    """Zeros count in the gain; pages that --lent or --memory refuses are told apart; and who offers nothing any more is listed with that cause."""
    pages, most = 1024, 512
    # (a host remembers one question for each four pages that may be lent: with few contents equal pages are found all the same)
    for memory, lent, contents, by_lent in (("64M", f"{most * 4}K", 64, True), (f"{most * 4}K", "64M", pages, False)):
        host = Host("--lent", lent, memory=memory)
        made = [run_python(host, OFFERS, 50, contents, pages) for _ in range(2)]
        good, _ = until(40, lambda: (it := host.status())["refused_pages_total"] > 0 and it["zero_bytes"] >= 2 * pages * 4096, 0.2)
        state = host.status()
        in_time(good, f"nothing was refused, or few zeros were given back: {state}")
        most_bytes = state["lent_limit_bytes"] if by_lent else state["limit_bytes"]
        must(most_bytes == most * 4096, f"the limit is {most_bytes}: {state}")
        must((state["refused_by_lent_pages_total"] == state["refused_pages_total"]) == by_lent, f"refused by --lent: {state}")
        must(by_lent or state["refused_by_lent_pages_total"] == 0, f"refused by --lent: {state}")
        must(state["zero_bytes"] == 2 * pages * 4096, f"{2 * pages} pages of zeros: {state}")
        must(state["net_bytes"] > state["zero_bytes"] - (32 << 20), f"zeros aren't in the gain: {state}")
        say(made[0], "\n")
        good, _ = until(20, lambda: why(host, made[0].pid) == ("processes", "none of its memory is offered now"), 0.2)
        must(good, f"a process that offers nothing any more: {host.status()}")
        for it in made:
            it.communicate("\n\n", timeout=30)
        all_released(host)
        host.stop()


# QEMU's words, and what is said of it.
NOT_SHARED: Sequence[tuple[str, dict[str, Any], str]] = (
    ("mem-merge=off", {"machine": "q35,mem-merge=off"}, "mem-merge=off, in libvirt <nosharepages/>"),
    ("mem-lock=on", {"more": ["-overcommit", "mem-lock=on"]}, "locks its memory"),
    ("memfd", {"machine": "q35,memory-backend=m", "more": ["-object", "memory-backend-memfd,id=m,size=64M,share=on"]}, "not private"),
)


def why(host: Host, pid: int) -> tuple[str, str]:
    """Where a status has a process, and the cause."""
    state = host.status()
    for place in ("processes", "others"):
        for it in state[place]:
            if it["pid"] == pid and it["why"]:
                return place, it["why"]
    return "", ""


def case_shares_nothing() -> None:
    """A process that shares nothing is listed with the cause: one that offers nothing, a QEMU without merging, one that locks, and one with a memfd."""
    host = Host("--trust-peers", memory="64M")
    idle = subprocess.Popen([*AS_NOBODY, "sleep", "100"], env=preloaded(host))
    HERE.place.started.append(idle)
    plain = subprocess.Popen([*AS_NOBODY, "sleep", "100"], env={**os.environ, "PAGESHARE_SOCKET": str(host.socket)})
    HERE.place.started.append(plain)
    good, _ = until(10, lambda: why(host, idle.pid) == ("others", "it offers nothing: it doesn't say MADV_MERGEABLE"), 0.2)
    must(good and [it["pid"] for it in host.status()["others"]] == [idle.pid], f"{host.status()}")
    if not is_there(QEMU):
        raise LeftOut(f"guests, since there is no {QEMU}", PACKAGES[QEMU])
    for number, (name, words, cause) in enumerate(NOT_SHARED):
        may_lock = name == "mem-lock=on"  # (only root may lock so much)
        made: Any = guest(number, host, work="none", mib=64, wrap=() if may_lock else AS_NOBODY, **words)
        good, _ = until(30, lambda: cause in why(host, made.pid)[1], 0.2)
        found = why(host, made.pid)
        print(f"  {name}, {found[0]}: {found[1]}")
        must(good, f"{name}: {found}; {host.status()}")
        table = subprocess.run([HERE.host, "--status", host.socket], capture_output=True, text=True).stdout
        must("shares nothing" in table and found[1] in table, table)
        made.kill()
    idle.kill()
    host.stop()


def processor_ns(host: Host, pid: int) -> int:
    return int(client(host, pid).get("client_processor_nanoseconds_total", 0))


def case_pause_guests() -> None:
    """A QEMU guest is paused while it works and shares again; its thread takes 1 % of a processor beside its share meanwhile."""
    host = Host()
    made = guests(2, host)
    settle(host, made)
    lent_mib, begun, spent = client(host, made[0].pid)["client_lent_bytes"] / (1 << 20), time.time(), processor_ns(host, made[0].pid)
    paused = ask("pause", made[0].pid)
    took, spent = time.time() - begun, processor_ns(host, made[0].pid) - spent
    print(f"  {lent_mib:.1f} MiB came home in {took:.1f} s; its thread took {spent / 1e7 / took:.1f} % of a processor")
    must(paused.returncode in (0, LATE), f"{paused}")
    good, _ = until(300, lambda: is_paused(host, made[0].pid), 0.5)
    must(good, f"{host.status()}")
    go_on(made)
    must(ask("resume", made[0].pid).returncode == 0, "it doesn't share again")
    print(f"  shared again after {settle(host, made):.0f} s")
    go_on(made)
    for it in made:
        it.kill()
    all_released(host)
    host.stop()
