"""Cases of memory that others than the monitor's processors reach, by random ways and many at a time: checks/host/reach/."""
from __future__ import annotations

import fcntl
import os
import re
import signal
import subprocess
import time
from collections.abc import Mapping, Sequence

import hostile
from breaker_cases import BESIDE, compile_folder, number_after, sanitized
from file_cases import BIND, PREFERRED, bind, map_frames
from harness import StrPath
from places import AS_NOBODY, HERE, NOBODY, TOP, Host, all_released, in_time, must, preloaded
from raw_client import RawClient


def disturbs(path: str) -> None:
    """A client that sets flags of its open file of frames, and memory policies of all frames, again and again."""
    while True:
        try:
            client = RawClient(path)
            at = map_frames(client)
            for turn in range(40):
                fcntl.fcntl(client.file, fcntl.F_SETFL, os.O_DIRECT if turn % 2 else os.O_NONBLOCK)
                bind(at, client.frames, BIND if turn % 2 else PREFERRED)
                time.sleep(0.02)
            client.close()
        except OSError:  # (the host is being started anew)
            time.sleep(0.1)


HOW = ("names", "instructions", "numbers")  # (calls are made)


def start_reach(program: StrPath, host: Host, seed: int, seconds: int, more: Mapping[str, str]) -> subprocess.Popen[str]:
    way = HOW[seed % len(HOW)]
    env = {"PAGESHARE_PERIOD_MS": "20", "PAGESHARE_CPU": "100", "PAGESHARE_COUNTS": str(HERE.place.room / f"reach{seed}.json"),
           "PAGESHARE_FILTER": "1" if way == "instructions" else "0"}
    words = [*AS_NOBODY, program, str(seed), str(seconds), way]
    return subprocess.Popen(words, env=preloaded(host, env | dict(more)), text=True, stdout=subprocess.PIPE, stderr=subprocess.STDOUT)


def some_at_once(program: StrPath, host: Host, seeds: Sequence[int], seconds: int, more: Mapping[str, str]) -> int:
    """Runs some at once, in the middle of which the host is killed and started anew if it is their turn. Returns how many pages were lent."""
    ran = [(seed, start_reach(program, host, seed, seconds, more)) for seed in seeds]
    if seeds[0] // BESIDE % 2:
        time.sleep(seconds * 0.6)
        host.kill()
        host.start()
    lends = 0
    for seed, it in ran:
        said = it.communicate(timeout=seconds + 150)[0]
        must(it.returncode == 0 and "Sanitizer" not in said, f"seed {seed}: status {it.returncode}: {said[-3000:]}")
        print(f"  {re.findall('seed .*', said)[0]}", flush=True)
        lends += max(0, number_after("lends", said))
    return lends


def case_reach() -> None:
    """Disks, rings, watches, policies and forks by chance, many at once, beside a shadow of each byte and a client that disturbs: SEEDS=N, SECONDS=N."""
    program, host = compile_folder("reach", [TOP / "checks/host/breaker/ring.c"]), Host(memory="64M")
    first, seeds, seconds = int(os.environ.get("SEED", "0")), int(os.environ.get("SEEDS", "8")), int(os.environ.get("SECONDS", "8"))
    more = sanitized() if os.environ.get("SANITIZE") == "1" else {}
    attacker = hostile.in_child(NOBODY, disturbs, str(host.socket))
    try:
        lends = sum(some_at_once(program, host, range(first + at, first + min(at + BESIDE, seeds)), seconds, more) for at in range(0, seeds, BESIDE))
    finally:
        os.kill(attacker, signal.SIGKILL)
        hostile.wait(attacker)
    in_time(lends > 0, "nothing was lent")
    all_released(host)
    host.stop()
