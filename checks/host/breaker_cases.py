"""Cases of programs that do all that a monitor may do of its memory, beside a shadow of each byte."""
from __future__ import annotations

import json
import os
import pathlib
import re
import signal
import subprocess
import time
from collections.abc import Callable, Iterable, Mapping, Sequence

from harness import StrPath
from places import AS_NOBODY, CC, FLAGS, HERE, TOP, Host, LeftOut, all_released, build_library, compile_shim, in_time, must, preloaded

BESIDE = 4  # so many run at once, with contents that others have, too
HUGE = ("--huge", "--pages", "1536")
WAYS = (
    (), HUGE, ("--direct",), (*HUGE, "--direct"), ("--devices",), (*HUGE, "--devices"), ("--direct", "--devices"), HUGE,
)
# Where the range may be huge pages, parts of it are split and become whole at once; and how many pages that could be shared split one.
HUGE_FROM = ("64", "400", "200", "512")
SANITIZE = ["-fsanitize=address,undefined", "-fno-sanitize-recover=all"]


def compile_folder(name: str, more: Sequence[StrPath] = ()) -> pathlib.Path:
    """Compiles the C program of a folder beside this file, with some more sources."""
    program = HERE.place.room / name
    found = [*sorted((TOP / "checks/host" / name).glob("*.c")), *more]
    must(subprocess.run([CC, *FLAGS, "-o", program, *found]).returncode == 0, f"{name}/ doesn't compile")
    return program


def sanitized() -> dict[str, str]:
    """What is preloaded for a library that is built with the sanitizers of addresses and undefined behaviour."""
    library = HERE.place.room / "sanitized" / HERE.library.name
    if not build_library(library, *SANITIZE):
        raise LeftOut(f"{CC} doesn't build with {SANITIZE[0]}")
    first = subprocess.run([CC, "-print-file-name=libasan.so"], capture_output=True, text=True, check=True).stdout.strip()
    return {"LD_PRELOAD": f"{first} {library}", "ASAN_OPTIONS": "detect_leaks=0"}


def start_breaker(
    program: StrPath, host: Host, seed: int, seconds: int, words: Sequence[str] = (), more: Mapping[str, str] | tuple[()] = (),
) -> tuple[int, subprocess.Popen[str]]:
    counts = HERE.place.room / f"breaker-{seed}.json"
    way, huge = WAYS[seed % len(WAYS)], {}
    if "--huge" in way:
        huge = {"PAGESHARE_HASTY": "1", "PAGESHARE_HUGE": HUGE_FROM[seed // 2 % len(HUGE_FROM)]}
    all_words = [*AS_NOBODY, program, "--seed", str(seed), "--seconds", str(seconds), *way, *words]
    env = preloaded(host, {"PAGESHARE_PERIOD_MS": "50", "PAGESHARE_CPU": "100", "PAGESHARE_COUNTS": str(counts), **huge, **dict(more)})
    return seed, subprocess.Popen(all_words, env=env, text=True, stdout=subprocess.PIPE, stderr=subprocess.STDOUT)


def end_breakers(ran: Iterable[tuple[int, subprocess.Popen[str]]], seconds: float) -> list[str]:
    """Waits for breakers. Answers all that each said."""
    said = [(seed, it, it.communicate(timeout=seconds + 120)[0]) for seed, it in ran]
    for seed, it, text in said:
        must(it.returncode == 0 and "Sanitizer" not in text, f"seed {seed}: status {it.returncode}: {text[-3000:]}")
        print(f"  {re.findall('seed .* wrong [0-9]+', text)[0]}", flush=True)
    return [text for _, _, text in said]


def number_after(word: str, text: str) -> int:
    """The last number behind a word."""
    found = re.findall(rf"\b{word} (-?\d+)", text)
    return int(found[-1]) if found else 0


def in_fours(
    program: StrPath, host: Host, seeds: Sequence[int], seconds: int, words: Sequence[str] = (),
    more: Callable[[int], dict[str, str]] = lambda seed: {},
) -> list[str]:
    """Breakers for these seeds, some at once. Answers all that each said."""
    said = []
    for first in range(0, len(seeds), BESIDE):
        said += end_breakers([start_breaker(program, host, it, seconds, words, more(it)) for it in seeds[first:first + BESIDE]], seconds)
    return said


def case_breaker() -> None:
    """Random calls of a monitor on parts of its memory, beside a shadow of each byte: SEEDS=N seeds, SANITIZE=1 with sanitizers."""
    program, host = compile_folder("breaker"), Host(memory="256M")
    seeds, seconds = int(os.environ.get("SEEDS", "8")), int(os.environ.get("SECONDS", "12"))
    env = sanitized() if os.environ.get("SANITIZE") == "1" else {}
    said = in_fours(program, host, range(seeds), seconds, more=lambda _: env)
    in_time(sum(number_after("lends", text) for text in said) > 0, "nothing was lent")
    splits, wholes = (sum(number_after(word, text) for text in said) for word in ("splits", "made_whole"))
    print(f"  {splits} parts split, {wholes} times whole again")
    all_released(host)
    host.stop()


def case_breaker_restarts() -> None:
    """The same while the host is killed, stopped and started anew."""
    program, host, seconds = compile_folder("breaker"), Host(memory="256M"), int(os.environ.get("SECONDS", "20"))
    ran = [start_breaker(program, host, seed, seconds) for seed in range(1, BESIDE + 1)]
    end, turn = time.time() + seconds - 2, 0
    while time.time() < end:
        time.sleep(1.7 + 0.3 * (turn % 5))
        turn += 1
        if turn % 3 == 2:
            host.signal(signal.SIGSTOP)
            time.sleep(1.5)
            host.signal(signal.SIGCONT)
        else:
            host.kill()
            time.sleep(0.2 * (turn % 4))
            host.start()
    end_breakers(ran, seconds)
    all_released(host)
    host.stop()


REFUSE_EACH = 61  # (a prime, so that calls that come again and again are refused in turn)


def case_refusals() -> None:
    """Each call of the system by the library is refused in turn, and each 61st one after it: SEEDS=N first ones."""
    program, host = compile_folder("breaker"), Host(memory="256M")
    before, behind = compile_shim("refuse_in_monitor"), compile_shim("refuse_syscalls")
    firsts, seconds = int(os.environ.get("SEEDS", "16")), int(os.environ.get("SECONDS", "6"))

    def refuse(seed: int, filter_is_on: str = "0") -> dict[str, str]:
        return {"LD_PRELOAD": f"{before} {HERE.library} {behind}", "REFUSE_FIRST": str(seed), "REFUSE_EACH": str(REFUSE_EACH),
                "PAGESHARE_FILTER": filter_is_on}

    said = in_fours(program, host, range(1, firsts + 1), seconds, ("--refusals",), refuse)
    said += in_fours(program, host, range(1, firsts // 2 + 1), seconds, ("--refusals",), lambda seed: refuse(seed, "1"))
    calls, refused, lends = (sum(number_after(word, text) for text in said) for word in ("calls", "refused", "lends"))
    print(f"  {calls} calls of the library, {refused} of them refused, {lends} pages lent")
    must(refused >= firsts and lends > 0, "nothing was refused, or nothing lent")
    all_released(host)
    host.stop()


STORMS = (("4", "leave"), ("4", "direct", "leave", "huge"), ("3", "direct", "devices", "leave"), ("4", "huge"))


def case_storm() -> None:
    """Four busy monitors: writers, discards, forks, parts that leave, reads by O_DIRECT and io_uring, signals: SECONDS=N, SANITIZE=1."""
    program, host, seconds = HERE.place.room / "storm", Host(memory="256M"), os.environ.get("SECONDS", "12")
    found = [TOP / "checks/host/storm.c", TOP / "checks/host/breaker/ring.c"]
    must(subprocess.run([CC, *FLAGS, "-o", program, *found]).returncode == 0, "storm.c doesn't compile")
    ran, first = [], sanitized() if os.environ.get("SANITIZE") == "1" else {}
    for number, words in enumerate(STORMS):
        more = first | {"PAGESHARE_PERIOD_MS": "50", "PAGESHARE_CPU": "100", "PAGESHARE_COUNTS": str(HERE.place.room / f"storm{number}.json")}
        more |= {"PAGESHARE_HASTY": "1", "PAGESHARE_HUGE": "400"} if "huge" in words else {}
        ran.append(subprocess.Popen([*AS_NOBODY, program, seconds, "32", *words], env=preloaded(host, more), text=True, stdout=subprocess.PIPE,
                                    stderr=subprocess.STDOUT))
    time.sleep(int(seconds) * 0.7)
    lends = host.status()["lent_pages_total"]
    said = [it.communicate(timeout=int(seconds) + 120)[0] for it in ran]
    for number, (words, text) in enumerate(zip(STORMS, said)):
        counts = json.loads((HERE.place.room / f"storm{number}.json").read_text())
        parts = f"; {counts['splits']} parts split, {counts['made_whole']} whole again" if "huge" in words else ""
        print(f"  {' '.join(words[1:])}: {text.splitlines()[-1]}{parts}")
    must(all(it.returncode == 0 for it in ran) and "Sanitizer" not in "".join(said), f"statuses {[it.returncode for it in ran]}: " + "\n".join(it[-1000:] for it in said))
    in_time(lends > 0, f"nothing was lent: {said}")
    all_released(host)
    host.stop()
