"""Cases that measure: what is saved and what it costs, beside the kernel's KSM; the price of a write; the picture."""
from __future__ import annotations

import atexit
import json
import os
import pathlib
import subprocess
import time
import types
from collections.abc import Sequence
from typing import Any

import figure as figures
from places import AS_NOBODY, HERE, OUT, Host, LeftOut, compile_c, must, preloaded
from qemu_guests import PAGE, Guest, distinct, read
from running_guests import GUESTS, guest, guests, right, show

KSM = pathlib.Path("/sys/kernel/mm/ksm")
# How much the guests hold, in pages, after so many seconds.
Series = list[tuple[float, int]]


def held(made: Sequence[Guest], host: Host | None) -> int:
    """The guests' RAM as the system holds it, in pages: private ones, and the frames."""
    ram = [it.ram() for it in made]
    frames = int(host.status()["frame_bytes"]) // PAGE if host else 0
    return sum(it["pss"] if not host else it["anonymous"] for it in ram) + frames


def dump(made: Sequence[Guest]) -> dict[str, int]:
    """How many different contents the guests' RAM has now. The guests stop."""
    paths = []
    for it in made:
        path = HERE.place.room / f"dump{it.number}"
        it.qmp().do("stop")
        answer = it.qmp().do("pmemsave", val=0, size=it.mib << 20, filename=str(path))
        must("return" in answer, str(answer))
        paths.append(path)
    found = distinct(paths)
    for path in paths:
        path.unlink()
    return found


def settled_after(series: Series) -> float:
    """The seconds until 95 % of what is saved in the end."""
    begin, end = series[0][1], series[-1][1]
    for seconds, pages in series:
        if begin - pages >= 0.95 * (begin - end):
            return seconds
    return series[-1][0]


def held_about(made: Sequence[Guest], host: Host | None) -> int:
    """The same by counts of the system that cost nothing, where the guests share by the host."""
    return sum(it.anonymous() - it.beside for it in made) + int(host.status()["frame_bytes"]) // PAGE if host else held(made, host)


def watch(made: Sequence[Guest], host: Host | None, seconds: float) -> Series:
    begin, series = time.time(), [(0.0, held_about(made, host))]
    while time.time() - begin < seconds:
        time.sleep(0.5 if host else 1)
        series.append((time.time() - begin, held_about(made, host)))
    return series


def share(count: int, seconds: float) -> dict[str, Any]:
    """The table's rows of guests that share by the host, whose frames may take a third of the guests' memory."""
    host = Host(memory=f"{count * 256 // 3}M")
    host.kill()  # (guests boot without it: what they hold before is then known)
    made = [it.remember_ram() for it in guests(count, host)]
    before = sum(it.ram()["anonymous"] for it in made)
    host.start()
    series = watch(made, host, seconds)
    processor, begin = [it.counts()["processor_ns"] for it in made], time.time()
    host_before = host.status()["processor_nanoseconds_total"]
    time.sleep(20)
    lasted = time.time() - begin
    used = [(it.counts()["processor_ns"] - past) / lasted / 1e7 for it, past in zip(made, processor)]
    host_used = (host.status()["processor_nanoseconds_total"] - host_before) / lasted / 1e7
    counts = [it.counts() for it in made]  # (before the system is asked, which holds up who maps memory in the guests' processes)
    end, state = held(made, host), host.status()
    right(made)
    bound = dump(made)
    series[0] = (0.0, before)
    result = {
        "before": before, "end": end, "distinct": bound["distinct"], "saved_percent": 100 * (before - end) / (before - bound["distinct"]),
        "seconds_to_95": settled_after(series), "client_percent": used, "host_percent": host_used,
        "hold_most_ms": max(it["hold_most_ns"] for it in counts) / 1e6,
        "tables_percent": 100 * (sum(it["table_bytes"] for it in counts) + state["host_bytes"]) / (count * (made[0].mib << 20)),
        "alone_percent": 100 * (1 - state["shared_bytes"] / max(1, state["lent_bytes"])),
        "mappings": [it["mappings"] for it in counts], "wrong": sum(it.wrong() for it in made),
    }
    show(host, made, "settled")
    HERE.place.clean()
    return result


def set_ksm(**numbers: object) -> None:
    for name, number in numbers.items():
        (KSM / name).write_text(str(number))


def ksm_rows(count: int, seconds: float) -> dict[str, dict[str, Any]]:
    """The same guests under the kernel's KSM, at its defaults and at 1,000 pages each 20 ms."""
    if os.environ.get("KSM") == "0" or not (KSM / "run").exists():
        raise LeftOut("the kernel's KSM")
    kept = {name: read(KSM / name).strip() for name in ("pages_to_scan", "sleep_millisecs", "use_zero_pages", "run") if (KSM / name).exists()}

    def put_back() -> None:
        set_ksm(run=2)
        set_ksm(**kept)

    atexit.register(put_back)
    rows = {}
    try:
        for pages in (100, 1000):
            made = [it.remember_ram() for it in guests(count)]
            before = sum(it.ram()["anonymous"] for it in made)
            set_ksm(pages_to_scan=pages, sleep_millisecs=20, run=1)
            series = watch(made, None, seconds)
            end = held(made, None)
            right(made)
            bound = dump(made)
            series[0] = (0.0, before)
            rows[f"KSM {pages}"] = {"before": before, "end": end, "distinct": bound["distinct"], "seconds_to_95": settled_after(series),
                                    "saved_percent": 100 * (before - end) / (before - bound["distinct"])}
            set_ksm(run=2)
            HERE.place.clean()
            set_ksm(run=0)
    finally:
        put_back()
        atexit.unregister(put_back)
    return rows


def case_memory() -> None:
    """The table of goals: guests that share by the host, beside the same under KSM."""
    seconds = int(os.environ.get("SECONDS", "45"))
    row = share(GUESTS, seconds)
    rows = {"host": row}
    try:
        rows.update(ksm_rows(GUESTS, seconds))
    except (LeftOut, RuntimeError) as cause:
        print(f"  left out: {cause}")
    print(f"  {'':10} {'pages before':>13} {'end':>8} {'distinct':>9} {'saved of bound':>15} {'s to 95 %':>10}")
    for name, it in rows.items():
        print(f"  {name:10} {it['before']:13} {it['end']:8} {it['distinct']:9} {it['saved_percent']:13.1f} % {it['seconds_to_95']:10.1f}")
    print(f"  a client's thread {['%.2f' % it for it in row['client_percent']]} % of a processor, the host's {row['host_percent']:.2f} %; "
          f"longest hold {row['hold_most_ms']:.1f} ms; tables {row['tables_percent']:.2f} % of windows; "
          f"lent and shared by nobody {row['alone_percent']:.1f} %; mappings {row['mappings']}")
    (OUT / "memory.json").write_text(json.dumps(rows, indent=1))
    must(row["saved_percent"] >= 90, f"saved {row['saved_percent']:.1f} % of the bound")


def longest_below(held: Sequence[int], part: float) -> int:
    """The bound below which that part of the pages was held, in microseconds."""
    left = sum(held) * (1 - part)
    for step in range(len(held) - 1, 0, -1):
        left -= held[step]
        if left < 0:
            return 1 << step
    return 1


def case_holds() -> None:
    """How long pages are held: on this computer as it is, and beside a busy loop, two and four of them for each processor."""
    program, seconds = compile_c("stress"), "5" if HERE.is_short else "20"
    for loops in (0, 1, 2, 4):
        host = Host(memory="256M")
        busy = [subprocess.Popen([*AS_NOBODY, "sh", "-c", "while :; do :; done"]) for _ in range(loops * (os.cpu_count() or 1))]
        HERE.place.started += busy
        counts = [HERE.place.room / f"holds{number}" for number in range(2)]
        ran = [subprocess.Popen([*AS_NOBODY, program, seconds, "48", "1"], env=preloaded(host, {"PAGESHARE_COUNTS": str(it)}),
                                text=True, stdout=subprocess.PIPE) for it in counts]
        said = [it.communicate(timeout=200)[0] for it in ran]
        must(all(it.returncode == 0 for it in ran), f"{said}")
        read_counts = [json.loads(read(it)) for it in counts]
        held = [sum(it) for it in zip(*[it["held"] for it in read_counts])]
        longest = max(it["hold_most_ns"] for it in read_counts) / 1e6
        print(f"  {loops} loops for each processor, load {os.getloadavg()[0]:.1f}: {sum(held)} pages held; half of them for less than "
              f"{longest_below(held, 0.5)} us, 99.9 % {longest_below(held, 0.999)} us, all but one in 100,000 "
              f"{longest_below(held, 0.99999)} us; the longest {longest:.2f} ms", flush=True)
        HERE.place.clean()


def case_price() -> None:
    """The price of the first write to a shared page: lent, merged by KSM, and its own."""
    program, host = compile_c("price", "benches/host"), Host(memory="256M")
    counts = HERE.place.room / "price.json"
    lines = []
    more = {"PAGESHARE_PERIOD_MS": "200", "PAGESHARE_COUNTS": str(counts)}
    for turn in range(3):
        for kind, words in (("own", None), ("lent", preloaded(host, more))):
            ran = subprocess.run([*AS_NOBODY, program, kind, "40"], capture_output=True, text=True, env=words)
            lines.append(ran.stdout.strip())
            must(ran.returncode == 0, str(ran))
    if (KSM / "run").exists() and os.environ.get("KSM") != "0" and not HERE.is_short:
        kept = {name: read(KSM / name).strip() for name in ("pages_to_scan", "sleep_millisecs", "run")}
        try:
            set_ksm(pages_to_scan=5000, sleep_millisecs=20, run=1)
            lines += [subprocess.run([*AS_NOBODY, program, "merged", "60"], capture_output=True, text=True).stdout.strip() for _ in range(3)]
        finally:
            set_ksm(run=2)
            set_ksm(**kept)
    for line in lines:
        print("  " + line)
    must(any(line.startswith("lent shared 8") for line in lines), "pages weren't lent")


def case_figure() -> None:
    """1 to 8 equal guests of 128 MiB, idle and at work: how much of their memory is shared and reclaimed. A table and a picture.

    Pages of zeros that were given back are among both."""
    most = int(os.environ.get("GUESTS", "8"))
    rows: list[figures.Row] = []
    HERE.place.guests_possible()
    for work in ("idle", "busy"):
        host = Host()
        # Each guest has a name of its own for the socket, which is there only when its turn has come.
        links = [HERE.place.room / f"{work}{number}.sock" for number in range(most)]
        made = [guest(number, types.SimpleNamespace(socket=link), mib=128, work=work, own=4, initrd=HERE.place.small_initrd) for number, link in enumerate(links)]
        for it in made:
            it.wait(600)
        for count, link in enumerate(links, 1):
            link.symlink_to(host.socket)
            wait_until_still(host, count)
            state, whole = host.status(), count * (128 << 20)
            zeros = sum(it.counts().get("zeros_now", 0) for it in made[:count]) * PAGE
            parts = [100 * it / whole for it in (state["shared_bytes"] + zeros, state["reclaimed_bytes"] + zeros, zeros)]
            rows.append((work, count, parts[0], parts[1], parts[2]))
            print(f"  {work} {count} guests: shared {parts[0]:.1f} %, reclaimed {parts[1]:.1f} %, of both {parts[2]:.1f} % zeros", flush=True)
        right(made)
        HERE.place.clean()
    table = "work\tguests\tshared_percent\treclaimed_percent\tzeros_percent\n"
    for work, count, *parts in rows:
        table += "\t".join([work, str(count), *[f"{it:.1f}" for it in parts]]) + "\n"
    (OUT / "figure.tsv").write_text(table)
    figures.draw(rows, OUT / "host.svg")
    print(f"  {OUT / 'figure.tsv'}, {OUT / 'host.svg'}")


def wait_until_still(host: Host, clients: int, seconds: float = 60) -> None:
    """Until so many clients share, and what is reclaimed grows no more."""
    before, begin = -1, time.time()
    while time.time() - begin < seconds:
        time.sleep(5)
        state = host.status()
        is_still = state["clients"] == clients and abs(state["reclaimed_bytes"] - before) < 1 << 20
        if is_still and time.time() - begin > 18:
            return
        before = state["reclaimed_bytes"]
