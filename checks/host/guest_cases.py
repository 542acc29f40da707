"""Cases with guests: what ends, and what monitors do with their guests' memory."""
from __future__ import annotations

import os
import pathlib
import re
import signal
import subprocess
import time
from typing import Any

from driven_guest import HALTS, Driven
from harness import PACKAGES
from places import AS_NOBODY, HERE, Host, LeftOut, all_released, compile_shim, in_time, must, until
from qemu_guests import PAGE, QEMU, Debugger, Guest, is_there, read
from running_guests import GUESTS, go_on, guest, guests, lent, right, settle, show


def case_ends() -> None:
    """The host killed and started anew, stopped and continued; a QEMU killed; all while guests work."""
    host = Host()
    made = guests(2, host)
    print(f"  settled after {settle(host, made):.0f} s")
    show(host, made, "settled")
    host.kill()
    go_on(made)
    host.start()
    took = settle(host, made)
    show(host, made, f"a new host, settled after {took:.0f} s")
    host.signal(signal.SIGSTOP)
    go_on(made)
    host.signal(signal.SIGCONT)
    go_on(made)
    show(host, made, "the host stopped and continued")
    before = host.status()["lent_bytes"]
    made[0].kill()
    good, took = until(20, lambda: host.status()["clients"] == 1 and host.status()["lent_bytes"] < before, 0.1)
    must(good, f"a killed QEMU's pages are lent still: {host.status()}")
    print(f"  a killed QEMU's pages were released after {took:.1f} s")
    go_on(made[1:])
    made[1].kill()
    all_released(host)
    host.stop()


def case_balloon() -> None:
    """A balloon takes memory from a guest, and gives it back."""
    host = Host()
    made = guests(2, host)
    settle(host, made)
    made[0].qmp().do("balloon", value=190 << 20)
    good, _ = until(60, lambda: made[0].qmp().do("query-balloon")["return"]["actual"] <= 192 << 20)
    must(good, f"{made[0].qmp().do('query-balloon')}")
    go_on(made)
    made[0].qmp().do("balloon", value=256 << 20)
    go_on(made, 4)
    show(host, made, f"inflated and deflated, discarded {made[0].counts().get('discarded')} pages")
    must(made[0].counts().get("discarded", 0) > 1000, "the balloon discarded nothing in the window")


def case_snapshot() -> None:
    """savevm and loadvm, and the guest goes on and shares again."""
    host, disk = Host(), HERE.place.room / "snapshot.qcow2"
    HERE.place.guests_possible()
    subprocess.run(["qemu-img", "create", "-q", "-f", "qcow2", disk, "64M"], check=True)
    os.chmod(disk, 0o666)
    more = ["-drive", f"file={disk},if=none,id=d", "-device", "virtio-blk-pci,drive=d"]
    made = [guest(0, host, more=more), guest(1, host)]
    for it in made:
        it.wait()
    settle(host, made)
    for line in ("savevm a", "loadvm a"):
        answer = made[0].qmp().monitor(line)
        must(answer.get("return") == "", f"{line}: {answer}")
        go_on(made)
        show(host, made, line)
    print(f"  shares again after {settle(host, made):.0f} s")


def case_migration() -> None:
    """A guest is written to a file, and goes on in another process."""
    host, file = Host(), HERE.place.room / "migration"
    made = guests(2, host)
    settle(host, made)
    made[1].qmp().do("migrate", uri=f"exec:cat > {file}")
    good, _ = until(120, lambda: made[1].qmp().do("query-migrate")["return"].get("status") in ("completed", "failed"))
    must(good and made[1].qmp().do("query-migrate")["return"]["status"] == "completed", str(made[1].qmp().do("query-migrate")))
    ticks = made[1].ticks()
    made[1].kill()
    again = guest(1, host, more=["-incoming", f"exec:cat {file}"])
    must(until(120, lambda: again.ticks() > 1, 1)[0], f"the guest stands still after {ticks} rounds: {read(again.log)[-300:]}")
    settle(host, [made[0], again])
    go_on([made[0], again])
    show(host, [made[0], again], "in another process")


MIB_OF_POSTCOPY, KNOWN_AT, KNOWN_PAGES, BELOW = 64, 16 << 20, 10240, 1 << 20


def known_page(number: int) -> bytes:
    """Of eight pages five are zeros, one is there ten times in all, and two by themselves."""
    kind = number % 8
    word = 0 if kind < 5 else number % 1024 + 1 if kind == 5 else number + 10000
    return word.to_bytes(8, "little") * (PAGE // 8)


def postcopy_guest(number: int, host: Host | None, more: list[str]) -> Guest:
    fast = {"PAGESHARE_PERIOD_MS": "50", "PAGESHARE_CPU": "100"}
    made = guest(number, host, mib=MIB_OF_POSTCOPY, work="none", more=more, environment=fast, wrap=[])
    must(until(30, made.monitor.exists, 0.1)[0], f"QEMU doesn't begin: {read(made.log)[-300:]}")
    made.qmp().socket.settimeout(30)
    answer = made.qmp().do("migrate-set-capabilities", capabilities=[{"capability": "postcopy-ram", "state": True}])
    if "error" in answer:
        raise LeftOut(f"postcopy: {answer['error']['desc']}")
    return made


def pages_of(made: Guest) -> list[bytes]:
    """The guest's memory, but for what its firmware goes on writing to."""
    path = HERE.place.room / f"memory{made.number}"
    path.unlink(missing_ok=True)  # (that of a QEMU of another user)
    answer = made.qmp().do("pmemsave", val=0, size=MIB_OF_POSTCOPY << 20, filename=str(path))
    must(answer.get("return") == {}, str(answer))
    data = path.read_bytes()
    return [data[at:at + PAGE] for at in range(BELOW, len(data), PAGE)]


def case_postcopy() -> None:
    """A postcopy after some seconds of precopy: zeros that were given back become others or stay, and every page is compared."""
    if not is_there(QEMU):
        raise LeftOut(f"there is no {QEMU}", PACKAGES[QEMU])
    host, socket = Host("--trust-peers"), HERE.place.room / "migration"  # (as root: QEMU asks for a userfaultfd that holds up the kernel, too)
    known, debugged = HERE.place.room / "known", HERE.place.room / "debugged"
    known.write_bytes(b"".join(known_page(number) for number in range(KNOWN_PAGES)))
    source = postcopy_guest(0, None, ["-device", f"loader,file={known},addr={KNOWN_AT:#x},force-raw=on", "-gdb", f"unix:{debugged},server,nowait"])
    target = postcopy_guest(1, host, ["-incoming", "defer"])
    time.sleep(2)
    source.qmp().do("migrate-set-parameters", **{"max-bandwidth": 2 << 20})
    target.qmp().do("migrate-incoming", uri=f"unix:{socket}")
    source.qmp().do("migrate", uri=f"unix:{socket}")
    given_back = KNOWN_PAGES // 4
    good, _ = until(40, lambda: target.counts().get("zeros_now", 0) > given_back, 0.2)
    status = source.qmp().do("query-migrate")["return"]["status"]
    must(good and status == "active", f"{target.counts().get('zeros_now')} pages were given back, the migration is {status}")
    debugger = Debugger(debugged)
    for number in range(0, KNOWN_PAGES, 16):
        debugger.write(KNOWN_AT + number * PAGE, b"\xa5" * 8)
    debugger.close()
    must(source.qmp().do("migrate-start-postcopy").get("return") == {}, "the postcopy doesn't begin")
    good, took = until(60, lambda: source.qmp().do("query-migrate")["return"]["status"] in ("completed", "failed", "postcopy-paused"), 0.2)
    state = source.qmp().do("query-migrate")["return"]
    must(good and state["status"] == "completed", f"{read(target.log)[-600:]} {state}")
    pairs = list(zip(pages_of(source), pages_of(target)))
    wrong = [number for number, (one, other) in enumerate(pairs) if one != other]
    must(not wrong, f"{len(wrong)} of {len(pairs)} pages differ, such as {wrong[:5]}")
    must(sum(page[:8] == b"\xa5" * 8 for _, page in pairs) == KNOWN_PAGES // 16, "pages were written that didn't arrive")
    print(f"  completed after {took:.1f} s, requests {state['ram'].get('postcopy-requests')}; {len(pairs)} pages compared; {target.said()}")
    good, took = until(60, lambda: target.counts().get("lent", 0) > KNOWN_PAGES // 16, 0.2)
    must(good, f"lending doesn't go on: {target.counts()}")
    print(f"  shares {target.counts()['lent']} pages {took:.1f} s later")
    must(not any(one != other for one, other in zip(pages_of(source), pages_of(target))), "pages differ afterwards")
    for it in (source, target):
        it.kill()
    all_released(host)
    host.stop()


# ---- the limit of mappings ----

# What the library is told of the kernel's limit, of which it leaves 4,000 to the monitor; and pages of which each second one is cleared.
TOLD_LIMIT, MOST_MAPPINGS, CUT_PAGES = 12000, 8000, 12000
# Up to here the process is given so many mappings of its own that the kernel's limit is what the library is told.
REAL_LIMIT_MOST = 1 << 17


def told(limit: int) -> list[str]:
    """What stands before a command that is to read another limit of mappings."""
    said = HERE.place.room / "max_map_count"
    said.write_text(f"{limit}\n", encoding="ascii")
    mount = f'mount --bind {said} /proc/sys/vm/max_map_count && exec "$@"'
    if subprocess.run(["unshare", "-m", "sh", "-c", mount, "sh", "true"], capture_output=True).returncode != 0:
        raise LeftOut("another limit of mappings, since a file can't be mounted over the kernel's")
    return ["unshare", "-m", "sh", "-c", mount, "sh"]


def clear_each_second(made: Guest, pages: list[bytes]) -> None:
    """Clears each second page of known ones, as the guest's processor would."""
    begin = int(str(made.qmp().monitor(f"gpa2hva {KNOWN_AT:#x}")["return"]).rsplit(" ", 1)[-1], 16)
    with open(f"/proc/{made.pid}/mem", "r+b", buffering=0) as memory:
        for number in range(0, len(pages), 2):
            memory.seek(begin + number * PAGE)
            memory.write(bytes(PAGE))
            pages[number] = bytes(PAGE)


def mappings(made: Guest) -> int:
    return int(made.counts().get("mappings", 0))


def case_mappings() -> None:
    """A guest clears each second of its shared pages: QEMU keeps mappings for itself, and makes threads for a migration."""
    if not is_there(QEMU):
        raise LeftOut(f"there is no {QEMU}", PACKAGES[QEMU])
    limit = int(read("/proc/sys/vm/max_map_count") or 65530)
    own, host = limit - TOLD_LIMIT if limit <= REAL_LIMIT_MOST else 0, Host()
    pattern, firmware = HERE.place.room / "pattern", HERE.place.room / "firmware"
    firmware.write_bytes(HALTS)
    pages = [(number % (CUT_PAGES // 2) + 1).to_bytes(8, "little") * (PAGE // 8) for number in range(CUT_PAGES)]
    pattern.write_bytes(b"".join(pages))
    preload = f"LD_PRELOAD={compile_shim('own_mappings')} {HERE.library}"
    made = guest(0, host, mib=MIB_OF_POSTCOPY, work="none", machine="pc", environment={"PAGESHARE_PERIOD_MS": "50", "PAGESHARE_CPU": "100"},
                 wrap=[*told(TOLD_LIMIT), *AS_NOBODY, "env", preload, f"OWN_MAPPINGS={own}"],
                 more=["-bios", str(firmware), "-device", f"loader,file={pattern},addr={KNOWN_AT:#x},force-raw=on"])
    good, took = until(60, lambda: lent([made])[0] >= CUT_PAGES - 200, 0.2)
    in_time(good, f"lent {lent([made])} of {CUT_PAGES}")
    before = mappings(made)
    clear_each_second(made, pages)
    until(10, lambda: mappings(made) > MOST_MAPPINGS * 3 // 4, 0.2)
    time.sleep(3)  # (so that they could go beyond)
    now = mappings(made)
    print(f"  lent after {took:.1f} s with {before} mappings; then {now}, of the process {read(f'/proc/{made.pid}/maps').count(chr(10))} of "
          f"{limit}, {own} of these its own")
    answer = made.qmp().do("migrate", uri=f"exec:cat > {HERE.place.room / 'saved'}")
    must(answer.get("return") == {}, f"migrate: {answer}")
    good, _ = until(60, lambda: made.qmp().do("query-migrate")["return"].get("status") in ("completed", "failed"), 0.2)
    must(good and made.qmp().do("query-migrate")["return"]["status"] == "completed", f"the migration failed: {read(made.log)[-600:]}")
    must(now <= MOST_MAPPINGS and made.counts().get("mappings_most") == MOST_MAPPINGS, f"too many mappings: {now}, {made.counts()}")
    in_time(now > MOST_MAPPINGS * 3 // 4, f"the limit isn't met: {made.counts()}")
    first, found = (KNOWN_AT - BELOW) // PAGE, pages_of(made)
    wrong = [number for number, page in enumerate(pages) if found[first + number] != page]
    must(not wrong, f"{len(wrong)} pages differ, such as {wrong[:5]}")
    made.kill()
    all_released(host)
    host.stop()


# ---- background snapshots ----

# A firmware whose processor writes the number of its round to each of these pages in turn, and takes its time for it.
ROUND_AT, ROUND_PAGES = 0x10000, 128
COUNTS = bytes.fromhex(
    "fa 31c0"            # cli; ax = 0
    "40 bb0010"          # each round: ax += 1; bx = 1000h
    "8edb a30000"        # each page: ds = bx; [0] = ax
    "ba2800"             # dx = 40
    "b90000 e2fe 4a 75f8"  # cx = 65536, and down; dx -= 1; again while it isn't 0
    "81c30001 81fb0090"  # bx += 100h; is it 9000h?
    "75e6 ebe0"          # the next page; the next round
)
ROUNDS = (bytes(0xFF00) + COUNTS).ljust(0xFFF0, b"\0") + b"\xe9\x0d\xff" + bytes(13)  # (it begins 16 bytes before the end)
MIB_OF_KNOWN = 16


def rounds_of(made: Driven, note: str) -> tuple[int, int]:
    """The round of the processor, which stands still, and how many pages of it are written. Its memory is as its registers say."""
    said = str(made.qmp.monitor("info registers")["return"])
    found = {name: int(value, 16) & 0xFFFF for name, value in re.findall(r"E(AX|BX)=([0-9a-f]{8})", said)}
    path = HERE.place.room / "rounds"
    made.qmp.good("pmemsave", val=ROUND_AT, size=ROUND_PAGES * PAGE, filename=str(path))
    data = path.read_bytes()
    numbers = [int.from_bytes(data[at:at + 2], "little") for at in range(0, len(data), PAGE)]
    written = numbers.count(found["AX"])
    due = [found["AX"]] * written + [found["AX"] - 1] * (ROUND_PAGES - written)
    must(numbers == due and abs(written - (found["BX"] - 0x1000) // 0x100) <= 1, f"{note}: {found}, {numbers}")
    return found["AX"], written


def possible(made: Driven, command: str, **words: Any) -> None:
    """What QEMU or the kernel may not be able to do."""
    answer = made.qmp.do(command, **words)
    if "error" in answer:
        raise LeftOut(f"background snapshots: {answer['error']['desc']}")


def guards(made: Driven) -> list[str]:
    """What the library says of a userfaultfd."""
    return [line for line in read(made.log).splitlines() if "userfaultfd" in line]


def case_background() -> None:
    """Lending goes on with the capability of background snapshots, stops while QEMU guards the memory for one, and goes on; each saved page is as it was."""
    if not is_there(QEMU):
        raise LeftOut(f"there is no {QEMU}", PACKAGES[QEMU])
    host, path, capability = Host("--trust-peers"), HERE.place.room / "background", {"capability": "background-snapshot", "state": True}
    source = Driven(0, host, [], [], firmware=ROUNDS)  # (as root: QEMU asks for a userfaultfd that holds up the kernel, too)
    for at in range(0, MIB_OF_KNOWN << 20, 1 << 20):
        source.store(BELOW + at, b"".join(known_page((at >> 12) + number) for number in range(256)))
    least = (MIB_OF_KNOWN << 20) // PAGE // 8 - 32  # (about those that occur often)
    in_time(until(60, lambda: source.counts().get("lent", 0) > least, 0.1)[0], f"not lent: {source.counts()}")
    possible(source, "migrate-set-capabilities", capabilities=[capability])
    time.sleep(1)
    must(not guards(source), f"the capability alone: {guards(source)}")
    in_time(source.counts()["lent"] > least, f"with the capability: {source.counts()}")
    due = bytearray(source.memory[0])
    source.qmp.after("RESUME", lambda: possible(source, "migrate", uri=slowly(path)))
    written = store_while_saving(source)
    state = finished(source)
    must(state["status"] == "completed", f"{state} {read(source.log)[-600:]}")
    target = Driven(1, None, ["-S"], [], f"exec:cat {path}", firmware=ROUNDS)
    must(until(60, lambda: target.qmp.good("query-status")["status"] in ("paused", "prelaunch"), 0.1)[0], read(target.log)[-600:])
    target.memory[0] = due
    target.check("what was saved")
    first = rounds_of(target, "what was saved")
    target.quit()
    must(until(20, lambda: len(guards(source)) == 2, 0.1)[0], f"{guards(source)}")
    must(" stops " in guards(source)[0] and " goes on " in guards(source)[1], f"{guards(source)}")
    good, took = until(60, lambda: source.counts().get("lent", 0) > least, 0.1)
    in_time(good, f"not lent again: {source.counts()}")
    source.qmp.good("stop")
    source.check("after the snapshot")
    last = rounds_of(source, "the guest")
    in_time(written > 30 and last > first, f"{written} stores while it was saved; rounds {first} to {last}")
    print(f"  {written} stores while it was saved, rounds and pages of the processor {first} to {last}; lends again after {took:.1f} s")
    source.quit()
    all_released(host)
    host.stop()


def slowly(path: pathlib.Path) -> str:
    """Where to save so that it takes some seconds. (QEMU knows no limit for background snapshots.)"""
    part = path.with_suffix(".part")
    return f"exec:while head -c 65536 >{part} && [ -s {part} ]; do cat {part} >>{path}; sleep 0.04; done"


def store_while_saving(source: Driven) -> int:
    """Stores to pages here and there while a migration is active. Returns how many stores."""
    count = 0
    for number in range(0, (MIB_OF_KNOWN << 20) // PAGE, 8):
        for page in (number + 7, number + 5, number):  # (one by itself, one of ten, one of zeros)
            source.store(BELOW + page * PAGE + number % 1024, b"\xa5" * 8)  # (what was equal is equal again)
        if source.qmp.good("query-migrate").get("status") != "active":
            return count
        count += 3
    return count


def finished(made: Driven) -> Any:
    """Waits for the end of a migration. Returns what QEMU says of it."""
    until(120, lambda: made.qmp.good("query-migrate").get("status") in ("completed", "failed"), 0.1)
    return made.qmp.good("query-migrate")


# ---- disks ----


def disk_case(aio: str, devices: int) -> None:
    host, made = Host(), []
    HERE.place.guests_possible()
    for number in range(2):
        disk = HERE.place.room / f"disk{number}"
        with open(disk, "wb") as file:
            file.truncate(32 << 20)
        os.chmod(disk, 0o666)
        more = ["-drive", f"file={disk},format=raw,if=none,id=d,cache=none,aio={aio}", "-device", "virtio-blk-pci,drive=d"]
        made.append(guest(number, host, more=more, work="disk"))
    for it in made:
        it.wait()
    said = [line for it in made for line in read(it.log).splitlines() if not line.startswith("pageshare:")]
    if any("O_DIRECT" in line for line in said):
        raise LeftOut("O_DIRECT on this file system")
    settle(host, made, 4000)
    go_on(made, 5)
    show(host, made, f"aio={aio}, devices {[it.counts().get('devices') for it in made]}")
    must(all(it.counts().get("devices") == devices for it in made), "O_DIRECT was noticed as something else")


# What the library's counts call descriptors (enum devices of host/devices.h).
SEEN_CALLS, PINS_UNSEEN = 1, 2


def case_threads() -> None:
    """A disk by O_DIRECT (aio=threads), written and read back by the guests."""
    disk_case("threads", SEEN_CALLS)


def case_direct() -> None:
    """The same by io_submit (aio=native)."""
    disk_case("native", PINS_UNSEEN)


def case_uring() -> None:
    """The same by io_uring."""
    disk_case("io_uring", PINS_UNSEEN)


def case_sandbox() -> None:
    """QEMU with its sandbox, all of it. (In all cases it runs as nobody.)"""
    host = Host()
    made = guests(2, host, more=["-sandbox", "on,obsolete=deny,elevateprivileges=deny,spawn=deny,resourcecontrol=deny"])
    settle(host, made)
    go_on(made)
    show(host, made, "-sandbox on")


def case_backends() -> None:
    """Kinds of memory: preallocated, memfd private and shared, and a QEMU that doesn't offer its memory."""
    kinds = {
        "prealloc": (["-object", "memory-backend-ram,id=m,size=256M,prealloc=on"], "q35,memory-backend=m", True),
        "memfd shared": (["-object", "memory-backend-memfd,id=m,size=256M,share=on"], "q35,memory-backend=m", False),
        "memfd private": (["-object", "memory-backend-memfd,id=m,size=256M,share=off"], "q35,memory-backend=m", False),
        "mem-merge=off": ([], "q35,mem-merge=off", False),
    }
    for name, (more, machine, shares) in kinds.items():
        host = Host()
        made = guests(2, host, more=more, machine=machine)
        if shares:
            settle(host, made)
        else:
            time.sleep(10)
            must(all(it < 2000 for it in lent(made)), f"{name}: lent {lent(made)}")
        go_on(made)
        show(host, made, name)
        HERE.place.clean()


def case_guests_of_kvm() -> None:
    """Guests under KVM, as root, since only root may use /dev/kvm everywhere."""
    host = Host("--trust-peers")
    if not os.access("/dev/kvm", os.R_OK | os.W_OK):
        raise LeftOut("/dev/kvm")
    HERE.place.guests_possible()
    made = [guest(number, host, accelerator="kvm", wrap=[]) for number in range(2)]
    try:
        for it in made:
            it.wait(120)
    except RuntimeError as cause:
        raise LeftOut(f"KVM doesn't run a guest here: {cause}") from cause
    settle(host, made)
    go_on(made, 4)
    show(host, made, "under KVM")


def case_locked() -> None:
    """QEMU locks its memory (mlockall): nothing is lent, and it runs."""
    host, wrap = Host("--trust-peers"), ["prlimit", "--memlock=unlimited", *AS_NOBODY]
    HERE.place.guests_possible()
    if subprocess.run([*wrap, "true"], capture_output=True).returncode != 0:
        wrap = []  # (root may not raise the limit, but perhaps lock memory beyond it)
    made = [guest(0, host, more=["-overcommit", "mem-lock=on"], wrap=wrap)]
    try:
        made[0].wait()
    except RuntimeError:
        if "locking memory failed" not in read(made[0].log):
            raise
        raise LeftOut("the right to lock memory") from None
    go_on(made, 1)
    time.sleep(5)
    must(lent(made) == [0], f"lent {lent(made)}")
    print(f"  {made[0].said()}")


def case_no_host() -> None:
    """No host at the socket: the guest runs as ever, and shares as soon as there is one."""
    host = Host()
    host.kill()
    made = guests(2, host)
    must(all(any("no host" in line for line in it.said()) for it in made), f"{[it.said() for it in made]}")
    go_on(made, 1)
    host.start()
    print(f"  shares after {settle(host, made):.0f} s")
    go_on(made, 1)


def case_soak() -> None:
    """Guests that work for a long time, while hosts and QEMUs end and begin."""
    seconds, host, rounds, hosts, ended = int(os.environ.get("SECONDS", "600")), Host(), 0, 0, 0
    made, end, turn = guests(GUESTS, host), time.time() + seconds, 0
    while time.time() < end:
        time.sleep(min(30, max(1, end - time.time())))
        right(made)
        show(host, made, f"{seconds - (end - time.time()):.0f} s")
        turn += 1
        if turn % 4 == 1:
            host.kill()
            hosts += 1
            time.sleep(2)
            host.start()
        elif turn % 4 == 3:
            rounds, ended = rounds + made[0].ticks(), ended + 1
            made[0].kill()
            made[0] = guest(0, host).wait()
    right(made)
    rounds += sum(it.ticks() for it in made)
    print(f"  {seconds} s: {rounds} rounds of guests, {hosts} hosts and {ended} QEMUs killed, longest hold "
          f"{max(it.counts().get('hold_most_ns', 0) for it in made) / 1e6:.1f} ms")
    for it in made:
        it.kill()
    all_released(host)
