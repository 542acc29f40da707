"""Cases of what operators ask and see: an estimate of running guests, guests' names, refused connections, and memory that KVM is given."""
from __future__ import annotations

import json
import os
import pathlib
import shutil
import struct
import subprocess
import sys
import time
from collections.abc import Mapping, Sequence
from typing import Any

import hostile
from places import AS_NOBODY, CC, FLAGS, HERE, TOP, Host, LeftOut, all_released, compile_c, in_time, must, preloaded, until
from qemu_guests import NOBODY, PAGE, Guest, read
from raw_client import RawClient
from running_guests import go_on, guests, settle, show

PROGRAM = TOP / "out/pageshare"


# ---- estimates ----


def estimate(made: Sequence[Guest], *more: str) -> dict[str, Any]:
    words = [word for it in made for word in ("--pid", str(it.pid))]
    ran = subprocess.run([PROGRAM, "estimate", "--json", *words, *more], capture_output=True, text=True)
    must(ran.returncode == 0, f"estimate: {ran}")
    found: dict[str, Any] = json.loads(ran.stdout)
    return found


def seen(made: Sequence[Guest]) -> list[list[str]]:
    """What reading must not change: page tables and present pages, by VmPTE and VmRSS."""
    return [[line for line in read(f"/proc/{it.pid}/status").splitlines() if line.startswith(("VmPTE", "VmRSS"))] for it in made]


def case_estimate() -> None:
    """What `estimate --pid` says of three paused guests comes true within 3 %, and reading them changes nothing."""
    if not PROGRAM.exists():
        raise LeftOut(f"the estimate of running guests, since there is no {PROGRAM} (make build)")
    host = Host()
    host.kill()
    made = guests(3, host)
    for it in made:
        it.qmp().do("stop")
    time.sleep(2)
    before, private = seen(made), sum(it.anonymous() for it in made)
    said = estimate(made)
    must(seen(made) == before, f"reading changed {before} to {seen(made)}")
    all_memory = estimate(made, "--all-memory")
    host.start()
    took = settle(host, made, least=5000)
    steady = [0]

    def is_steady() -> bool:
        steady.append(host.status()["lent_bytes"])
        return len(steady) > 10 and len(set(steady[-10:])) == 1

    until(120, is_steady, 1)
    frames = host.status()["frame_bytes"] // PAGE
    gained, due = private - sum(it.anonymous() for it in made) - frames, said["total"]["reclaimed"]
    print(f"  settled after {took:.0f} s; of {said['total']['pages']} pages {due} could be reclaimed, and {gained} were; "
          f"of all memory {all_memory['total']['reclaimed']} of {all_memory['total']['pages']}")
    must(abs(gained - due) <= 0.03 * due, f"the estimate was {due} pages, and {gained} were reclaimed")
    must(said["shared_already"] < 0.1 * due, f"{said['shared_already']} pages were shared before anything was lent")
    before, later = seen(made), estimate(made)
    must(seen(made) == before, f"reading changed {before} to {seen(made)}")
    print(f"  afterwards {later['shared_already']} pages are shared already")
    must(later["shared_already"] > 0, "no page is shared")
    for it in made:
        it.qmp().do("cont")
    go_on(made)
    show(host, made, "and they go on")


# ---- what a status shows ----


def client_folder() -> str:
    """A folder with raw_client.py that anybody may read, also where this tree is root's alone."""
    shutil.copy(pathlib.Path(__file__).with_name("raw_client.py"), HERE.place.room)
    return str(HERE.place.room)


def named(path: str, *words: str) -> int:
    """A client whose command line has these words."""
    code = "import sys, time; sys.path.insert(0, sys.argv[1]); from raw_client import RawClient; it = RawClient(sys.argv[2]); "
    code += "print('in', flush=True); time.sleep(60)"
    client = subprocess.Popen([*AS_NOBODY, sys.executable, "-c", code, client_folder(), path, *words], stdout=subprocess.PIPE, text=True)
    HERE.place.started.append(client)
    must(client.stdout is not None and client.stdout.readline() == "in\n", f"a client with {words} isn't taken")
    return client.pid


def net_of(state: Mapping[str, int]) -> int:
    """The net gain, by the other numbers of a status."""
    taken = sum(state[f"{it}_bytes"] for it in ("free", "host", "table", "mapping", "library"))
    return state["reclaimed_bytes"] + state["zero_bytes"] - taken


def case_names() -> None:
    """Guests' names are those of QEMU's -name, and whatever else stands there does no harm."""
    host = Host("--connection-rate", "1000", memory="64M")
    path = str(host.socket)
    due: dict[int, str] = {}
    none: list[str] = []
    for words, name in (
        (["-name", "guest=web,debug-threads=on"], "web"), (["-name", "database"], "database"), (["-name", "debug-threads=on,guest=a.b-c_1"], "a.b-c_1"),
        (["-name", 'guest="},,{"\n\\\x1b[2J,,x,process=y'], "?????????2J?x"), (["-name", "process=y"], ""), (["-name"], ""), (none, ""),
        (["-name", "guest=" + "n" * 100], "n" * 63), (["-name", ""], ""), (["-name", "guest=,,"], "?"), (["x" * 100000, "-name", "late"], ""),
    ):
        due[named(path, *words)] = name
    until(5, lambda: host.status()["clients"] == len(due), 0.1)
    found = {it["pid"]: it["guest"] for it in host.status()["processes"]}
    must(found == due, f"names {sorted(found.items())}, due {sorted(due.items())}")
    state = host.status()
    must(all(it["client_table_bytes"] > 0 for it in state["processes"]), "a process has no page tables")
    must(state["net_bytes"] == net_of(state) < 0, f"the net gain of clients that share nothing is {state['net_bytes']}")
    for form, text in (("--prometheus", 'guest="a.b-c_1"'), ("--prometheus", 'pageshare_net_bytes{domain="web"} -'), ("", "net gain -")):
        ran = subprocess.run([HERE.host, "--status", path, *form.split()], capture_output=True, text=True)
        must(ran.returncode == 0 and text in ran.stdout, f"{form}: {ran.stdout}")
    host.kill()


def counting(path: str, written: bytes, why: bytes = b"", seals: str = "fcntl.F_SEAL_SHRINK | fcntl.F_SEAL_GROW") -> int:
    """A client that has a file of the library's name with these bytes, and words at their place."""
    code = "import fcntl, os, sys, time; sys.path.insert(0, sys.argv[1]); from raw_client import RawClient; it = RawClient(sys.argv[2]); "
    code += "file = os.memfd_create('pageshare-counts', os.MFD_CLOEXEC | os.MFD_ALLOW_SEALING); os.ftruncate(file, 4096); "
    code += "os.pwrite(file, bytes.fromhex(sys.argv[3]), 0); os.pwrite(file, bytes.fromhex(sys.argv[4]), 1024); "
    code += f"fcntl.fcntl(file, fcntl.F_ADD_SEALS, {seals}); print('in', flush=True); time.sleep(60)"
    words = [*AS_NOBODY, sys.executable, "-c", code, client_folder(), path, written.hex(), why.hex()]
    client = subprocess.Popen(words, stdout=subprocess.PIPE, text=True)
    HERE.place.started.append(client)
    must(client.stdout is not None and client.stdout.readline() == "in\n", "a client that counts isn't taken")
    return client.pid


def case_counts() -> None:
    """A status shows what clients say of their windows, and whatever a client writes there does no harm."""
    names = ("mappings", "mappings_limit", "parts_whole", "parts_split", "parts_huge", "look_nanoseconds", "filtered", "pause", "cpu_percent",
             "cpu_limit_percent")
    numbers, most, nothing = (4, 1000, 20, 300, 4, 3, 2, 50, 1, 7, 1, 5, 6, 8, 9), 2**64 - 1, (0,) * 10
    host = Host("--connection-rate", "1000", memory="64M")
    written, wild = struct.pack("<15Q", *numbers), bytes(range(1, 256))
    said = (*numbers[2:9], 1, 8, 9)
    boaster = counting(str(host.socket), struct.pack("<15Q", 4, *[most] * 14))
    plain, odd = counting(str(host.socket), written, b"no cause"), counting(str(host.socket), written, wild)
    due = {
        plain: said, odd: said, counting(str(host.socket), b""): nothing, boaster: (most,) * 10,
        counting(str(host.socket), struct.pack("<15Q", 3, *numbers[1:])): nothing, counting(str(host.socket), written, b"x", "fcntl.F_SEAL_GROW"): nothing,
    }
    until(5, lambda: host.status()["clients"] == len(due), 0.1)
    found = {it["pid"]: tuple(it[f"client_{name}"] for name in names) for it in host.status()["processes"]}
    must(found == due, f"counts {found}, due {due}")
    whys = {it["pid"]: it["why"] for it in host.status()["processes"]}
    shown = "".join(chr(it) if 32 <= it < 127 and it not in b'"\\\\' else "?" for it in wild[:127])
    must(whys[plain] == "no cause" and whys[odd] == shown, f"causes {whys}")
    for form, text in (("--prometheus", "pageshare_client_parts_split{"), ("", "of them huge")):
        ran = subprocess.run([HERE.host, "--status", host.socket, *form.split()], capture_output=True, text=True)
        must(ran.returncode == 0 and text in ran.stdout, f"{form}: {ran.stdout}")
    clients_take(host, plain, boaster)
    host.kill()


# What Linux 6.18 has: of a slab the mappings that need one of its objects, its objects and its pages.
SLABS = {"vm_area_struct": (1, 21, 1), "anon_vma_chain": (2, 64, 1), "maple_node": (12, 16, 1)}


def bytes_of_mapping() -> int:
    """What the kernel's slabs take for a mapping, by what it says of them."""
    said = {it[0]: (int(it[4]), int(it[5])) for it in map(str.split, read("/proc/slabinfo").splitlines()) if len(it) > 5 and it[0] in SLABS}
    return int(sum(pages * PAGE / objects / SLABS[name][0] for name, (objects, pages) in said.items()))


def clients_take(host: Host, plain: int, boaster: int) -> None:
    """What clients say that they take is believed as far as it can be, and counts in the net gain; who may not read the kernel's slabs is told so."""
    state, each, limit = host.status(), bytes_of_mapping(), int(read("/proc/sys/vm/max_map_count"))
    of = {it["pid"]: it for it in state["processes"]}
    must(150 < each < 500 and of[plain]["client_mapping_bytes"] == 20 * each, f"{each} bytes of a mapping: {of[plain]}")
    must((of[plain]["client_zero_bytes"], of[plain]["client_library_bytes"]) == (5 * PAGE, 6), f"{of[plain]}")
    must(of[boaster]["client_mapping_bytes"] == limit * each, f"more mappings than there may be: {of[boaster]}")
    status = dict(it.split(":", 1) for it in read(f"/proc/{boaster}/status").splitlines() if ":" in it)
    size, resident = (int(status[it].split()[0]) << 10 for it in ("VmSize", "VmRSS"))
    must(of[boaster]["client_zero_bytes"] == (size - resident) // PAGE * PAGE and of[boaster]["client_library_bytes"] == resident, f"{of[boaster]}")
    for name in ("zero", "table", "mapping", "library"):
        must(state[f"{name}_bytes"] == sum(it[f"client_{name}_bytes"] for it in of.values()) > 0, f"{name}: {state}")
    must(state["net_bytes"] == net_of(state), f"the net gain isn't {net_of(state)}: {state}")
    other_user = ["setpriv", "--reuid=daemon", f"--regid={NOBODY}", "--clear-groups"]
    other = Host(memory="64M", name="other", before=other_user, user=())
    for user, path, note in (((), host.socket, f"({each} bytes each)"), (other_user, other.socket, "(248 bytes each, as with Linux 6.18)")):
        ran = subprocess.run([*user, HERE.host, "--status", path], capture_output=True, text=True)
        must(ran.returncode == 0 and note in ran.stdout, f"{note} isn't in {ran}")
    other.stop()


def case_refused() -> None:
    """Connections that aren't taken are counted, and a line says how many and why; the client says that it was refused."""
    host = Host(memory="64M", name="refused")
    root = [hostile.in_child(0, lambda: not RawClient(str(host.socket), hello=False).is_ended()) for _ in range(20)]
    must(all(hostile.wait(it, 20) == 0 for it in root), "a client that is root was taken")
    state, lines = host.status(), read(host.log).splitlines()
    must(state["turned_away_total"] == 20, f"{state['turned_away_total']} of 20 connections were counted")
    must(sum("isn't taken: it could write shared pages" in it for it in lines) == 1, f"{lines}")
    code = "import mmap, time; it = mmap.mmap(-1, 1 << 20, flags=mmap.MAP_PRIVATE | mmap.MAP_ANONYMOUS); "
    code += "it.madvise(mmap.MADV_MERGEABLE); time.sleep(2)"
    ran = subprocess.run([sys.executable, "-c", code], env=preloaded(host), capture_output=True, text=True)
    must(ran.returncode == 0 and ran.stderr.count("refused the connection") == 1, f"what a refused client says: {ran}")
    must(host.status()["turned_away_total"] > 20, "its connections weren't counted")
    host.kill()
    ran = subprocess.run([sys.executable, "-c", code], env=preloaded(host), capture_output=True, text=True)
    must("no host at" in ran.stderr, f"what a client without a host says: {ran}")


# ---- memory that KVM is given ----


def run_kvm(host: Host, device: int, seed: int, seconds: str, more: Mapping[str, str], standin: pathlib.Path | None) -> subprocess.Popen[str]:
    program = HERE.place.room / "kvm"
    counts = HERE.place.room / f"counts-{'standin' if standin else 'kvm'}-{seed}"  # (those of another run would be old)
    # (with a filter a request doesn't go by the C library, where the stand-in has its place)
    by_scans = {"PAGESHARE_FILTER": "0"} if standin else {}
    words = preloaded(host, {"PAGESHARE_COUNTS": str(counts), "PAGESHARE_DONTFORK": "1", **by_scans, **more})
    if standin:
        words["LD_PRELOAD"] += f":{standin}"
    command = [*AS_NOBODY, str(program), str(device), str(seed), seconds]
    return subprocess.Popen(command, env=words, stdout=subprocess.PIPE, text=True, pass_fds=[device])


def make_standin() -> pathlib.Path:
    """A library that answers for KVM where this machine has none."""
    made = HERE.place.room / "kvm_standin.so"
    must(subprocess.run([CC, *FLAGS, "-fPIC", "-shared", "-o", made, TOP / "checks/host/kvm_standin.c", "-ldl"]).returncode == 0, "kvm_standin.c")
    return made


def case_kvm() -> None:
    """Memory that a monitor gives to a guest of KVM is lent where PAGESHARE_OFFER says so, and leaves with its slot."""
    compile_c("kvm")
    # (a range is a window a second after it was offered, and a page is lent after three looks at the same bytes)
    made, seconds = make_standin(), "15" if HERE.is_short else os.environ.get("SECONDS", "20")
    for is_real in (True, False):
        try:
            device = os.open("/dev/kvm" if is_real else "/dev/null", os.O_RDWR)
        except OSError as cause:
            print(f"  /dev/kvm: {cause.strerror}; a stand-in answers for it")
            continue
        host = Host(memory="64M")
        standin = None if is_real else made
        ran = [run_kvm(host, device, seed, seconds, {"PAGESHARE_OFFER": "kvm"}, standin) for seed in (1, 2)]
        ran.append(run_kvm(host, device, 3, seconds, {}, standin))
        said = [it.communicate(timeout=200)[0].splitlines() for it in ran]
        print(f"  {'KVM' if is_real else 'a stand-in'}: {[it[-2:] for it in said]}")
        must(all(it.returncode == 0 for it in ran), f"{said}")
        none = ["at most 0 pages" in it[-2] for it in said]
        must(none[2], f"memory that isn't offered was lent: {said}")
        in_time(none[:2] == [False, False], f"nothing was lent: {said}")
        os.close(device)
        all_released(host)
        host.stop()
