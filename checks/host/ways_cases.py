"""QEMU's own ways to reach a guest's memory, by chance and one after another, beside a shadow of each byte (driven_guest.py)."""
from __future__ import annotations

import contextlib
import copy
import os
import random
import socket
import struct
import subprocess
import time
from collections.abc import Callable, Sequence
from typing import Any

from driven_guest import (
    BELOW, DIMM_AT, GROWING_AT, PATIENCE_SECONDS, RAM_BYTES, Debugger, Driven, GrowingMemory, Nvme, Queue, SharedFile, begin_virtio,
)
from harness import PACKAGES
from places import AS_NOBODY, HERE, Host, LeftOut, all_released, in_time, must, until
from qemu_guests import PAGE, QEMU, is_there, read

SECTOR, DISK_BYTES, DIMM_BYTES, GROWING_BLOCKS = 512, 4 << 20, 8 << 20, 4
OWN_AT = RAM_BYTES - (1 << 20)  # (rings, headers and the like; all below is for the ways)
HEADERS_AT = OWN_AT + (15 << 16)
OLDER = "disable-modern=on,disable-legacy=off"
NET_HEADER, LEAST_FRAME, RARP = 10, 60, b"\x80\x35"
POOL = [random.Random(number).randbytes(PAGE) for number in range(24)]  # contents that each guest has


class Disk:
    """An image and a shadow of it."""

    def __init__(self, name: str, kind: str) -> None:
        self.file, self.kind, self.bytes = HERE.place.room / name, kind, bytearray(DISK_BYTES)
        self.file.unlink(missing_ok=True)
        subprocess.run(["qemu-img", "create", "-q", "-f", kind, self.file, str(DISK_BYTES)], check=True)
        os.chmod(self.file, 0o666)


class Ways:
    """A guest of a seed. Those of odd seeds move: they are saved, loaded and migrated. Others have devices that can't be."""

    def __init__(self, host: Host, seed: int) -> None:
        self.host, self.seed, self.by = host, seed, random.Random(seed)
        self.moves = seed % 2 == 1
        self.cache = self.by.choice(("none", "directsync", "writeback"))
        self.aio = self.by.choice(("threads", "io_uring", *(("native",) if self.cache != "writeback" else ())))
        self.disks = [Disk(f"ways{seed}.{number}", "qcow2" if self.moves else "raw") for number in range(4)]
        self.wire, self.peer = (HERE.place.room / f"ways{seed}.{name}" for name in ("net", "peer"))
        self.peer.unlink(missing_ok=True)
        self.net = socket.socket(socket.AF_UNIX, socket.SOCK_DGRAM)
        self.net.bind(str(self.peer))
        os.chmod(self.peer, 0o666)
        self.net.settimeout(PATIENCE_SECONDS)
        self.sandbox = ["-sandbox", "on"] if self.by.random() < 0.5 else []
        self.driven = self.start()
        self.pages = list(range(BELOW, OWN_AT, PAGE))
        self.dimms: list[int] = []
        self.plugged = 0
        self.saved: Any = None
        self.done: dict[str, int] = {}
        self.begin_devices()
        self.fill(BELOW, OWN_AT)

    # ---- the machine ----

    def start(self, incoming: str = "") -> Driven:
        self.wire.unlink(missing_ok=True)
        more = [*self.sandbox, "-object", "iothread,id=t"]
        for number, disk in enumerate(self.disks):
            if number < 2 or (number == 2 and not self.moves):
                more += ["-drive", f"file={disk.file},format={disk.kind},if=none,id=d{number},cache={self.cache},aio={self.aio}"]
        more += ["-device", f"virtio-blk-pci,drive=d0,addr=3.0,{OLDER}" + (",iothread=t" if self.seed % 3 == 0 else "")]
        more += ["-device", f"virtio-scsi-pci,id=s,addr=4.0,{OLDER}", "-device", "scsi-hd,drive=d1,bus=s.0"]
        more += ["-device", "nvme,drive=d2,serial=x,addr=5.0"] if not self.moves else []
        net = f"dgram,id=n,local.type=unix,local.path={self.wire},remote.type=unix,remote.path={self.peer}"
        more += ["-netdev", net, "-device", f"virtio-net-pci,netdev=n,addr=6.0,romfile=,{OLDER}"]
        more += ["-object", "rng-builtin,id=r", "-device", f"virtio-rng-pci,rng=r,addr=7.0,{OLDER}"]
        more += ["-device", f"virtio-balloon-pci,free-page-reporting=on,addr=8.0,{OLDER}"]
        if not self.moves:
            more += ["-fsdev", f"local,id=f,path={HERE.place.room},security_model=none"]
            more += ["-device", f"virtio-9p-pci,fsdev=f,mount_tag=f,addr=9.0,{OLDER}"]
            more += ["-object", f"memory-backend-ram,id=g,size={GROWING_BLOCKS * GrowingMemory.BLOCK}"]
            more += ["-device", f"virtio-mem-pci,id=grows,memdev=g,memaddr={GROWING_AT},addr=a.0,unplugged-inaccessible=off"]
        # (as root where it is to make a userfaultfd that holds up the kernel, too)
        user: Sequence[str] = () if self.moves else AS_NOBODY
        return Driven(self.seed, self.host, more, user, incoming)

    def begin_devices(self) -> None:
        places = iter(range(OWN_AT, HEADERS_AT, 1 << 16))
        def begin(slot: int, *indices: int) -> list[Queue]:
            return begin_virtio(self.driven, slot, 0xC000 + 0x100 * slot, [(index, next(places)) for index in indices])

        self.queues = made = [*begin(3, 0), *begin(4, 2), *begin(6, 0, 1), *begin(7, 0), *begin(8, 0, 3)]
        self.blk, self.scsi, self.receive, self.send, self.rng, self.balloon, self.reports = made
        self.nvme = None if self.moves else Nvme(self.driven, 5, 0xE0000000, next(places))
        self.file = None if self.moves else SharedFile(begin(9, 0)[0], HEADERS_AT, self.disks[3].file.name)
        self.growing = None if self.moves else GrowingMemory(self.driven, 10, 0xE1000000, GROWING_AT, next(places))

    def fill(self, begin: int, end: int) -> None:
        for at in range(begin, end, 1 << 20):
            self.driven.store(at, b"".join(self.content() for _ in range(min(1 << 20, end - at) // PAGE)))

    def content(self) -> bytes:
        kind = self.by.random()
        return bytes(PAGE) if kind < 0.2 else self.by.choice(POOL) if kind < 0.85 else self.by.randbytes(PAGE)

    def some(self, most: int) -> list[int]:
        """Pages, each once; often some in a row."""
        count = self.by.randint(1, most)
        if self.by.random() < 0.4:
            first = self.by.randrange(len(self.pages) - count)
            row = self.pages[first:first + count]
            if row[-1] - row[0] == (count - 1) * PAGE:
                return row
        return self.by.sample(self.pages, count)

    # ---- what processors do ----

    def store(self) -> None:
        for at in self.some(24):
            self.driven.store(at, self.content())

    def store_little(self) -> None:
        for at in self.some(24):
            self.driven.store(at + self.by.randrange(PAGE - 16), self.by.randbytes(self.by.randint(1, 16)))

    def load(self) -> None:
        for at in self.some(16):
            must(self.driven.load(at, PAGE) == self.driven.known(at, PAGE), f"a load from {at:#x}")

    def idle(self) -> None:
        time.sleep(self.by.uniform(0.1, 0.5))

    # ---- disks ----

    def parts(self, pages: Sequence[int]) -> list[tuple[int, int]]:
        """Buffers in these pages; some are parts of pages, and some can't be reached by O_DIRECT without a copy."""
        if self.by.random() < 0.6:
            return [(at, PAGE) for at in pages]
        odd = 4 if self.by.random() < 0.3 else 0
        sizes = [SECTOR * self.by.randint(1, 6) for _ in pages]
        return [(at + self.by.randrange((PAGE - size) // SECTOR) * SECTOR + odd, size) for at, size in zip(pages, sizes)]

    def transfer(self, disk: Disk, is_write: bool, first: int, buffers: Sequence[tuple[int, int]]) -> None:
        """What such a request makes of the disk or of the memory."""
        begin = first * SECTOR
        for at, size in buffers:
            if is_write:
                disk.bytes[begin:begin + size] = self.driven.known(at, size)
            else:
                self.driven.note(at, bytes(disk.bytes[begin:begin + size]))
            begin += size

    def requests(self) -> list[tuple[bool, int, list[tuple[int, int]]]]:
        """Some requests at a time, of pages and sectors of their own: whether each writes to the disk, its first sector and its buffers."""
        made, pages, count = [], self.by.sample(self.pages, 96), self.by.randint(1, 6)
        apart = DISK_BYTES // SECTOR // count
        for number in range(count):
            its, pages = pages[:16], pages[16:]
            buffers = self.parts(its[:self.by.randint(1, 16)])
            first = number * apart + self.by.randrange(apart - 16 * PAGE // SECTOR)
            made.append((self.by.random() < 0.4, first, buffers))
        return made

    def run(self, queue: Queue, disk: Disk, header: Callable[[bool, int, int], bytes], status: bytes) -> None:
        """Requests of a device that has a header and a status for each."""
        made, place = self.requests(), HEADERS_AT
        for is_write, first, buffers in made:
            head = header(is_write, first, sum(size for _, size in buffers))
            self.driven.store(place, head)
            self.driven.store(place + 256, b"\xff" * len(status))
            data, end = [(at, size, not is_write) for at, size in buffers], (place + 256, len(status), True)
            # (virtio-scsi has its answer before the data that it reads)
            is_last = queue is self.blk or is_write
            queue.offer([(place, len(head), False), *([*data, end] if is_last else [end, *data])])
            place += 512
        queue.notify()
        queue.wait(len(made))
        for number, (is_write, first, buffers) in enumerate(made):
            self.transfer(disk, is_write, first, buffers)
            self.driven.note(HEADERS_AT + 512 * number + 256, status)

    def use_blk(self) -> None:
        self.run(self.blk, self.disks[0], lambda is_write, first, _: struct.pack("<IIQ", is_write, 0, first), b"\0")

    def use_scsi(self) -> None:
        def header(is_write: bool, first: int, size: int) -> bytes:
            command = struct.pack(">BBIBHB", 0x2A if is_write else 0x28, 0, first, 0, size // SECTOR, 0)
            return bytes((1, 0, 0x40, 0, 0, 0, 0, 0)) + struct.pack("<QBBB", 1, 0, 0, 0) + command.ljust(32, b"\0")

        self.wake_scsi()
        self.run(self.scsi, self.disks[1], header, bytes(12) + b"\xff" * 96)  # (no sense is written)

    def wake_scsi(self) -> None:
        """The first command after a reset is refused, by the rules of SCSI."""
        head = bytes((1, 0, 0x40, 0, 0, 0, 0, 0)) + struct.pack("<QBBB", 1, 0, 0, 0) + bytes(32)
        self.driven.store(HEADERS_AT, head)
        self.scsi.run([(HEADERS_AT, len(head), False), (HEADERS_AT + 256, 12 + 96, True)])
        self.driven.adopt(HEADERS_AT + 256, 12 + 96)

    def use_nvme(self) -> None:
        assert self.nvme
        for _ in range(self.by.randint(1, 4)):
            pages, is_write = self.some(16), self.by.random() < 0.4
            first = self.by.randrange(DISK_BYTES // PAGE - len(pages)) * (PAGE // SECTOR)
            self.nvme.transfer(is_write, first, pages)
            self.transfer(self.disks[2], is_write, first, [(at, PAGE) for at in pages])

    def use_file(self) -> None:
        """A folder of the host's, whose file QEMU reads into the guest's memory itself."""
        assert self.file
        buffers, is_write = self.parts(self.some(16)), self.by.random() < 0.4
        first = self.by.randrange((DISK_BYTES - 16 * PAGE) // SECTOR)
        self.file.transfer(is_write, first * SECTOR, buffers)
        self.transfer(self.disks[3], is_write, first, buffers)

    # ---- other devices ----

    def use_net(self) -> None:
        """A packet comes into the guest's memory, and one goes out."""
        frame = b"\xff" * 6 + self.by.randbytes(self.by.randint(LEAST_FRAME, 1500))
        at = self.by.choice(self.pages) + self.by.randrange(PAGE - 2048)
        number = self.receive.offer([(at, NET_HEADER, True), (at + NET_HEADER, 2000, True)])
        self.receive.notify()
        self.net.sendto(frame, str(self.wire))
        size = self.receive.wait(1)[number]
        must(size == NET_HEADER + len(frame), f"{size} bytes of a packet of {len(frame)}")
        self.driven.adopt(at, NET_HEADER)
        self.driven.note(at + NET_HEADER, frame)
        at, size = self.by.choice(self.pages), self.by.randint(LEAST_FRAME, 1500)
        self.driven.store(HEADERS_AT, bytes(NET_HEADER))
        self.empty_net()
        self.send.run([(HEADERS_AT, NET_HEADER, False), (at, size, False)])
        came = self.net.recv(4096)
        while came[12:14] == RARP:
            came = self.net.recv(4096)
        must(came == self.driven.known(at, size), f"a packet of what is at {at:#x}")

    def empty_net(self) -> None:
        """A machine that was migrated says so by packets, and more than some keep QEMU from sending others."""
        self.net.settimeout(0)
        with contextlib.suppress(BlockingIOError):
            while self.net.recv(4096):
                pass
        self.net.settimeout(PATIENCE_SECONDS)

    def use_rng(self) -> None:
        at, size = self.by.choice(self.pages) + self.by.randrange(2048), self.by.randint(1, 2000)
        wrote = self.rng.run([(at, size, True)])
        must(wrote == size and any(self.driven.adopt(at, size)[8:]) or size < 24, f"{wrote} random bytes of {size}")
        self.driven.adopt(at, size)

    def use_balloon(self) -> None:
        """The guest gives pages up."""
        pages = self.some(64)
        pages = [at for at in pages if at < RAM_BYTES]
        if not pages:
            return
        self.driven.store(HEADERS_AT, struct.pack(f"<{len(pages)}I", *(at // PAGE for at in pages)))
        self.balloon.run([(HEADERS_AT, 4 * len(pages), False)])
        for at in pages:
            self.driven.note(at, bytes(PAGE))

    def use_reports(self) -> None:
        """The guest says of pages that they are free; each is zeros when it is used next."""
        pages = self.some(30)
        self.reports.run([(at, PAGE, True) for at in pages])
        for at in pages:
            self.driven.note(at, bytes(PAGE))

    # ---- what QEMU does by itself ----

    def debug(self) -> None:
        """A debugger comes, reads and writes, and goes."""
        debugger = Debugger(self.driven)
        for at in self.some(6):
            begin, size = at + self.by.randrange(PAGE - 1024), self.by.randint(1, 1024)
            must(debugger.load(begin, size) == self.driven.known(begin, size), f"a debugger's load from {begin:#x}")
            data = self.by.randbytes(size)
            debugger.store(begin, data)
            self.driven.note(begin, data)
        self.driven.qmp.after("RESUME", debugger.detach)

    def dump(self) -> None:
        """A dump has what the memory has."""
        path = HERE.place.room / f"ways{self.seed}.dump"
        path.unlink(missing_ok=True)
        path.touch()
        os.chmod(path, 0o666)
        self.driven.qmp.good("dump-guest-memory", paging=False, protocol=f"file:{path}")
        data = path.read_bytes()
        table, count = struct.unpack_from("<Q", data, 32)[0], struct.unpack_from("<H", data, 56)[0]
        for number in range(count):
            kind, _, begin, _, at, size = struct.unpack_from("<IIQQQQ", data, table + 56 * number)
            for base, region in self.driven.memory.items() if kind == 1 else ():
                low, high = max(at, base, BELOW), min(at + size, base + len(region))
                if low < high:
                    must(data[begin + low - at:begin + high - at] == self.driven.known(low, high - low), f"the dump of {low:#x}")

    def plug(self) -> None:
        """Memory is plugged in, or out again."""
        if self.dimms:
            self.unplug(self.dimms.pop())
            return
        name = f"m{self.plugged}"
        self.plugged += 1
        self.driven.qmp.good("object-add", **{"qom-type": "memory-backend-ram", "id": name, "size": DIMM_BYTES})
        self.driven.qmp.good("device_add", driver="pc-dimm", id=f"p{name}", memdev=name, slot=0, addr=DIMM_AT)
        self.dimms.append(self.plugged - 1)
        self.driven.memory[DIMM_AT] = bytearray(DIMM_BYTES)
        self.pages += range(DIMM_AT, DIMM_AT + DIMM_BYTES, PAGE)
        self.fill(DIMM_AT, DIMM_AT + DIMM_BYTES)

    def unplug(self, number: int) -> None:
        """The guest's firmware would eject it: by the ports of memory slots."""
        def eject() -> None:
            self.driven.qmp.good("device_del", id=f"pm{number}")
            self.driven.put("outl", 0xA00, 0)
            self.driven.put("outb", 0xA14, 8)

        self.driven.qmp.after("DEVICE_DELETED", eject)
        self.driven.qmp.good("object-del", id=f"m{number}")
        del self.driven.memory[DIMM_AT]
        self.forget_pages()

    def forget_pages(self) -> None:
        """Those that no memory has any more."""
        self.pages = [at for at in self.pages if any(base <= at < base + len(region) for base, region in self.driven.memory.items())]

    def grow(self) -> None:
        """A virtio-mem device gets blocks, or gives some or all of them up."""
        device = self.growing
        assert device
        first = self.by.randrange(GROWING_BLOCKS)
        is_there, count = first in device.plugged, 1
        while first + count < GROWING_BLOCKS and (first + count in device.plugged) == is_there and self.by.random() < 0.5:
            count += 1
        if not is_there:
            device.plug(first, count)
            for at in range(GROWING_AT + first * device.BLOCK, GROWING_AT + (first + count) * device.BLOCK, device.BLOCK):
                self.pages += range(at, at + device.BLOCK, PAGE)
                self.fill(at, at + device.BLOCK)
            return
        if self.by.random() < 0.3:
            device.unplug_all()
        else:
            device.unplug(first, count)
        self.forget_pages()

    def reset(self) -> None:
        self.driven.qmp.after("RESET", lambda: self.driven.qmp.good("system_reset"))
        if self.growing:
            self.growing.forget(self.growing.plugged)
            self.forget_pages()
        self.begin_devices()

    # ---- machines that move ----

    def monitor(self, line: str) -> None:
        answer = self.driven.qmp.monitor(line)
        must(answer.get("return") == "", f"{line}: {answer}")

    def taken(self) -> Any:
        """What a machine is, but for its disks."""
        return copy.deepcopy(self.driven.memory), [queue.state() for queue in self.queues]

    def take(self, state: Any) -> None:
        memory, queues = copy.deepcopy(state)
        self.driven.memory = memory
        for queue, its in zip(self.queues, queues):
            queue.driven = self.driven
            queue.restore(its)

    def save(self) -> None:
        """A snapshot with the disks, or back to it."""
        if self.saved and self.by.random() < 0.6:
            self.monitor("loadvm a")
            state, disks = self.saved
            self.take(state)
            for disk, data in zip(self.disks, disks):
                disk.bytes = bytearray(data)
            return
        self.monitor("savevm a")
        self.saved = self.taken(), [bytes(disk.bytes) for disk in self.disks]

    def finish(self, path: Any) -> None:
        good, _ = until(PATIENCE_SECONDS, lambda: self.driven.qmp.good("query-migrate").get("status") in ("completed", "failed"), 0.05)
        state = self.driven.qmp.good("query-migrate")
        must(good and state["status"] == "completed", f"{path.name}: {state}")

    def begin_again(self, path: Any, state: Any) -> None:
        """Another process takes the machine from a file."""
        self.driven.quit()
        self.driven = self.start(f"exec:cat {path}")
        good, _ = until(PATIENCE_SECONDS, lambda: self.driven.qmp.good("query-status")["status"] == "running", 0.05)
        must(good, f"the machine doesn't go on: {read(self.driven.log)[-400:]}")
        self.take(state)
        self.driven.check("after a migration")

    def migrate(self) -> None:
        path = HERE.place.room / f"ways{self.seed}.state"
        self.driven.qmp.good("migrate-set-parameters", **{"max-bandwidth": 1 << 30})
        self.driven.qmp.good("migrate", uri=f"exec:cat > {path}")
        self.finish(path)
        self.begin_again(path, self.taken())

    def background(self) -> None:
        """A background snapshot, in which the machine works on; sometimes it goes back to it."""
        path, before = HERE.place.room / f"ways{self.seed}.background", self.taken()
        qmp = self.driven.qmp
        capability = {"capability": "background-snapshot", "state": True}
        answer = qmp.do("migrate-set-capabilities", capabilities=[capability])
        if "error" in answer:
            self.count("no-background")
            return
        if self.by.random() < 0.7:
            qmp.good("migrate-set-parameters", **{"max-bandwidth": 40 << 20})
            qmp.after("RESUME", lambda: qmp.good("migrate", uri=f"exec:cat > {path}"))
            for _ in range(6):
                self.by.choice((self.store, self.store_little, self.use_blk, self.use_scsi, self.use_net, self.load))()
            self.finish(path)
            if self.by.random() < 0.5:
                self.begin_again(path, before)
                return
        qmp.good("migrate-set-capabilities", capabilities=[{**capability, "state": False}])

    # ---- all of it ----

    def ways(self) -> tuple[list[Callable[[], None]], list[int]]:
        weights = {self.store: 6, self.store_little: 4, self.load: 2, self.idle: 10, self.use_blk: 8, self.use_scsi: 8, self.use_net: 3,
                   self.use_rng: 2, self.use_balloon: 3, self.use_reports: 3, self.debug: 2, self.dump: 1, self.reset: 1}
        weights |= {self.save: 1, self.migrate: 1, self.background: 1} if self.moves else {
            self.use_nvme: 8, self.use_file: 6, self.plug: 1, self.grow: 2,
        }
        return list(weights), list(weights.values())

    def count(self, name: str) -> None:
        self.done[name] = self.done.get(name, 0) + 1

    def step(self) -> None:
        ways, weights = self.ways()
        way = self.by.choices(ways, weights)[0]
        self.count(way.__name__)
        try:
            way()
        except Exception as cause:
            raise type(cause)(f"seed {self.seed}, after {sum(self.done.values())} steps, in {way.__name__}: {cause}") from cause

    def end(self) -> None:
        self.driven.check(f"seed {self.seed}, at last")
        counts = self.driven.counts()
        numbers = {name: counts.get(name) for name in ("lends", "lent", "copied", "zeros", "discarded", "devices")}
        kind = f"aio={self.aio}, cache={self.cache}{', sandbox' if self.sandbox else ''}"
        print(f"  seed {self.seed}: {kind}: {self.done}; {numbers}", flush=True)
        self.net.close()
        self.driven.quit()
        for number, disk in enumerate(self.disks[:2 if self.moves else 4]):
            plain = HERE.place.room / f"ways{self.seed}.plain"
            subprocess.run(["qemu-img", "convert", "-f", disk.kind, "-O", "raw", disk.file, plain], check=True)
            must(plain.read_bytes() == disk.bytes, f"seed {self.seed}: disk {number} has other bytes than were written")


def case_ways() -> None:
    """By chance: disks, devices, snapshots, migrations, dumps, hotplug, resets; each byte compared: SEED=N, SECONDS=N."""
    for program in (QEMU, "qemu-img"):
        if not is_there(program):
            raise LeftOut(f"there is no {program}", PACKAGES[program])
    seed, seconds = int(os.environ.get("SEED", "1")), int(os.environ.get("SECONDS", "15"))
    host, lends = Host("--trust-peers", memory="256M"), 0
    made = [Ways(host, seed + number) for number in range(2)]
    end, turn = time.time() + seconds, 0
    while time.time() < end:
        for it in made:
            it.step()
            if turn % 8 == 0:
                it.driven.check(f"seed {it.seed}, after {it.done}")
        turn += 1
    for it in made:
        lends += it.driven.counts().get("lends", 0)
        it.end()
    in_time(lends > 0, "nothing was lent")
    all_released(host)
    host.stop()
