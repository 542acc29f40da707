"""A QEMU whose guest has a firmware alone, which halts: this program stores to the memory and drives the devices, by QEMU's qtest protocol."""
from __future__ import annotations

import base64
import json
import os
import signal
import struct
import subprocess
import time
from collections.abc import Callable, Iterable, Sequence
from typing import Any

from harness import StrPath
from places import HERE, must, until
from qemu_guests import PAGE, QEMU, Qmp, connected, read

RAM_BYTES, BELOW, DIMM_AT, GROWING_AT = 24 << 20, 1 << 20, 1 << 32, (1 << 32) + (128 << 20)
PATIENCE_SECONDS, LINE_BYTES = 60, 1 << 15
# A firmware whose first instructions, at the end, are: cli, hlt, and back to hlt.
HALTS = b"\xfa\xf4\xeb\xfd".rjust((64 << 10) - 12, b"\0").ljust(64 << 10, b"\0")


class Events(Qmp):
    """QEMU's monitor, which keeps the names of events."""

    def __init__(self, path: StrPath) -> None:
        self.seen: list[str] = []
        super().__init__(path)

    def take(self, line: str) -> Any:
        answer = json.loads(line)
        if "event" in answer:
            self.seen.append(answer["event"])
        return answer

    def do(self, command: str, **arguments: Any) -> Any:
        self.socket.sendall(json.dumps({"execute": command, "arguments": arguments}).encode() + b"\n")
        while True:
            answer = self.take(self.lines.readline())
            if "return" in answer or "error" in answer:
                return answer

    def good(self, command: str, **arguments: Any) -> Any:
        answer = self.do(command, **arguments)
        must("return" in answer, f"{command}: {answer}")
        return answer["return"]

    def after(self, event: str, does: Callable[[], object]) -> None:
        """Does something, and waits for an event that follows."""
        before = self.seen.count(event)
        does()
        good, _ = until(PATIENCE_SECONDS, lambda: self.do("query-status") and self.seen.count(event) > before, 0.02)
        must(good, f"there is no event {event}")


class Driven:
    """The QEMU, and a shadow of each byte of its memory: a bytearray for each region, by its first address. `host`: None without the library."""

    def __init__(
        self, number: int, host: Any, more: Sequence[str], wrap: Sequence[StrPath], incoming: str = "", firmware: bytes = HALTS,
    ) -> None:
        room = HERE.place.room
        names = (room / f"driven{number}.{it}" for it in ("log", "json", "qmp", "qtest"))
        self.log, self.count_file, self.monitor, self.wire = names
        self.debugged = room / f"driven{number}.gdb"
        for path in (self.count_file, self.monitor, self.wire, self.debugged):
            path.unlink(missing_ok=True)
        code = room / f"driven{number}.firmware"
        code.write_bytes(firmware)
        words = {**os.environ, "PAGESHARE_COUNTS": str(self.count_file), "PAGESHARE_PERIOD_MS": "40", "PAGESHARE_CPU": "100"}
        words |= {"PAGESHARE_SOCKET": str(host.socket), "LD_PRELOAD": str(HERE.library)} if host else {}
        command = [*wrap, QEMU, "-machine", "pc,accel=tcg", "-bios", str(code), "-nodefaults", "-display", "none"]
        command += ["-m", f"{RAM_BYTES >> 20}M,slots=4,maxmem=1G"]
        command += ["-qmp", f"unix:{self.monitor},server=on,wait=off"]
        command += ["-qtest", f"unix:{self.wire},server=on,wait=off", "-qtest-log", "/dev/null"]
        command += ["-gdb", f"unix:{self.debugged},server=on,wait=off", *more]
        command += ["-incoming", incoming] if incoming else []
        with open(self.log, "a", encoding="utf-8") as log:
            self.process = subprocess.Popen(command, env=words, stdin=subprocess.DEVNULL, stdout=log, stderr=subprocess.STDOUT)
        HERE.place.started.append(self)
        must(until(30, lambda: self.wire.exists() and self.monitor.exists(), 0.05)[0], f"QEMU doesn't begin: {read(self.log)[-400:]}")
        self.qmp = Events(self.monitor)
        self.qmp.socket.settimeout(PATIENCE_SECONDS)
        self.qtest = connected(self.wire, PATIENCE_SECONDS)
        self.lines = self.qtest.makefile("r")
        self.memory = {0: bytearray(RAM_BYTES)}
        self.number = number

    def kill(self) -> None:
        if self.process.poll() is None:
            self.process.send_signal(signal.SIGKILL)
        self.process.wait()
        self.qtest.close()
        self.qmp.socket.close()

    def quit(self) -> None:
        """Ends it so that its disks are whole."""
        self.qmp.good("quit")
        must(until(PATIENCE_SECONDS, lambda: self.process.poll() is not None, 0.02)[0], "QEMU doesn't end")
        self.kill()

    def counts(self) -> Any:
        try:
            return json.loads(read(self.count_file) or "{}")
        except ValueError:
            return {}

    # ---- the protocol ----

    def say(self, words: str) -> str:
        self.qtest.sendall(words.encode() + b"\n")
        while True:
            line = self.lines.readline()
            if line.startswith("OK"):
                return line[3:].strip()
            must(line.startswith("IRQ"), f"{words[:60]}: {line}{read(self.log)[-600:]}")

    def put(self, kind: str, at: int, value: int) -> None:
        """A store to a port (`out` with b, w or l) or to a register (`write` with l or q)."""
        self.say(f"{kind} {at:#x} {value:#x}")

    def get(self, kind: str, at: int) -> int:
        return int(self.say(f"{kind} {at:#x}"), 16)

    # ---- memory ----

    def place(self, at: int, size: int) -> tuple[bytearray, int]:
        for base, region in self.memory.items():
            if base <= at and at + size <= base + len(region):
                return region, at - base
        raise AssertionError(f"no memory at {at:#x}")

    def known(self, at: int, size: int) -> bytes:
        """What is due at an address."""
        region, begin = self.place(at, size)
        return bytes(region[begin:begin + size])

    def note(self, at: int, data: bytes) -> None:
        """A device has written this, or should have."""
        region, begin = self.place(at, len(data))
        region[begin:begin + len(data)] = data

    def store(self, at: int, data: bytes) -> None:
        """A store as a processor of the guest would make it. (QEMU takes the longer for each byte, the longer a line is.)"""
        self.note(at, data)
        for done in range(0, len(data), LINE_BYTES):
            part = data[done:done + LINE_BYTES]
            self.say(f"b64write {at + done:#x} {len(part):#x} {base64.b64encode(part).decode()}")

    def load(self, at: int, size: int) -> bytes:
        return base64.b64decode(self.say(f"b64read {at:#x} {size:#x}"))

    def adopt(self, at: int, size: int) -> bytes:
        """Takes what a device has written there, which nobody knows beforehand."""
        data = self.load(at, size)
        self.note(at, data)
        return data

    def check(self, note: str) -> None:
        """Each byte of the memory is as it should be, but for the firmware's."""
        for base in self.memory:
            self.check_region(base, note)

    def check_region(self, base: int, note: str) -> None:
        path = HERE.place.room / f"memory{self.number}"
        path.unlink(missing_ok=True)  # (that of a QEMU of another user)
        self.qmp.good("pmemsave", val=base, size=len(self.memory[base]), filename=str(path))
        self.compare(path.read_bytes(), base, note)

    def compare(self, data: bytes, base: int, note: str) -> None:
        region, first = self.memory[base], BELOW if base == 0 else 0
        if data[first:] == region[first:]:
            return
        wrong = [at for at in range(first, len(region), PAGE) if data[at:at + PAGE] != region[at:at + PAGE]]
        at = wrong[0]
        byte = next(i for i in range(PAGE) if data[at + i] != region[at + i])
        must(False, f"{note}: {len(wrong)} pages differ, such as {base + at + byte:#x}: {data[at + byte:at + byte + 16].hex()} for "
                    f"{region[at + byte:at + byte + 16].hex()}; {self.counts()}")

    # ---- PCI ----

    def config(self, slot: int, register: int, value: int | None = None) -> int:
        self.put("outl", 0xCF8, 0x80000000 | slot << 11 | register)
        if value is None:
            return self.get("inl", 0xCFC)
        self.put("outl", 0xCFC, value)
        return value

    def enable(self, slot: int, bar: int, at: int) -> int:
        """Gives a device an address, and lets it write to memory."""
        self.config(slot, 0x10 + 4 * bar, at)
        self.config(slot, 0x04, 7)
        return at


class Queue:
    """A queue of a virtio device of the older kind, whose registers are ports."""

    def __init__(self, driven: Driven, ports: int, index: int, at: int) -> None:
        self.driven, self.ports, self.index, self.at = driven, ports, index, at
        self.size = self.choose()
        must(self.size > 0, f"the device at {ports:#x} has no queue {index}")
        self.available = at + 16 * self.size
        self.used = (self.available + 6 + 2 * self.size + PAGE - 1) // PAGE * PAGE
        self.bytes = self.used + 6 + 8 * self.size - at
        driven.store(at, bytes((self.bytes + PAGE - 1) // PAGE * PAGE))
        self.begin()
        self.next_free = self.given = self.taken = 0

    def choose(self) -> int:
        """Chooses the queue, and returns its size."""
        self.driven.put("outw", self.ports + 14, self.index)
        return self.driven.get("inw", self.ports + 12)

    def begin(self) -> None:
        """Says where the queue is."""
        self.driven.put("outl", self.ports + 8, self.at // PAGE)

    def offer(self, buffers: Sequence[tuple[int, int, bool]]) -> int:
        """Puts a request of buffers into the queue: address, length, and whether the device writes there. Returns its number."""
        must(len(buffers) <= self.size, "too many buffers")
        first = self.next_free if self.next_free + len(buffers) <= self.size else 0
        self.next_free = first + len(buffers)
        words = b"".join(struct.pack("<QIHH", at, size, 2 * writes | (i + 1 < len(buffers)), first + i + 1)
                         for i, (at, size, writes) in enumerate(buffers))
        self.driven.store(self.at + 16 * first, words)
        self.driven.store(self.available + 4 + 2 * (self.given % self.size), struct.pack("<H", first))
        self.given += 1
        self.driven.store(self.available + 2, struct.pack("<H", self.given % 65536))
        return first

    def notify(self) -> None:
        self.driven.put("outw", self.ports + 16, self.index)

    def count(self) -> int:
        done: int = struct.unpack("<H", self.driven.load(self.used + 2, 2))[0]
        return done

    def wait(self, requests: int) -> dict[int, int]:
        """Waits until so many more requests are done. Returns how many bytes the device wrote, by the requests' numbers."""
        wanted = (self.taken + requests) % 65536
        end = time.time() + PATIENCE_SECONDS
        while self.count() != wanted:
            must(time.time() < end, f"the device at {self.ports:#x} doesn't answer: {self.count()} of {wanted}")
            time.sleep(0.0005)
        ring = self.driven.adopt(self.used, 4 + 8 * self.size)
        places = [4 + 8 * (i % self.size) for i in range(self.taken, self.taken + requests)]
        self.taken += requests
        return {number: size for number, size in (struct.unpack_from("<II", ring, at) for at in places)}

    def run(self, buffers: Sequence[tuple[int, int, bool]]) -> int:
        number = self.offer(buffers)
        self.notify()
        return self.wait(1)[number]

    def state(self) -> tuple[int, int, int]:
        return self.next_free, self.given, self.taken

    def restore(self, state: tuple[int, int, int]) -> None:
        self.next_free, self.given, self.taken = state


def begin_virtio(driven: Driven, slot: int, ports: int, rings: Sequence[tuple[int, int]]) -> list[Queue]:
    """Begins a device anew, with queues of these numbers at these addresses."""
    driven.enable(slot, 0, ports | 1)
    for status in (0, 1, 3):
        driven.put("outb", ports + 18, status)
    driven.put("outl", ports + 4, 0)
    queues = [Queue(driven, ports, index, at) for index, at in rings]
    driven.put("outb", ports + 18, 7)
    return queues


class NewerQueue(Queue):
    """The same of a device of virtio 1.0, whose registers are memory: those that all devices have, and those of notices."""

    def __init__(self, driven: Driven, registers: int, notices: int, index: int, at: int) -> None:
        self.notices = notices
        super().__init__(driven, registers, index, at)

    def choose(self) -> int:
        self.driven.put("writew", self.ports + 22, self.index)
        return self.driven.get("readw", self.ports + 24)

    def begin(self) -> None:
        for register, place in ((32, self.at), (40, self.available), (48, self.used)):
            self.driven.put("writeq", self.ports + register, place)
        self.driven.put("writew", self.ports + 28, 1)

    def notify(self) -> None:
        self.driven.put("writew", self.notices, self.index)


class GrowingMemory:
    """A virtio-mem device, whose blocks the guest plugs and unplugs by requests, as far as QEMU's `requested-size` lets it."""

    BLOCK, BAR, COMMON, NOTICES = 2 << 20, 4, 1, 2
    PLUG, UNPLUG, UNPLUG_ALL = 0, 1, 2
    REQUEST_BYTES, ANSWER_BYTES, ANSWER_AT = 24, 10, 64

    def __init__(self, driven: Driven, slot: int, registers: int, first: int, at: int) -> None:
        self.driven, self.first, self.at = driven, first, at + PAGE
        self.plugged: list[int] = []
        driven.enable(slot, self.BAR, registers)
        common, notices = (registers + self.offset(slot, kind) for kind in (self.COMMON, self.NOTICES))
        for status in (0, 1, 3):
            driven.put("writeb", common + 20, status)
        for word, features in enumerate((0, 1)):  # (virtio 1.0, and nothing else)
            driven.put("writel", common + 8, word)
            driven.put("writel", common + 12, features)
        driven.put("writeb", common + 20, 11)
        self.queue = NewerQueue(driven, common, notices, 0, at + 2 * PAGE)
        driven.put("writeb", common + 20, 15)

    def offset(self, slot: int, kind: int) -> int:
        """Where the registers of a kind begin, by the list of the device's capabilities."""
        at = self.driven.config(slot, 0x34) & 0xFF
        while at:
            words = self.driven.config(slot, at)
            if words & 0xFF == 9 and words >> 24 == kind:
                return self.driven.config(slot, at + 8)
            at = words >> 8 & 0xFF
        raise AssertionError(f"the device of slot {slot} has no registers of kind {kind}")

    def allow(self, blocks: int) -> None:
        self.driven.qmp.good("qom-set", path="/machine/peripheral/grows", property="requested-size", value=blocks * self.BLOCK)

    def ask(self, kind: int, block: int = 0, count: int = 0) -> None:
        request = struct.pack("<H6xQH6x", kind, self.first + block * self.BLOCK if count else 0, count)
        self.driven.store(self.at, request)
        self.queue.run([(self.at, self.REQUEST_BYTES, False), (self.at + self.ANSWER_AT, self.ANSWER_BYTES, True)])
        answer = self.driven.adopt(self.at + self.ANSWER_AT, self.ANSWER_BYTES)
        must(answer[:2] == bytes(2), f"growing memory says {answer.hex()} to request {kind} of blocks {block} to {block + count}")

    def plug(self, block: int, count: int) -> None:
        """Plugs blocks, whose memory must be zeros whatever was there before."""
        self.allow(len(self.plugged) + count)
        self.ask(self.PLUG, block, count)
        for number in range(block, block + count):
            self.plugged.append(number)
            self.driven.memory[self.first + number * self.BLOCK] = bytearray(self.BLOCK)
            self.driven.check_region(self.first + number * self.BLOCK, "memory that was plugged")

    def unplug(self, block: int, count: int) -> None:
        for number in range(block, block + count):
            self.driven.check_region(self.first + number * self.BLOCK, "memory that is to be unplugged")
        self.allow(len(self.plugged) - count)
        self.ask(self.UNPLUG, block, count)
        self.forget(range(block, block + count))

    def unplug_all(self) -> None:
        self.allow(0)
        self.ask(self.UNPLUG_ALL)
        self.forget(self.plugged)

    def forget(self, blocks: Iterable[int]) -> None:
        for number in [*blocks]:
            self.plugged.remove(number)
            del self.driven.memory[self.first + number * self.BLOCK]


class SharedFile:
    """A file of a folder that a virtio-9p device shares, by 9P2000.L."""

    VERSION, ATTACH, WALK, OPEN, READ, WRITE = 100, 104, 110, 12, 116, 118
    LONGEST, ANSWER_AT, ANSWER_BYTES, HEAD_BYTES = 1 << 18, 512, 64, 11

    def __init__(self, queue: Queue, at: int, name: str) -> None:
        self.queue, self.at = queue, at

        def text(words: str) -> bytes:
            return struct.pack("<H", len(words)) + words.encode()

        self.do(self.VERSION, struct.pack("<I", self.LONGEST) + text("9P2000.L"))
        self.do(self.ATTACH, struct.pack("<Ii", 0, -1) + text("") + text("") + struct.pack("<i", -1))
        self.do(self.WALK, struct.pack("<IIH", 0, 1, 1) + text(name))
        self.do(self.OPEN, struct.pack("<II", 1, os.O_RDWR))

    def do(self, kind: int, words: bytes, sends: Sequence[tuple[int, int]] = (), gets: Sequence[tuple[int, int]] = ()) -> None:
        """Sends a message with what is in some buffers. What its answer has behind its head goes to others."""
        driven, answer_at = self.queue.driven, self.at + self.ANSWER_AT
        length = 7 + len(words) + sum(size for _, size in sends)
        answer_bytes = self.HEAD_BYTES if gets else self.ANSWER_BYTES
        driven.store(self.at, struct.pack("<IBH", length, kind, 0) + words)
        outward = [(self.at, 7 + len(words), False), *((at, size, False) for at, size in sends)]
        self.queue.run([*outward, (answer_at, answer_bytes, True), *((at, size, True) for at, size in gets)])
        answer = driven.adopt(answer_at, answer_bytes)
        must(answer[4] == kind + 1, f"the shared folder says {answer.hex()} to message {kind}")

    def transfer(self, is_write: bool, begin: int, buffers: Sequence[tuple[int, int]]) -> None:
        """Reads or writes so many bytes of the file as the buffers have, from a place in it on."""
        words = struct.pack("<IQI", 1, begin, sum(size for _, size in buffers))
        self.do(self.WRITE, words, sends=buffers) if is_write else self.do(self.READ, words, gets=buffers)


class Debugger:
    """A debugger at the machine, which stands still meanwhile, by the protocol of gdb."""

    def __init__(self, driven: Driven) -> None:
        self.socket = connected(driven.debugged, PATIENCE_SECONDS)
        self.came = b""
        self.do("Qqemu.PhyMemMode:1")

    def packet(self) -> str:
        while b"#" not in self.came[:-2]:
            part = self.socket.recv(8192)
            must(part != b"", f"the debugger's socket ends after {self.came!r}")
            self.came += part
        begin, end = self.came.index(b"$") + 1, self.came.index(b"#")
        words, self.came = self.came[begin:end].decode(), self.came[end + 3:]
        self.socket.sendall(b"+")
        return words

    def do(self, words: str) -> str:
        self.socket.sendall(f"${words}#{sum(words.encode()) % 256:02x}".encode())
        answer = self.packet()
        while answer.startswith("T"):  # (the machine stands still)
            answer = self.packet()
        must(not answer.startswith("E"), f"the debugger gets {answer} to {words[:40]}")
        return answer

    def load(self, at: int, size: int) -> bytes:
        return bytes.fromhex(self.do(f"m{at:x},{size:x}"))

    def store(self, at: int, data: bytes) -> None:
        self.do(f"M{at:x},{len(data):x}:{data.hex()}")

    def detach(self) -> None:
        """Leaves the machine, which goes on."""
        self.do("D")
        self.socket.close()


class Nvme:
    """An NVMe controller with one queue of commands."""

    DEPTH = 16

    def __init__(self, driven: Driven, slot: int, registers: int, at: int) -> None:
        self.driven, self.registers, self.at = driven, registers, at
        driven.enable(slot, 0, registers)
        driven.store(at, bytes(6 * PAGE))
        driven.put("writel", registers + 0x14, 0)
        driven.put("writel", registers + 0x24, (self.DEPTH - 1) << 16 | (self.DEPTH - 1))
        driven.put("writeq", registers + 0x28, at)
        driven.put("writeq", registers + 0x30, at + PAGE)
        driven.put("writel", registers + 0x14, 4 << 20 | 6 << 16 | 1)
        must(until(10, lambda: driven.get("readl", registers + 0x1C) & 1, 0.01)[0], "the NVMe controller doesn't begin")
        self.tails, self.heads, self.turns = [0, 0], [0, 0], [1, 1]
        self.command(0, struct.pack("<IIQQQQIIII", 5, 0, 0, 0, at + 3 * PAGE, 0, (self.DEPTH - 1) << 16 | 1, 1, 0, 0))
        self.command(0, struct.pack("<IIQQQQIIII", 1, 0, 0, 0, at + 2 * PAGE, 0, (self.DEPTH - 1) << 16 | 1, 1 << 16 | 1, 0, 0))

    def command(self, queue: int, words: bytes) -> None:
        """Makes one command and waits for it. The queues lie in four pages: commands and answers of both."""
        driven, base = self.driven, self.at + 2 * queue * PAGE
        driven.store(base + 64 * self.tails[queue], words.ljust(64, b"\0"))
        self.tails[queue] = (self.tails[queue] + 1) % self.DEPTH
        driven.put("writel", self.registers + 0x1000 + 8 * queue, self.tails[queue])
        place, end = base + PAGE + 16 * self.heads[queue], time.time() + PATIENCE_SECONDS
        while driven.load(place + 14, 1)[0] & 1 != self.turns[queue]:
            must(time.time() < end, "the NVMe controller doesn't answer")
            time.sleep(0.0005)
        status = struct.unpack("<H", driven.adopt(place, 16)[14:])[0] >> 1
        must(status == 0, f"the NVMe controller says {status:#x} to {words[:4].hex()}")
        self.heads[queue] = (self.heads[queue] + 1) % self.DEPTH
        self.turns[queue] ^= self.heads[queue] == 0
        driven.put("writel", self.registers + 0x1004 + 8 * queue, self.heads[queue])

    def transfer(self, is_write: bool, block: int, pages: Sequence[int]) -> None:
        """Reads or writes whole pages, from a block of 512 bytes on."""
        lists = self.at + 4 * PAGE
        if len(pages) > 2:
            self.driven.store(lists, struct.pack(f"<{len(pages) - 1}Q", *pages[1:]))
        second = pages[1] if len(pages) == 2 else lists if len(pages) > 2 else 0
        words = struct.pack("<IIQQQQQI", 1 if is_write else 2, 1, 0, 0, pages[0], second, block, len(pages) * PAGE // 512 - 1)
        self.command(1, words)

    def state(self) -> tuple[list[int], list[int], list[int]]:
        return [*self.tails], [*self.heads], [*self.turns]

    def restore(self, state: tuple[list[int], list[int], list[int]]) -> None:
        self.tails, self.heads, self.turns = ([*it] for it in state)
