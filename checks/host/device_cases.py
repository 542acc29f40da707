"""What the library makes of descriptors and requests of a monitor: checks/host/descriptors.c."""
from __future__ import annotations

import os
import pathlib
import subprocess
import tempfile
from collections.abc import Mapping, Sequence

from harness import StrPath
from parts_cases import slow_files
from places import CC, FLAGS, HERE, OUT, TOP, LeftOut, must

# (stand-ins: files of these names, in a /dev of the case's own)
WRITE_ALL = ("vfio/vfio", "vfio/12", "vfio/devices/vfio0", "vhost-vdpa-0", "vhost-scsi", "sg0", "sg12", "bsg/0:0:0:0", "ng0n1", "iommu",
             "infiniband/uverbs0", "nvme0", "nvme12")
HARMLESS = ("kvm", "null", "vhost-net", "sda", "nvme0n1", "nvme0n1p2", "nvme12n1", "net/tun", "snd", "urandom", "dri/card0", "sgx_vepc", "sgx_enclave",
            "sgx/enclave")
REQUESTS = {
    "vfio-map": "write-all", "vdpa-status": "write-all", "sg-io": "write-all", "nvme-io": "write-all", "nvme-io64": "write-all",
    "nvme-admin": "none", "vfio-unmap": "none", "terminal": "none", "no-vmx": "none",
}


def build() -> pathlib.Path:
    program = OUT / "descriptors"
    found = [TOP / it for it in ("checks/host/descriptors.c", "checks/host/breaker/ring.c", "host/devices.c", "window/lines.c")]
    words: list[StrPath] = [CC, *FLAGS, f"-I{TOP / 'host'}", f"-I{TOP / 'window'}", "-o", program, *found]
    must(subprocess.run(words).returncode == 0, "descriptors.c doesn't compile")
    return program


def verdicts(words: Sequence[StrPath], first: Sequence[str] = ()) -> dict[str, str]:
    """What the program says of each word."""
    ran = subprocess.run([*first, *words], capture_output=True, text=True)
    must(ran.returncode == 0, f"{words}: {ran}")
    return dict(line.split(" ", 1) for line in ran.stdout.splitlines())


def compare(said: Mapping[str, str], due: Mapping[str, str]) -> None:
    wrong = {word: (said.get(word), verdict) for word, verdict in due.items() if said.get(word) not in (verdict, "left out")}
    left = [word for word in due if said.get(word) == "left out"]
    print(f"  {len(due) - len(wrong) - len(left)} as they should be, {len(left)} left out {left or ''}")
    must(not wrong, f"what was said and what was due: {wrong}")


def case_devices() -> None:
    """Files by O_DIRECT on each file system that this machine has, io_uring, io_submit, devices by their names, and requests."""
    program = build()
    on_disk, in_memory = (tempfile.NamedTemporaryFile(dir=folder) for folder in ("/var/tmp", "/dev/shm"))
    disk, memory = f"direct:{on_disk.name}", f"direct:{in_memory.name}"
    due = {f"file:{on_disk.name}": "none", "memory": "none", "ring": "none", "submit": "none", "buffers": "pin", disk: "read", memory: "read",
           f"{disk},ring": "pin", f"{disk},submit": "pin", f"{disk},buffers": "pin", f"file:{on_disk.name},ring": "none",
           f"files:{on_disk.name}": "pin", "xdp": "pin"}
    due |= {f"then-{what}:{on_disk.name}": "pin" for what in ("submit", "hidden", "files")}
    due |= {f"request:{name}": verdict for name, verdict in REQUESTS.items()}
    newer = tuple(int(it) for it in os.uname().release.split(".")[:2]) >= (6, 13)
    due["request:vmx"] = "pin" if newer else "write-all"
    compare(verdicts([program, *due]), due)
    compare(*on_overlay(program))
    compare(*on_slow_files(program))
    compare(*by_names(program))


def on_overlay(program: StrPath) -> tuple[dict[str, str], dict[str, str]]:
    """A file by O_DIRECT on a file system of which it isn't known that it pins pages."""
    room = HERE.place.room / "overlay"
    for name in ("lower", "upper", "work", "all"):
        (room / name).mkdir(parents=True, exist_ok=True)
    (room / "upper/file").write_bytes(bytes(4096))
    due = {f"direct:{room}/all/file": "write-all", f"file:{room}/all/file": "none"}
    mount = f"mount -t overlay none -o lowerdir={room}/lower,upperdir={room}/upper,workdir={room}/work {room}/all"
    if subprocess.run(["unshare", "-m", "sh", "-c", mount], capture_output=True).returncode != 0:
        raise LeftOut("overlay, since it can't be mounted")
    return verdicts([program, *due], ["unshare", "-m", "sh", "-c", f'{mount} && exec "$@"', "sh"]), due


def on_slow_files(program: StrPath) -> tuple[dict[str, str], dict[str, str]]:
    """Files of FUSE: also without O_DIRECT they may pin pages."""
    before, file = slow_files(0)
    due = {f"file:{file}": "read", f"file:{file},ring": "write-all", f"file:{file},submit": "write-all", f"direct:{file}": "write-all"}
    return verdicts([program, *due], [str(it) for it in before]), due


def by_names(program: StrPath) -> tuple[dict[str, str], dict[str, str]]:
    """Character devices that have others' names."""
    due = {f"file:/dev/{name}": "write-all" for name in WRITE_ALL} | {f"file:/dev/{name}": "none" for name in HARMLESS}
    # (each is /dev/null by another name)
    make = ('mount -t tmpfs none /dev && for name in $NAMES; do mkdir -p "$(dirname "/dev/$name")" && mknod "/dev/$name" c 1 3; done && '
            'exec "$@"')
    names = " ".join((*WRITE_ALL, *HARMLESS))
    return verdicts([program, *due], ["env", f"NAMES={names}", "unshare", "-m", "sh", "-c", make, "sh"]), due


def case_lines() -> None:
    """Text files are read line by line without malloc, as a plain reading finds them."""
    program = HERE.place.room / "lines"
    words: list[StrPath] = [CC, *FLAGS, "-fsanitize=address,undefined", f"-I{TOP / 'window'}", "-o", program]
    must(subprocess.run([*words, TOP / "checks/host/lines.c", TOP / "window/lines.c"]).returncode == 0, "lines.c doesn't compile")
    must(subprocess.run([program]).returncode == 0, "a line is another one")
