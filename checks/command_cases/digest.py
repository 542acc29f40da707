"""`digest` of small images beside a count in Python (common/plain_fleet.py), and each cause for which there is no digest."""
from __future__ import annotations

import pathlib

from command_cases.images import CORES, IMAGE_FAULTS, PAGE, core, core_of, distinct, image, pages_at, sparse
from command_cases.subject import IS_A_FOLDER, LEAST, MISSING, NO_ROOM, ROWS, Subject, read
from common.plain_fleet import HEADER, ZEROS, digest, text_of_pages
from common.plain_images import pages_of_bytes
from harness import ANY


def digest_of(name: str, data: bytes, salt: int = 0, sample: int = 1) -> str:
    """The digest's text that is due of an image's bytes."""
    return text_of_pages(name, salt, sample, pages_of_bytes(data))


def digests(subject: Subject, folder: pathlib.Path) -> None:
    """Raw images and an empty one, with several salts, samples and numbers of workers."""
    first, large, empty = ROWS / "first.raw", folder / "large.raw", folder / "empty.raw"
    large.write_bytes(image(0, 700, 30, 40, 300) + b"a")
    empty.write_bytes(b"")
    due = digest_of("first.raw", first.read_bytes())
    subject.tally.equal("first.digest", read("first.digest"), due)
    subject.writes("digest of first.raw", ["digest", "first.raw"], due, cwd=ROWS)
    subject.writes("digest of a path", ["digest", str(first)], due)
    subject.writes("digest of no pages", ["digest", str(empty)], HEADER)
    for salt, sample, workers in [(0, 1, 1), (7, 1, 3), (4294967295, 2, 64), (0, 64, 2), (9, 65536, 4)]:
        words = ["digest", "--name", "web-1", "--salt", str(salt), "--sample", str(sample), "--workers", str(workers), str(large)]
        subject.writes(f"{words}", words, digest_of("web-1", large.read_bytes(), salt, sample))


def large(subject: Subject, folder: pathlib.Path) -> None:
    """20,000 contents, and 65,536 pages of zeros: there is memory for them, so none is refused."""
    many, zeros = folder / "distinct.raw", sparse(folder / "zeros.raw", PAGE << 16)
    distinct(many, 20_000)
    subject.writes("digest of 20,000 contents", ["digest", str(many)], digest_of("distinct.raw", many.read_bytes()))
    line = f"zeros.raw,0,65536,1,{digest(0, ZEROS)},65536\n"
    subject.writes("digest of 65,536 pages", ["digest", zeros], HEADER + line)


def cores(subject: Subject, folder: pathlib.Path) -> None:
    """Cores whose segments begin and end within a page, the same read as raw, and raw images of which the last page is cut."""
    elf = folder / "elf.core"
    elf.write_bytes(core(segment=(4000, 4192)))
    subject.writes("digest of a core", ["digest", str(elf)], digest_of("elf.core", elf.read_bytes()[4000:]))
    subject.writes("digest of a core as raw", ["digest", "--raw", str(elf)], digest_of("elf.core", elf.read_bytes()))
    for n, (data, places) in enumerate(CORES):
        elf.write_bytes(data)
        subject.writes(f"digest of core {n}", ["digest", str(elf)], text_of_pages("elf.core", 0, 1, pages_at(data, places)))
    # Raw images, each also asked for as raw.
    for size in (0, 1, 3, PAGE - 1, PAGE, PAGE + 1, 3 * PAGE):
        data = core_of(PAGE * 4, [])[64 : 64 + size]
        elf.write_bytes(data)
        places = [(at, min(PAGE, size - at)) for at in range(0, size, PAGE)]
        for words in (["digest"], ["digest", "--raw"]):
            subject.writes(f"{words} of {size} bytes", [*words, str(elf)], text_of_pages("elf.core", 0, 1, pages_at(data, places)))


def bad_inputs(subject: Subject, folder: pathlib.Path) -> None:
    """Paths that lead to no image, images at fault, a full device, and too little memory."""
    none, broken = str(folder / "none"), folder / "broken.core"
    subject.fails("digest, no such file", ["digest", none], f"{none}: {MISSING}\n")
    subject.fails("digest, a folder", ["digest", "--name", "a", str(folder)], f"{folder}: {IS_A_FOLDER}\n")
    subject.fails("digest, a device", ["digest", "/dev/zero"], "/dev/zero: not a regular file\n")
    for data, cause in IMAGE_FAULTS:
        broken.write_bytes(data)
        subject.fails(f"digest, {cause}", ["digest", str(broken)], f"{broken}: {cause}\n")
    subject.full_device("digest, a full device", ["digest", str(folder / "large.raw")], f"standard output: {NO_ROOM}\n")
    large = sparse(folder / "sparse", PAGE << 22)
    subject.fails("digest, little memory", ["digest", "--workers", "2", large], f"{large}: out of memory\n", limits=LEAST)


def command_line(subject: Subject, folder: pathlib.Path) -> None:
    """Words that aren't taken, help, and the line of progress."""
    raw = str(folder / "large.raw")
    subject.refuses("digest", [
        [], [raw, raw], ["--pid", "1"], ["--pid", "0", "--name", "a"], ["--pid", "1", "--name", "a", raw], ["--salt", "x", raw],
        ["--name", "a b", raw], ["--name", "", raw], ["--name", "a" * 65, raw], ["--sample", "3", raw], ["--sample", "0", raw],
        ["--sample", "131072", raw], ["--workers", "65", raw], [str(folder) + "/"], [str(folder / "a b")], ["--json", raw],
    ])
    subject.writes("digest --help", ["digest", "--help"], ANY)
    shown = subject.run(["digest", "--progress", "always", raw]).stderr.decode()
    is_drawn = "100 %  4 of 4 MiB" in shown.split("\r")[-1] and shown.endswith("s left\x1b[K\n")
    subject.tally.holds("digest, progress", is_drawn, shown)
