"""`estimate` of small images: what it writes, its pictures letter by letter, each cause for which there is no estimate, and progress."""
from __future__ import annotations

import json
import pathlib
from collections.abc import Iterator

from command_cases.images import IMAGE_FAULTS, PAGE, core, distinct, image, sparse
from command_cases.subject import IS_A_FOLDER, LEAST, LITTLE, MISSING, NO_ROOM, ROWS, Subject, read
from harness import ANY

SALTED = ["estimate", "--workers", "2", "--salts", "0,0,5", "first.raw", "second.core", "first.raw"]
# The pages of two images, for a picture whose axis is in KiB, and for one in MiB: zeros, own, both and alone (see `image`).
PICTURES = [("kib.svg", (100, 50, 150, 100), (7, 13, 40, 0)), ("mib.svg", (3000, 40, 1000, 60), (500, 1500, 250, 10))]
# (characters that break a line, that steer a terminal, or that XML can't hold)
PICTURE_NAMES = ["web\u2028.raw", "<db>\u2029\uffff\x1b.raw"]
WRONG_WORDS: list[list[str]] = [
    [], ["--salts", "1", "a.raw", "a.raw"], ["--salts", "1,x", "a.raw", "a.raw"], ["--salts", "4294967296", "a.raw"],
    ["--workers", "0", "a.raw"], ["--workers", "65", "a.raw"], ["--progress", "often", "a.raw"], ["--svg"], ["--table", "a.raw"],
    ["--unit", "kib", "a.raw"], ["--pid", "0"], ["--pid"],
    ["--pid", "web"], ["--salts", "1", "--pid", "7", "a.raw"],
]


# Twenty pages of four guests, by the last byte of each; 0: zeros. And what `estimate` counts of them, worked out by hand. Zeros make two contents
# of three copies each, one of them in two guests. No content has two copies.
FOUR_GUESTS: list[tuple[str, list[int]]] = [("5", [0, 0, 1, 1, 1, 2, 2]), ("5", [0, 2, 2, 3, 3, 3, 3, 3, 4]), ("6", [0, 0, 0, 1]), ("8", [])]
FOUR_GUESTS_TOTAL = {
    "pages": 20, "zero": 6, "shared": 18, "frames": 7, "reclaimed": 13, "zero_reclaimed": 4, "between": 2,
    "parts": {"zeros": 4, "between": 1, "within": 8},
}
FOUR_GUESTS_COPIES = [(1, 1, 2, 2), (3, 4, 4, 13), (5, 8, 1, 5)]


def three_images(folder: pathlib.Path) -> Iterator[str]:
    """A raw image of three pages and a byte, an empty one, and a core of two pages, of which one is cut."""
    raw, empty, elf = folder / "a.raw", folder / "empty", folder / "elf.core"
    raw.write_bytes(bytes(2 * PAGE) + b"a" * PAGE + b"b")
    empty.write_bytes(b"")
    elf.write_bytes(core(segment=(4000, 4192)))
    return map(str, (raw, empty, elf))


def numbers(subject: Subject, folder: pathlib.Path) -> None:
    """How many pages images have: two cases for each list of words, by the table and by the object."""
    raw, empty, elf = three_images(folder)
    for words, pages in [([raw], 4), ([empty], 0), ([elf], 2), (["--raw", elf], 2), ([raw, "--workers", "64", raw], 8)]:
        done = subject.run(["estimate", "--json", *words])
        counted = json.loads(done.stdout or b"{}").get("total", {"pages": 0})["pages"]
        table = subject.run(["estimate", *words])
        subject.tally.ends(f"estimate {words}", table, 0, ANY, "")
        is_right = counted == pages and table.stdout.decode().startswith("Each number in MiB.\n")
        subject.tally.holds(f"estimate {words}", is_right, done.stdout, f"{pages} pages")


def tables(subject: Subject) -> None:
    """The worked table of checks/rows, in both units."""
    in_pages = [*SALTED, "--unit", "pages"]
    subject.writes("estimate of images.estimate-pages", in_pages, read("images.estimate-pages"), cwd=ROWS)
    subject.writes("estimate of images.estimate", SALTED, read("images.estimate"), cwd=ROWS)


def worked(subject: Subject, folder: pathlib.Path) -> None:
    """The numbers of FOUR_GUESTS, of the same 200 pages under two salts by one to five workers, and of no page."""
    paths = [str(folder / f"worked-{n}.raw") for n in range(len(FOUR_GUESTS))]
    for path, (_, lasts) in zip(paths, FOUR_GUESTS):
        pathlib.Path(path).write_bytes(b"".join(bytes(PAGE - 1) + bytes([last]) for last in lasts))
    salts = ",".join(salt for salt, _ in FOUR_GUESTS)
    found = json.loads(subject.run(["estimate", "--json", "--salts", salts, *paths]).stdout)
    subject.tally.equal("estimate of four guests", found["total"], FOUR_GUESTS_TOTAL)
    copies = [tuple(row[name] for name in ("from", "to", "contents", "pages")) for row in found["copies"]]
    subject.tally.equal("estimate of four guests, copies", copies, FOUR_GUESTS_COPIES)
    same = folder / "same.raw"
    same.write_bytes(b"".join(bytes([1]) + bytes([n % 50]) * (PAGE - 1) for n in range(200)))
    for workers in range(1, 6):
        words = ["estimate", "--json", "--workers", str(workers), "--salts", "7,9", str(same), str(same)]
        found = json.loads(subject.run(words).stdout)
        guests = [[guest[name] for name in ("pages", "zero", "distinct", "shared", "alone")] for guest in found["guests"]]
        counts = (guests, found["total"]["frames"], [tuple(row.values()) for row in found["copies"]])
        subject.tally.equal(f"estimate by {workers} workers", counts, ([[200, 0, 50, 200, 150]] * 2, 100, [(3, 4, 100, 400)]))
    # (the name has a quotation mark, a backslash and a line feed)
    name = 'a"\\\n\u65e5'
    (folder / name).write_bytes(b"")
    zeros = '"pages":0,"zero":0,'
    due = (
        f'{{"page_bytes":4096,"guests":[{{"image":"a\\"\\\\\\n\u65e5","salt":4294967295,{zeros}"distinct":0,"shared":0,"alone":0}}],"total":{{{zeros}'
        '"shared":0,"frames":0,"reclaimed":0,"zero_reclaimed":0,"between":0,"parts":{"zeros":0,"between":0,"within":0}},"copies":[]}'
    )
    words = ["--salts", str(2**32 - 1), name]
    subject.tally.equal("estimate of no page", subject.run(["estimate", "--json", *words], cwd=folder).stdout.decode().rstrip("\n"), due)
    table = subject.run(["estimate", *words], cwd=folder).stdout.decode()
    sentence = "\n0.0 of 0.0 MiB could be reclaimed (0.0 %): 0.0 zeros, 0.0 between guests, 0.0 within guests\n"
    subject.tally.holds("estimate of no page, its sentence", sentence in table, table, sentence)
    many = [sparse(folder / f"zeros-{n}.raw", PAGE * 45_407) for n in range(2)]
    table = subject.run(["estimate", "--unit", "pages", *many]).stdout.decode()
    line = "65537 to 131072                    1           90814\n"
    subject.tally.holds("estimate of 90,814 zeros", line in table, table, line)


def broken_images(subject: Subject, folder: pathlib.Path) -> None:
    """Each fault of an image, which comes second."""
    for n, (data, cause) in enumerate(IMAGE_FAULTS):
        path = folder / f"{n}.core"
        path.write_bytes(data)
        subject.fails(f"estimate, {cause}", ["estimate", str(folder / "a.raw"), str(path)], f"{path}: {cause}\n")


def pictures(subject: Subject, folder: pathlib.Path) -> None:
    """Pictures of two guests, letter by letter: one whose axis is in KiB and one in MiB."""
    for name, *parts in PICTURES:
        for guest, (file, pages) in enumerate(zip(PICTURE_NAMES, parts)):
            (folder / file).write_bytes(image(guest, *pages))
        subject.writes(f"the picture {name}", ["estimate", "--svg", name, *PICTURE_NAMES], ANY, cwd=folder)
        subject.tally.equal(f"the picture {name}", (folder / name).read_text(), read(name))


def amounts(subject: Subject, folder: pathlib.Path) -> None:
    """The amounts of a picture on both sides of a MiB, and a salt as long as it may be."""
    for pages, shown in [(255, "1020 KiB"), (256, "1.0 MiB"), (257, "1.0 MiB")]:
        svg, raw = folder / "amount.svg", sparse(folder / "amount.raw", PAGE * pages)
        subject.writes(f"the picture of {pages} pages", ["estimate", "--svg", str(svg), raw], ANY)
        text = svg.read_text()
        is_right = f"zeros ({shown})</text>" in text and f">{shown}</text></g>" in text
        subject.tally.holds(f"the picture of {pages} pages", is_right, text, f"{shown} of zeros, and for the guest")
    line = "    0               1               1               0               1               0  4294967295  a.raw\n"
    done = subject.run(["estimate", "--unit", "pages", "--salts", str(2**32 - 1), sparse(folder / "a-page.raw", PAGE)])
    line = line.replace("a.raw", str(folder / "a-page.raw"))
    subject.tally.holds("estimate, the greatest salt", line in done.stdout.decode(), done.stdout, line)


def names(subject: Subject, folder: pathlib.Path) -> None:
    """How a picture shows names: escaped as XML wants, and of a name of more than 22 columns the end."""
    plain, wide = "1234567890123456789012", "\u65e5\u672c\u8a9e-a-b-c-d-e-f-g-h.raw"
    quoted = "&lt;a &amp; &apos;b&apos; &quot;c&quot;&gt;"
    for name, xml, short in [
        ("<a & 'b' \"c\">", quoted, quoted), (plain, plain, plain), (f"0{plain}", f"0{plain}", f"\u2026{plain[1:]}"),
        (wide, wide, f"\u2026{wide[3:]}"),
    ]:
        sparse(folder / name, PAGE)
        subject.writes(f"the picture of {name}", ["estimate", "--svg", "names.svg", name], ANY, cwd=folder)
        text = (folder / "names.svg").read_text()
        is_right = f"<title>{xml}</title>" in text and f">{short}  0</text>" in text
        subject.tally.holds(f"the names in the picture of {name}", is_right, text, f"{xml} and {short}")


def large(subject: Subject, folder: pathlib.Path) -> None:
    """Many contents and many guests: there is memory for them, so none is refused."""
    many = distinct(folder / "distinct.raw", 20_000)
    guests = [sparse(folder / f"guest-{n}.raw", PAGE) for n in range(300)]
    for name, words, pages, frames in [
        ("20,000 contents", [many], 20_000, 20_000), ("20,000 contents twice", [many, many], 40_000, 20_000), ("300 guests", guests, 300, 1),
    ]:
        done = subject.run(["estimate", "--json", *words])
        total = json.loads(done.stdout or b"{}").get("total", {})
        found = (total.get("pages"), total.get("frames"), done.stderr)
        subject.tally.equal(f"estimate of {name}", found, (pages, frames, b""))


def bad_paths(subject: Subject, folder: pathlib.Path) -> None:
    """Paths that lead to no image, to no place for a picture, or to a device that takes nothing."""
    raw, none, svg = str(folder / "a.raw"), str(folder / "none"), folder / "a.svg"
    subject.fails("estimate, no such file", ["estimate", raw, none], f"{none}: {MISSING}\n")
    subject.fails("estimate, a folder", ["estimate", str(folder)], f"{folder}: {IS_A_FOLDER}\n")
    subject.fails("estimate, a device", ["estimate", "/dev/zero"], "/dev/zero: not a regular file\n")
    controls = "".join(map(chr, [*range(1, 32), *range(127, 160)]))
    subject.fails("estimate, control characters", ["estimate", f"a{controls}b"], f"a{len(controls) * chr(0xfffd)}b: {MISSING}\n")
    nowhere = str(folder / "none" / "a.svg")
    subject.fails("estimate, no place for the picture", ["estimate", "--svg", nowhere, raw], f"{nowhere}: {MISSING}\n")
    subject.full_device("estimate, a full device", ["estimate", raw], f"standard output: {NO_ROOM}\n")
    subject.fails("estimate, a picture to a full device", ["estimate", "--svg", "/dev/full", raw], f"/dev/full: {NO_ROOM}\n")
    subject.writes("estimate, a picture", ["estimate", "--svg", str(svg), raw], ANY)
    subject.tally.holds("estimate, a picture", svg.read_text().endswith("</svg>\n"), svg.read_text()[-100:], "a whole picture")


def too_much(subject: Subject, folder: pathlib.Path) -> None:
    """More pages than can be counted, and more than there is memory for."""
    raw, large = str(folder / "a.raw"), [sparse(folder / f"large-{n}", PAGE << 31) for n in (1, 2)]
    subject.fails("estimate, too many pages", ["estimate", *large], f"{large[1]}: more than 4,294,967,295 pages in all\n")
    subject.fails("estimate, little memory", ["estimate", large[0]], f"{large[0]}: out of memory\n", limits=LITTLE)
    subject.fails("estimate, little memory", ["estimate", large[0], raw], f"{large[0]} and 1 more: out of memory\n", limits=LITTLE)


def command_line(subject: Subject, folder: pathlib.Path) -> None:
    """Words that aren't taken, and help."""
    raw = str(folder / "a.raw")
    subject.refuses("estimate", [[raw if word == "a.raw" else word for word in many] for many in WRONG_WORDS])
    subject.writes("estimate --help", ["estimate", "--help"], ANY)


def progress(subject: Subject, folder: pathlib.Path) -> None:
    """The line of progress: of an image of no MiB, of 9 MiB, and of as much as a little memory has room for."""
    raw = str(folder / "a.raw")
    shown = subject.run(["estimate", "--progress", "always", raw]).stderr.decode()
    is_drawn = shown.startswith("\r100 %  0 of 0 MiB") and shown.endswith("s left\x1b[K\n")
    subject.tally.holds("estimate, progress", is_drawn, shown)
    # (with 20 bytes a page, the larger one takes 5 MiB)
    for size, more, limits in [(9, ["--progress", "always"], None), (1024, ["--workers", "1"], LEAST)]:
        done = subject.run(["estimate", *more, sparse(folder / "whole", size << 20)], limits=limits)
        line = f"100 %  {size} of {size} MiB" if "--progress" in more else ""
        is_right = done.returncode == 0 and line in done.stderr.decode().split("\r")[-1]
        subject.tally.holds(f"estimate {more}, {size} MiB", is_right, (done.returncode, done.stderr[-200:]))
    subject.draws_on_terminals("estimate", ["estimate", raw])
