"""`fleet`: the numbers of digests merged, what each two of their guests have in common, each cause for which there are none, and
progress."""
from __future__ import annotations

import itertools
import json
import os
import pathlib
import re
import threading
import time
from collections.abc import Iterable
from typing import Any

from command_cases.subject import IS_A_FOLDER, MISSING, NO_ROOM, ROWS, Subject, read
from common import plain_fleet
from common.plain_fleet import HEADER
from harness import ANY

IMAGES = [str(ROWS / name) for name in ("first.raw", "second.core", "first.raw")]
SALTS = ["0", "0", "5"]
FORM = "give six fields of their form, with commas between them and a line feed behind them"
SLOW_LINES = 150
HEAD = 'begin with the line "guest,salt,pages,sample,digest,copies"'
GUEST = "repeat the guest, salt, pages and sample of the line before"
ORDER = "give each digest once, rising"
SAMPLED = "give only digests that the sample keeps"
TOTAL = "give as many copies as there are pages, or with a sample at most that many"
DIGEST = "00e1000000000000000000000000000a"
# A line that isn't of the form, behind the header.
WRONG_LINES = [
    f"web,0,4,1,{DIGEST}\n", f"web,0,4,1,{DIGEST},3,4\n", f",0,4,1,{DIGEST},3\n", f"w b,0,4,1,{DIGEST},3\n", f"web,00,4,1,{DIGEST},3\n",
    f"web,4294967296,4,1,{DIGEST},3\n", f"web,0,18446744073709551616,1,{DIGEST},3\n", f"web,0,4,3,{DIGEST},3\n", f"web,0,4,0,{DIGEST},3\n",
    f"web,0,4,131072,{DIGEST},3\n", "web,0,4,1,00E1000000000000000000000000000a,3\n", f"web,0,4,1,{DIGEST[1:]},3\n", f"web,0,4,1,{DIGEST},0\n",
    f"web,0,4,1,{DIGEST},3\r\n", f"web,0,4,1,{DIGEST},3", "\n", f"{'a' * 65},4294967295,{2**64 - 1},65536,{'f' * 28}0000,{2**64 - 1}\n",
    *["a" * length + "\n" for length in (256, 257, 70_000)],
]
# A line behind one with three of the guest's four pages, and what is said at which line.
SECOND_LINES = [
    ("wev,0,4,1,00e1000000000000000000000000000b,1\n", 3, GUEST), ("web,1,4,1,00e1000000000000000000000000000b,1\n", 3, GUEST),
    ("web,0,5,1,00e1000000000000000000000000000b,1\n", 3, GUEST), ("web,0,4,2,00e1000000000000000000000000000b,1\n", 3, GUEST),
    ("web,0,4,1,00e1000000000000000000000000000a,1\n", 3, ORDER), ("web,0,4,1,00e0000000000000000000000000000b,1\n", 3, ORDER),
    ("web,0,4,1,00e1000000000000000000000000000B,1\n", 3, FORM), ("web,0,4,1,00e1000000000000000000000000000b;1\n", 3, FORM), ("", 2, TOTAL),
    ("web,0,4,1,00e1000000000000000000000000000b,2\n", 3, TOTAL),
]
# Whole texts, and what is said of them.
WRONG_TEXTS = [
    (HEADER[:-1], 1, FORM), ("guest,salt,pages,sample,digest\n", 1, FORM), ("name,salt,pages,sample,digest,copies\n", 1, HEAD),
    (f"{HEADER}web,0,4,2,00e1000000000000000000000000000b,3\n", 2, SAMPLED), (f"{HEADER}web,0,4,2,{DIGEST},5\n", 2, TOTAL),
    *[(HEADER + line, 2, FORM) for line in WRONG_LINES],
    *[(f"{HEADER}web,0,4,1,{DIGEST},3\n{line}", number, cause) for line, number, cause in SECOND_LINES],
]
# Three guests, of which the first two have zeros and a content in common, and the last two nothing. The digest of zeros is by sha256sum.
ZEROS_LINE = "ad7facb2586fc6e966c004d7d1d16b02,3"
WORKED = {
    "web": HEADER + f"web,0,7,1,{DIGEST},3\nweb,0,7,1,50000000000000000000000000000000,1\nweb,0,7,1,{ZEROS_LINE}\n",
    "db": HEADER + f"db,0,6,1,{DIGEST},2\ndb,0,6,1,{ZEROS_LINE}\ndb,0,6,1,c0000000000000000000000000000001,1\n",
    "mail": HEADER + "mail,0,5,1,50000000000000000000000000000000,4\nmail,0,5,1,e0000000000000000000000000000001,1\n",
    "empty": HEADER, "salted": HEADER + f"salted,7,3,1,{ZEROS_LINE}\n",
    "sampled": HEADER + "sampled,0,3,16,00e10000000000000000000000000010,3\n",
    "whole": HEADER + f"whole,0,{2**64 - 1},1,{DIGEST},{2**64 - 1}\n",
    # One content in 65,536 is kept, and has 2^50 copies: 2^66 are estimated.
    "heavy": HEADER + f"heavy,0,{2**50},65536,00e10000000000000000000000010000,{2**50}\n",
}
# Names, salts and a sample as long as they may be.
LONG_NAMES = ["w" * 63 + "1", "w" * 63 + "2"]
LAST_SALT = 2**32 - 1
MOST_SAMPLED = 65536
# The numbers of a row of a sampled table, in the order of its columns: with a `*` those that have a standard error behind them.
OF_GUESTS = ["pages", "zero", "shared*", "distinct*", "alone*", "salt"]
OF_TOTAL = ["pages", "zero", "shared*", "frames*", "reclaimed*", "zero_reclaimed", "between*", "within*"]


def rounded(folder: pathlib.Path) -> list[str]:
    """The digests of two guests whose numbers in total are rounded to different MiB: pages 1,067, to reclaim 863, between guests 152,
    zeros 128, and of these 127 to reclaim."""
    zeros, both = plain_fleet.digest(0, plain_fleet.ZEROS), "1" * 32
    once = [f"{n:032x}" for n in range(200)]
    one = {zeros: 100, both: 300, "2" * 32: 5, **dict.fromkeys(once, 1)}
    other = {zeros: 28, both: 84, "3" * 32: 200, **dict.fromkeys(once[50:], 1)}
    paths = [folder / "one.digest", folder / "other.digest"]
    for path, copies in zip(paths, [one, other]):
        path.write_text(plain_fleet.text_of_copies(path.stem, 0, 1, copies))
    return list(map(str, paths))


def digests_of_images(subject: Subject, folder: pathlib.Path) -> list[str]:
    """The digests of IMAGES, with their salts."""
    paths = [folder / f"guest-{n}.digest" for n in range(3)]
    for path, image, salt in zip(paths, IMAGES, SALTS):
        path.write_bytes(subject.run(["digest", "--salt", salt, image]).stdout)
    return list(map(str, paths))


def worked(subject: Subject, folder: pathlib.Path) -> None:
    """The numbers of WORKED, added up by hand, and which of these digests can't be merged."""
    paths = {name: str(folder / f"{name}.worked") for name in WORKED}
    for name, text in WORKED.items():
        pathlib.Path(paths[name]).write_text(text)

    def merged(*names: str) -> dict[str, Any]:
        found: dict[str, Any] = json.loads(subject.run(["fleet", "--json", *[paths[name] for name in names]]).stdout or b"{}")
        return found

    def guest(name: str | None, *numbers: int | None) -> plain_fleet.Numbers:
        return dict(zip(("guest", "salt", "pages", "zero", "distinct", "shared", "alone"), (name, *numbers)))

    found = merged("web", "empty", "db")
    due = [guest("web", 0, 7, 3, 3, 6, 4), guest(None, None, 0, 0, 0, 0, 0), guest("db", 0, 6, 3, 3, 5, 3)]
    subject.tally.equal("fleet of worked digests, guests", found.get("guests"), due)
    total = {"pages": 13, "zero": 6, "shared": 11, "frames": 4, "reclaimed": 9, "zero_reclaimed": 5, "between": 2,
             "parts": {"zeros": 5, "between": 1, "within": 3}}
    subject.tally.equal("fleet of worked digests, total", found.get("total"), total)
    classes = [{"from": 1, "to": 1, "contents": 2, "pages": 2}, {"from": 5, "to": 8, "contents": 2, "pages": 11}]
    subject.tally.equal("fleet of worked digests, copies", found.get("copies"), classes)
    found = merged("web", "salted")
    subject.tally.equal("fleet of two salts", (found["total"]["zero"], found["guests"][1]["zero"]), (3, 0))
    pairs = folder / "worked.csv"
    subject.run(["fleet", "--pairs", str(pairs), *[paths[name] for name in ("web", "db", "mail")]])
    subject.tally.equal("fleet of worked digests, pairs", pairs.read_text(), "guest,guest,contents,pages\nweb,db,2,9\nweb,mail,1,4\ndb,mail,0,0\n")
    subject.tally.equal("fleet of an empty digest and a sample", merged("empty", "sampled").get("sample"), 16)
    subject.tally.equal("fleet of the most pages", merged("whole").get("total", {}).get("pages"), 2**64 - 1)
    words = ["fleet", *[paths[name] for name in ("web", "empty", "sampled")]]
    subject.fails("fleet, another sample behind an empty digest", words, f"{paths['sampled']}: another sample than in the digests before\n")
    most = "more than 18,446,744,073,709,551,615 pages\n"
    subject.fails("fleet, a page too many", ["fleet", paths["whole"], paths["web"]], f"{paths['whole']} and 1 more: {most}")
    subject.fails("fleet, too many pages by an estimate", ["fleet", paths["heavy"]], f"{paths['heavy']}: {most}")


def texts_at_fault(subject: Subject, folder: pathlib.Path) -> None:
    """Texts of each wrong form, behind a digest that is right: the file's line, and its cause."""
    good, broken = str(ROWS / "first.digest"), folder / "fault.digest"
    for text, number, cause in WRONG_TEXTS:
        broken.write_bytes(text.encode())
        subject.fails(f"fleet of {text[-60:]!r}", ["fleet", good, str(broken)], f"{broken}: line {number}: {cause}\n")
    # (a longest line is read: what is wrong is then how many pages it stands for)
    broken.write_text(f"{HEADER}{'a' * 64},{LAST_SALT},{2**64 - 1},65536,{'f' * 28}0000,{2**64 - 1}\n")
    subject.fails("fleet of the longest line", ["fleet", str(broken)], f"{broken}: more than 18,446,744,073,709,551,615 pages\n")


def tables(subject: Subject, folder: pathlib.Path) -> None:
    """The worked tables and objects of checks/rows."""
    subject.writes("fleet of images.fleet", ["fleet", *digests_of_images(subject, folder)], read("images.fleet"))
    sampled = ["fleet", "sampled-web.digest", "sampled-database.digest"]
    subject.writes("fleet of sampled.fleet", sampled, read("sampled.fleet"), cwd=ROWS)
    subject.writes("fleet of sampled.json", [*sampled, "--json"], read("sampled.json"), cwd=ROWS)
    subject.writes("fleet of rounded.fleet", ["fleet", *rounded(folder)], read("rounded.fleet"))


def numbers(subject: Subject, folder: pathlib.Path) -> None:
    """The numbers of digests are those of `estimate` of their images; and those of a digest without lines are none."""
    counted = json.loads(subject.run(["estimate", "--json", "--salts", ",".join(SALTS), *IMAGES]).stdout)
    printed = json.loads(subject.run(["fleet", "--json", *digests_of_images(subject, folder)]).stdout)
    for guest in [*counted["guests"], *printed["guests"]]:
        guest.pop("image", None) or guest.pop("guest")
    subject.tally.equal("fleet beside estimate", printed, counted)
    empty = folder / "empty.digest"
    empty.write_text(HEADER)
    given = json.loads(subject.run(["fleet", "--json", str(empty)]).stdout)
    due: plain_fleet.Numbers = {"guest": None, "salt": None, **dict.fromkeys(["pages", "zero", "distinct", "shared", "alone"], 0)}
    subject.tally.equal("fleet of no pages", (given["guests"], given["copies"]), ([due], []))


def pairs(subject: Subject, folder: pathlib.Path) -> None:
    """What each two guests have in common, by hand: of the two images zeros, 2 and 2 pages, and two contents of 1 and 1."""
    images, empty = [str(folder / f"guest-{n}.digest") for n in range(3)], str(folder / "empty.digest")
    sampled = [str(ROWS / "sampled-web.digest"), str(ROWS / "sampled-database.digest")]
    header, errors = "guest,guest,contents,pages\n", "guest,guest,contents,contents_error,pages,pages_error\n"
    path = folder / "pairs.csv"
    for name, paths, due in [
        ("images", images, header + "first.raw,second.core,3,5\nfirst.raw,first.raw,0,0\nsecond.core,first.raw,0,0\n"),
        ("a sample", sampled, errors + "web,database,17,15,749,46\n"),
        ("one guest", images[:1], header),
        ("no pages", [empty, images[0]], header + ",first.raw,0,0\n"),
    ]:
        plain = subject.run(["fleet", *paths]).stdout.decode()
        path.unlink(missing_ok=True)
        subject.writes(f"fleet --pairs, {name}", ["fleet", "--pairs", str(path), *paths], plain)
        subject.tally.equal(f"fleet --pairs, {name}", path.read_text() if path.exists() else None, due)
    nowhere = str(folder / "none" / "pairs.csv")
    subject.fails("fleet, no place for the pairs", ["fleet", "--pairs", nowhere, *images], f"{nowhere}: {MISSING}\n")
    subject.fails("fleet, pairs to a full device", ["fleet", "--pairs", "/dev/full", *images], f"/dev/full: {NO_ROOM}\n")


def by_host(subject: Subject, folder: pathlib.Path) -> None:
    """Numbers by host: of names, of a list, of one host, of names that are those of files, and of a pipe."""
    texts = [plain_fleet.text_of_copies(f"{name}", 0, 1, copies) for name, copies in [
        ("a.one", {"1" * 32: 2, "2" * 32: 1}), ("a.two", {"2" * 32: 1, "3" * 32: 4}), ("b.one", {"1" * 32: 1, "3" * 32: 2}),
    ]]
    paths = [folder / f"host-{number}.digest" for number in range(len(texts))]
    for path, text in zip(paths, texts):
        path.write_text(text)
    words = ["fleet", "--json", *map(str, paths)]
    found = json.loads(subject.run(words).stdout)
    subject.tally.equal("fleet by host", found, plain_fleet.counted(texts))
    rows = [(host["host"], host["guests"], host["total"]["frames"]) for host in found["hosts"]]
    subject.tally.equal("fleet by host, frames", (rows, found["on_hosts"]["frames"], found["total"]["frames"]), ([("a", 2, 3), ("b", 1, 2)], 5, 3))
    one_host = json.loads(subject.run(words[:-1]).stdout)
    subject.tally.equal("fleet of one host", "hosts" in one_host, False)
    hosts = folder / "hosts.csv"
    for name, text, due in [
        ("a list", "guest,host\na.two,b\nnobody,c\n", {"a.two": "b"}), ("a list of one host", "guest,host\nb.one,a\n", {"b.one": "a"}),
    ]:
        hosts.write_text(text)
        given = json.loads(subject.run([*words, "--hosts", str(hosts)]).stdout)
        subject.tally.equal(f"fleet --hosts, {name}", given, plain_fleet.counted(texts, due))
    names = 'each of 1 to 64 letters, digits, ".", "_" and "-", with a comma between them and a line feed behind them'
    for text, cause in [
        ("", "line 1: begin with the line guest,host"), ("host,guest\n", "line 1: begin with the line guest,host"),
        ("guest,host\na.one\n", f"line 2: give a guest and a host, {names}"), ("guest,host\na.one,b", f"line 2: give a guest and a host, {names}"),
        ("guest,host\na,b\na.one,b,c\n", f"line 3: give a guest and a host, {names}"), ("guest,host\na,b\na,c\n", "line 3: give each guest once"),
    ]:
        hosts.write_text(text)
        subject.fails(f"fleet --hosts, {text!r}", [*words, "--hosts", str(hosts)], f"{hosts}: {cause}\n")
    subject.fails("fleet --hosts, no such list", [*words, "--hosts", str(folder / "none")], f"{folder / 'none'}: {MISSING}\n")


def extremes(subject: Subject, folder: pathlib.Path) -> None:
    """Two guests with names of 64 bytes, the greatest salt, the greatest sample, and numbers with errors of up to 19 digits."""
    words = [f"{n:028x}0000" for n in range(1, 4)]
    lines = [{plain_fleet.digest(LAST_SALT, plain_fleet.ZEROS): 7, words[0]: 10**13, words[1]: 3}, {plain_fleet.digest(6, plain_fleet.ZEROS): 1, words[0]: 10**13, words[2]: 2}]
    texts = [plain_fleet.text_of_copies(name, salt, MOST_SAMPLED, copies) for name, salt, copies in zip(LONG_NAMES, (LAST_SALT, 6), lines)]
    paths = [folder / f"extreme-{n}.digest" for n in range(2)]
    for path, text in zip(paths, texts):
        path.write_text(text)
    words, due = ["fleet", *map(str, paths)], plain_fleet.counted(texts, None)
    subject.tally.equal("fleet of extremes", json.loads(subject.run([*words, "--json"]).stdout), due)
    table = subject.run([*words, "--unit", "pages"]).stdout.decode()
    first = "An estimate from 5 contents: zeros, and one in 65536 of the others."
    subject.tally.holds("fleet of extremes, the first line", table.startswith(first), table[:200], first)
    subject.tally.equal("fleet of extremes, the table", rows_of_table(table), rows_due(due))
    subject.tally.equal("fleet of extremes, its columns", crooked(table), [])


def rows_of_table(table: str) -> list[list[str]]:
    """The words of a table's rows of guests and of its total, but for those that aren't numbers of pages."""
    rows = [line.split() for line in table.splitlines()]
    guests = itertools.takewhile(bool, rows[rows.index([]) + 2:])
    return [*([*row[1:-1], row[-1]] for row in guests), next(row[1:-2] for row in rows if row[:1] == ["total"])]


def rows_due(counted: dict[str, Any]) -> list[list[str]]:
    """The same rows, from the members of an object."""
    total = {**counted["total"], "between": counted["total"]["parts"]["between"], "within": counted["total"]["parts"]["within"]}
    guests = [[*numbers_of(guest, OF_GUESTS), guest["guest"]] for guest in counted["guests"]]
    return [*guests, numbers_of(total, OF_TOTAL)]


def numbers_of(row: dict[str, Any], names: list[str]) -> list[str]:
    """These numbers of a row as words, each estimate with its error."""
    pairs = [(row[name.rstrip("*")], row["errors"][name.rstrip("*")] if name.endswith("*") else None) for name in names]
    return [str(number) for pair in pairs for number in pair if number is not None]


def crooked(table: str) -> list[tuple[str, str]]:
    """The rows of a table with a number that doesn't end below its heading: of guests, of the total and of copies."""
    lines = table.splitlines()
    heads = [n for n, line in enumerate(lines) if re.match(r"guest |  +memory |copies ", line)]
    found = []
    for head, words, places in zip(heads, (0, 1, 0), (slice(10), slice(13), slice(-4, None))):
        due = ends_of(lines[head])[places]
        rows = itertools.takewhile(str.strip, lines[head + 1:])
        found += [(lines[head], row) for row in rows if ends_of(row)[words:][places] != due]
    return found


def ends_of(line: str) -> list[int]:
    """Where each word of a line ends."""
    return [word.end() for word in re.finditer(r"\S+", line)]


def many_pairs(subject: Subject, folder: pathlib.Path) -> None:
    """The pairs of 130 guests, beside a count in Python."""
    texts, paths = [], []
    for n in range(130):
        copies = {f"{n % 7 + 1:032x}": n % 3 + 1, f"{n + 100:032x}": 1, plain_fleet.digest(0, plain_fleet.ZEROS): n % 2 + 1}
        texts.append(plain_fleet.text_of_copies(f"guest-{n}", 0, 1, copies))
        paths.append(folder / f"many-{n}.digest")
        paths[-1].write_text(texts[-1])
    pairs = folder / "many.csv"
    subject.expect("fleet --pairs, 130 guests", ["fleet", "--pairs", str(pairs), *map(str, paths)], 0, ANY, "")
    subject.tally.holds("fleet --pairs, 130 guests", pairs.read_text() == plain_fleet.pairs_text(texts), pairs.read_text()[:200])


def large(subject: Subject, folder: pathlib.Path) -> None:
    """900 digests, and one of 100,000 lines: there is memory for them, so none is refused."""
    paths, texts = [folder / f"large-{n}.digest" for n in range(900)], []
    for n, path in enumerate(paths):
        texts.append(plain_fleet.text_of_copies(f"large-{n}", 0, 1, {f"{word:032x}": 1 for word in range(1, 100_001 if n == 450 else 3)}))
        path.write_text(texts[-1])
    done = subject.run(["fleet", "--json", *map(str, paths)])
    found = json.loads(done.stdout or b"{}")
    is_right = found == plain_fleet.counted(texts, None)
    subject.tally.holds("fleet of 900 digests", is_right, (done.returncode, done.stderr, done.stdout[-200:]))


def bad_inputs(subject: Subject, folder: pathlib.Path) -> None:
    """Paths that lead to no digest, digests at fault, two samples, and a full device."""
    good, none, broken = str(ROWS / "first.digest"), str(folder / "none"), folder / "broken.digest"
    subject.fails("fleet, no such file", ["fleet", good, none], f"{none}: {MISSING}\n")
    subject.fails("fleet, a folder", ["fleet", str(folder)], f"{folder}: {IS_A_FOLDER}\n")
    lines = read("first.digest")
    for text, cause in [("", f"line 1: {FORM}"), (lines[:-1], f"line 5: {FORM}"), (HEADER + "a\n", f"line 2: {FORM}")]:
        broken.write_text(text)
        subject.fails(f"fleet, {cause}", ["fleet", good, str(broken)], f"{broken}: {cause}\n")
    other = str(ROWS / "sampled-web.digest")
    subject.fails("fleet, another sample", ["fleet", good, other], f"{other}: another sample than in the digests before\n")
    subject.full_device("fleet, a full device", ["fleet", good], f"standard output: {NO_ROOM}\n")


def too_many(subject: Subject, folder: pathlib.Path) -> None:
    """Two guests of 2^63 pages each."""
    paths = [folder / "one", folder / "other"]
    for path in paths:
        path.write_text(f"{HEADER}{path.name},0,{2**63},1,{'0' * 32},{2**63}\n")
    words = ["fleet", *map(str, paths)]
    subject.fails("fleet, too many pages", words, f"{paths[0]} and 1 more: more than 18,446,744,073,709,551,615 pages\n")


def command_line(subject: Subject) -> None:
    """Words that aren't taken, and help."""
    good = str(ROWS / "first.digest")
    subject.refuses("fleet", [
        [], ["--json"], ["--workers", "1", good], ["--pairs"], ["--pairs", good], ["--hosts"], ["--hosts", good], ["--progress", "often", good], ["--unit", "kib", good],
    ])
    subject.writes("fleet --help", ["fleet", "--help"], ANY)


def progress(subject: Subject) -> None:
    """The line of progress, by itself, before a fault, and on a terminal."""
    good, other = str(ROWS / "first.digest"), str(ROWS / "sampled-web.digest")
    shown = subject.run(["fleet", "--progress", "always", good]).stderr.decode()
    is_drawn = shown.startswith("\r100 %  0 of 0 MiB") and shown.endswith("s left\x1b[K\n")
    subject.tally.holds("fleet, progress", is_drawn, shown)
    shown = subject.run(["fleet", "--progress", "always", good, other]).stderr.decode()
    is_drawn = shown.startswith("\r100 %") and shown.endswith(f"\x1b[K\n{other}: another sample than in the digests before\n")
    subject.tally.holds("fleet, progress and a fault", is_drawn, shown)
    subject.draws_on_terminals("fleet", ["fleet", good], part="100 %  0 of 0 MiB")


def feed(path: str, lines: Iterable[str]) -> None:
    """Writes lines into a pipe, a hundred a second."""
    with open(path, "w", encoding="ascii") as pipe:
        for line in lines:
            pipe.write(line)
            pipe.flush()
            time.sleep(0.01)


def progress_of_slow_reads(subject: Subject, folder: pathlib.Path) -> None:
    """A digest that comes slowly through a pipe: the line is drawn several times meanwhile, and at most eleven times a second."""
    path = str(folder / "slow.digest")
    os.mkfifo(path)
    lines = [f"slow,0,{SLOW_LINES},1,{n:032x},1\n" for n in range(SLOW_LINES)]
    threading.Thread(target=feed, args=(path, [HEADER, *lines]), daemon=True).start()
    begun = time.monotonic()
    done = subject.run(["fleet", "--progress", "always", path])
    seconds, drawn = time.monotonic() - begun, done.stderr.count(b"\r")
    is_right = done.returncode == 0 and 5 <= drawn <= 11 * seconds + 1
    shown = (done.returncode, f"{drawn} drawings in {seconds:.2f} s", done.stderr[-200:])
    subject.tally.holds("fleet, progress of slow reads", is_right, shown)
