"""Texts at fault, each with the fault that its one line names, for the cases of the commands that read them."""
from __future__ import annotations

from common import most

# Where a journal's requests begin: one frame, and a guest with one page.
ONE_PAGE = "pageshare journal 1\nframes 1\npages 1\n"
# Where a script's requests begin: a guest with one page, and a journal of five entries.
ONE_GUEST = "pageshare script 1\nframes 2\npages 1\nring 1\njournal 5\n"
TWO_CLOSES = "pageshare script 1\nframes 1\npages 1 1\nring 1\njournal 2\nend 0\n"
SCAN = "0 store 0 0 41\n0 scan random 7 2\n0 release 0\nend 3\n"
SALTED_SCAN = "pageshare script 2\nframes 2\npages 1\nsalts 5\nring 1\njournal 5\n" + SCAN
LOADS = "0 store 0 0 6869\n0 load 0 0 2\n0 load 0 100 2\n0 load 1 0 1\n0 close\n"
MANY_GUESTS = "pageshare journal 1\nframes 1\npages" + " 0" * 64


def two_guests(first: int, salts: str) -> str:
    """A journal of two guests, whose equal pages are proposed, with this first line and these lines behind the pages."""
    requests = "0 store 0 0 41\n1 store 0 0 41\n0 propose 0\n1 propose 0\nend 4\n"
    return f"pageshare journal {first}\nframes 2\npages 1 1\n{salts}{requests}"


HEADS_OF_JOURNALS = [
    ("", "truncated line 1"),
    ("pageshare journal 3\n", "line 1: header"),
    ("pageshare script 1\n", "line 1: header"),
    (ONE_GUEST + SCAN, "line 1: header"),
    ("pageshare journal 1\nend 0\n", "line 2: form"),
    ("pageshare journal 1\nframes 0\n", "line 2: frames"),
    (f"pageshare journal 1\nframes {most.FRAMES + 1}\n", "line 2: frames"),
    ("pageshare journal 1\nframes 1\npages\n", "line 3: form"),
    ("pageshare journal 1\nframes 1\npages 0\n", "line 3: pages"),
    ("pageshare journal 1\nframes 1\npages 1 0\n", "line 3: pages"),
    (f"pageshare journal 1\nframes 1\npages {most.PAGES} 1\n", "line 3: pages"),
    ("pageshare journal 1\nframes 1\npages" + " 1" * 65 + "\n", "line 3: guests"),
    (MANY_GUESTS + " 1\n", "line 3: guests"),
    (MANY_GUESTS + " 01\n", "line 3: form"),
    (MANY_GUESTS + "\n", "line 3: pages"),
    ("pageshare journal 2\nframes 1\npages 1\nsalts 1 1\n", "line 4: salts"),
    (two_guests(2, "salts 1\n"), "line 4: salts"),
    (two_guests(2, "salts 1 1 1\n"), "line 4: salts"),
    (two_guests(2, "salts\n"), "line 4: form"),
    (two_guests(2, "salts 01 1\n"), "line 4: form"),
    (two_guests(2, "salts 1 1 01\n"), "line 4: form"),
    (two_guests(2, ""), "line 4: form"),
    (two_guests(1, "salts 1 1\n"), "line 4: form"),
    (two_guests(3, "salts 1 1\n"), "line 1: header"),
    (two_guests(2, "salts 1 1\n0 close\n0 close\n"), "line 6: after-close"),
    ("pageshare journal 2\nframes 2\npages 1 1\n", "truncated line 4"),
]
LINES_OF_JOURNALS = [
    ("0  close\n", "line 4: form"),
    ("00 close\n", "line 4: form"),
    ("0 store 0 0 4A\n", "line 4: form"),
    ("0 store 0 0 4\n", "line 4: form"),
    ("4294967296 close\n", "line 4: form"),
    ("0 close \n", "line 4: form"),
    ("0 close\r\n", "line 4: form"),
    ("\n", "line 4: form"),
    ("0 store 0 0 \n", "line 4: form"),
    ("1 close\n", "line 4: no-guest"),
    ("1 store 0 5000 41\n", "line 4: no-guest"),
    ("0 load 0 0 65\n", "line 4: length"),
    ("0 load 0 4096 65\n", "line 4: length"),
    ("0 load 0 4096 1\n", "line 4: crosses"),
    ("0 store 0 4096 41\n", "line 4: crosses"),
    ("0 store 0 4033 " + "41" * 64 + "\n", "line 4: crosses"),
    ("0 close\n0 close\n", "line 5: after-close"),
    ("0 close\nend 0\n", "count"),
    ("0 close\nend 2\n", "count"),
    ("0 close\nend 2\n0 close\n", "count"),
    ("0 close\nend 1\n0 close\n", "line 6: form"),
    ("0 close\nend 1\n\n", "line 6: form"),
    ("0 close\nend 1\nx", "line 6: form"),
    ("0 close\nend 1", "truncated line 5"),
]
ENDS_OF_JOURNALS = [
    ("pageshare journal 1\nframes 4\npages 2\n" + LOADS + "end 4\n", "count"),
    ("pageshare journal 1\nframes 4\npages 2\n" + LOADS + "end 5\n0 close\n", "line 10: form"),
]
HEADS_OF_SCRIPTS = [
    ("", "truncated line 1"),
    ("pageshare journal 1\n", "line 1: header"),
    (ONE_PAGE + "0 close\nend 1\n", "line 1: header"),
    ("pageshare journal 1\nframes 2\npages 1\n0 store 0 0 41\n0 propose 0\n0 propose 0\n0 release 0\n0 close\nend 5\n", "line 1: header"),
    (TWO_CLOSES.replace("script 1", "journal 1"), "line 1: header"),
    ("pageshare script 3\n", "line 1: header"),
    (TWO_CLOSES.replace("script 1", "script 3"), "line 1: header"),
    (TWO_CLOSES.replace("frames 1", "frames 0"), "line 2: frames"),
    (f"pageshare script 1\nframes {most.FRAMES + 1}\n", "line 2: frames"),
    (ONE_GUEST.replace("frames 2", f"frames {most.FRAMES + 1}") + SCAN, "line 2: frames"),
    ("pageshare script 1\nframes 1\npages" + " 1" * 65 + "\n", "line 3: guests"),
    ("pageshare script 1\nframes 1\npages 1 0\n", "line 3: pages"),
    (TWO_CLOSES.replace("pages 1 1", "pages 1 0"), "line 3: pages"),
    ("pageshare script 2\nframes 1\npages 1\nsalts 1 1\n", "line 4: salts"),
    ("pageshare script 2\nframes 2\npages 1\nsalts 1 1\n", "line 4: salts"),
    (SALTED_SCAN.replace("salts 5", "salts 5 5"), "line 4: salts"),
    ("pageshare script 2\nframes 2\npages 1\nring 1\n", "line 4: form"),
    ("pageshare script 1\nframes 2\npages 1\njournal 5\n", "line 4: form"),
    ("pageshare script 1\nframes 1\npages 1\nring 0\n", "line 4: ring"),
    ("pageshare script 1\nframes 2\npages 1\nring 0\n", "line 4: ring"),
    (f"pageshare script 1\nframes 2\npages 1\nring {most.RING + 1}\n", "line 4: ring"),
    (TWO_CLOSES.replace("ring 1", "ring 0"), "line 4: ring"),
    (ONE_GUEST.replace("ring 1", f"ring {most.RING + 1}") + SCAN, "line 4: ring"),
    ("pageshare script 1\nframes 1\npages 1\nring 1\njournal 0\n", "line 5: journal"),
    (ONE_GUEST.replace("journal 5", "journal 0") + SCAN, "line 5: journal"),
    (ONE_GUEST.replace("journal 5", "journal 16777217") + SCAN, "line 5: journal"),
    (ONE_GUEST.replace("journal 5", "journal 05") + SCAN, "line 5: form"),
    ("pageshare script 1\nframes 1\npages 1 1\nring 1\njournal 1\n", "line 5: too-many"),
    ("pageshare script 1\nframes 2\npages 1 1\nring 1\njournal 1\n", "line 5: too-many"),
    (TWO_CLOSES.replace("journal 2", "journal 1"), "line 5: too-many"),
    (ONE_GUEST.replace("journal 5", "journal 4") + SCAN, "line 8: too-many"),
    (SALTED_SCAN.replace("journal 5", "journal 4"), "line 9: too-many"),
]
LINES_OF_SCRIPTS = [
    ("0 close\n", "line 6: form"),
    ("0 scan random 007 1\n", "line 6: form"),
    ("0 scan random 18446744073709551616 1\n", "line 6: form"),
    ("0 scan sequential\n", "line 6: form"),
    ("0 scan backwards 1\n", "line 6: form"),
    ("0 scan  sequential 1\n", "line 6: form"),
    ("1 scan sequential 1\n", "line 6: no-guest"),
    ("1 scan sequential 0\n", "line 6: no-guest"),
    ("0 scan sequential 0\n", "line 6: length"),
    ("0 load 0 0 0\n", "line 6: length"),
    ("0 load 0 4096 1\n", "line 6: crosses"),
    ("0 store 0 4096 41\n", "line 6: crosses"),
    ("0 count\n0 store 0 4096 41\n", "line 7: crosses"),
    ("0 scan sequential 5\n", "line 6: too-many"),
    ("0 scan sequential 4294967295\n", "line 6: too-many"),
    ("end 1\n", "count"),
    ("0 count\nend 2\n", "count"),
    ("0 count\nend 1\n\n", "line 8: form"),
    ("end 0\n0", "line 7: form"),
    ("end 0", "truncated line 6"),
    ("0 count\nend 1", "truncated line 7"),
]


def behind(head: str, lines: list[tuple[str, str]]) -> list[tuple[str, str]]:
    """Texts that differ behind a head alone."""
    return [(head + text, fault) for text, fault in lines]


OF_JOURNALS = HEADS_OF_JOURNALS + behind(ONE_PAGE, LINES_OF_JOURNALS) + ENDS_OF_JOURNALS
OF_SCRIPTS = HEADS_OF_SCRIPTS + behind(ONE_GUEST, LINES_OF_SCRIPTS)
