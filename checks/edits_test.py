#!/usr/bin/env python3
"""Shows checks/edits.py a small crate, and looks at what it says of each edit, and at the record that it keeps.

    checks/edits_test.py

A script that looks for wrong bodies can be wrong itself: it might report a refusal where there is none. So the crate has edits
that must be reported as refused, as not refused, and as bad ones; a copy with no edit must be proved; and a line of the record counts
only where it has the sum of what is there. Prints what went wrong, and 'N passed, M failed'.
"""
from __future__ import annotations

import argparse
import pathlib
import re
import subprocess
import sys
from collections.abc import Callable, Sequence
from typing import Optional

from common.refusals import FILE
from harness import TOP, close, new_folder

CRATE = """\
//! Small sums.
#![tactic(auto)]
ghost use Rattle.std.specs.Prelude.{◌≡◌, ◌+◌, ◌≤◌};
ghost use Rattle.sums.specs.declared.TheConstants.{MOST};
ghost use Rattle.sums.specs.Doubles.{doubled};

/// A limit, which a law has as a number.
pub const MOST: u32 = 10;

/// A constant that no contract speaks of.
pub const MARK: u32 = 7;

/// The limit is this number.
pub fn limit_law()
    ensures { MOST ≡ 10 }
{}

/// Two and two make four.
pub fn four_law()
    ensures { doubled 2 ≡ 4 }
{}

/// Twice a number.
pub fn twice(number: u32) -> u32
    requires { number ≤ 1000 }
    ensures { result ≡ number + number }
{
    let other = number;
    number + other
}

/// Twice a number, and one more. What it calls is known by its contract alone.
pub fn odd(half: u32) -> u32
    requires { half ≤ 1000 }
    ensures { result ≡ half + half + 1 }
{
    twice(half) + 1
}

/// A number that no contract speaks of.
pub fn guess() -> u32 {
    4
}

/// What has a width.
pub trait Wide {
    /// One more than the number.
    fn width(&self, number: u32) -> u32
        requires { number ≤ 10 }
        ensures { result ≡ number + 1 };
}

/// Two values.
pub struct Pair<A, B> {
    pub first: A,
    pub second: B,
}

impl<B> Wide for Pair<u32, B> {
    fn width(&self, number: u32) -> u32 {
        number.wrapping_add(1)
    }
}

/// The width of anything.
pub fn width_of<W: Wide>(wide: &W) -> u32
    ensures { result ≡ 4 }
{
    wide.width(3)
}

/// The width of a pair. It passes the pair's impl to the function that it calls.
pub fn width_of_pair(pair: &Pair<u32, u8>) -> u32
    ensures { result ≡ 4 }
{
    width_of(pair)
}
"""


SPECS = """\
use Rattle.std.specs.Prelude.{ℕ, ◌+◌}

abbrev pub doubled : ℕ → ℕ
doubled n = n + n
"""

# A file, an edit's name, what it changes, and how what is said of it begins.
Case = tuple[str, str, str, str, str]
REFUSED, LIB, DOUBLES = "refused, as it must be", "src/lib.rt", "specs/Doubles.antt"
EDITS: list[Case] = [
    (LIB, "twice_of_one", "let other = number;", "let other = 1;", REFUSED),
    (LIB, "once", "number + other", "other", REFUSED),
    (LIB, "none", "number + other", "other - other", REFUSED),
    (LIB, "one_too_few", "twice(half) + 1", "twice(half)", REFUSED),
    (LIB, "width_two_more", "number.wrapping_add(1)", "number.wrapping_add(2)", REFUSED),
    (LIB, "width_of_its_own", "number.wrapping_add(1)", "number", REFUSED),
    (LIB, "most_of_nine", "MOST: u32 = 10;", "MOST: u32 = 9;\nrefused: limit_law", REFUSED),
    (LIB, "refused_by_nobody", "MOST: u32 = 10;", "MOST: u32 = 7;\nrefused: no_law", REFUSED),
    (DOUBLES, "doubled_is_once", "doubled n = n + n", "doubled n = n\nrefused: four_law", REFUSED),
    (DOUBLES, "doubled_and_one", "doubled n = n + n", "doubled n = n + n + 1\nrefused: four_law", REFUSED),
    (DOUBLES, "doubled_the_same", "doubled n = n + n", "doubled n = n + n + 0\nrefused: four_law", "NOT REFUSED"),
    (LIB, "another_mark", "MARK: u32 = 7;", "MARK: u32 = 6;\nrefused: limit_law", "NOT REFUSED"),
    (LIB, "the_same_sum", "twice(half) + 1", "1 + twice(half)", "NOT REFUSED"),
    (LIB, "another_guess", "    4", "    5", "NOT REFUSED"),
    (LIB, "not_there", "number * other", "number", "BAD EDIT: an 'old:' text is in src/lib.rt 0 times"),
]
# One that the prover can't read, so that the copy with all edits isn't judged.
OUT_OF_SCOPE: Case = (LIB, "out_of_scope", "let other = number;", "let other = nobody;", "BAD EDIT")
ARE_REFUSED = [it for it in EDITS if it[4] == REFUSED]
CHECK = re.compile(r"sums: .* (in the one copy|in one check|in one bare copy|alone|the whole crate), \d+ s$")


class Ran:
    """A run of the script over the crate with these edits, after a change of the folder, and what is wrong with it."""

    def __init__(self, edits: Sequence[Case], *words: str, change: Optional[Callable[[pathlib.Path], None]] = None) -> None:
        with new_folder() as room:
            write_crate(room, edits)
            if change:
                change(room)
            ran = subprocess.run(
                [sys.executable, TOP / "checks/edits.py", *words], cwd=room, stdin=subprocess.DEVNULL, capture_output=True, text=True,
                errors="replace", check=False,
            )
            self.record = (room / FILE).read_text() if (room / FILE).is_file() else ""
        self.lines, self.status = ran.stdout.splitlines(), ran.returncode
        self.said = [*self.lines, ran.stderr]
        self.checks = sum(bool(CHECK.match(it)) for it in self.lines)
        self.wrong: list[str] = []

    def holds(self, what: str, is_so: bool) -> None:
        self.wrong += [] if is_so else [what]

    def says(self, edits: Sequence[Case]) -> None:
        """Each of these edits must be reported as is due, and the record must have those that are refused."""
        for _file, name, _old, _new, said in edits:
            self.holds(f"{name} isn't reported as {said!r}", any(it.startswith(f"edit sums/{name}.edit: {said}") for it in self.lines))
        due = sorted(f"sums/{it[1]}.edit" for it in edits if it[4] == REFUSED)
        self.holds(f"the record isn't of {due}", [it.split()[0] for it in self.record.splitlines()] == due)

    def closes(self, passed: int, failed: int) -> None:
        closing = f"{passed} passed, {failed} failed"
        self.holds(f"it doesn't end with {closing!r}", self.lines[-1:] == [closing] and self.status == int(failed > 0))

    def wrong_ones(self) -> list[str]:
        print("\n".join([*self.wrong, *self.said] if self.wrong else []), end="\n" if self.wrong else "")
        return self.wrong


def write_crate(room: pathlib.Path, edits: Sequence[Case]) -> None:
    crate = room / "crates/sums"
    for folder in ("src", "specs", "edits"):
        (crate / folder).mkdir(parents=True)
    (room / "crates.txt").write_text("sums:\n")
    (room / "HANDLES").write_text("Handles allowed: none.\n")
    (crate / LIB).write_text(CRATE)
    (crate / "specs/Lib.antt").write_text("pub mod Doubles\n")
    (crate / DOUBLES).write_text(SPECS)
    for file, name, old, new, _said in edits:
        (crate / f"edits/{name}.edit").write_text(f"file: {file}\nold: {old}\nnew: {new}\n")


def committed(record: str) -> Callable[[pathlib.Path], None]:
    """Leaves a record, and makes one commit, so that it is nobody's turn to be tried again."""

    def change(room: pathlib.Path) -> None:
        (room / FILE).parent.mkdir()
        (room / FILE).write_text(record)
        for words in (["init", "-q"], ["-c", "user.name=a", "-c", "user.email=a", "commit", "-q", "--allow-empty", "-m", "one"]):
            subprocess.run(["git", *words], cwd=room, check=True, stdout=subprocess.DEVNULL)

    return change


def all_kinds() -> tuple[list[str], str]:
    """Edits of all kinds. Returns what is wrong, and the record of those that are refused."""
    ran = Ran(EDITS)
    ran.says(EDITS)
    ran.closes(len(ARE_REFUSED), len(EDITS) - len(ARE_REFUSED))
    return ran.wrong_ones(), ran.record


def unread() -> list[str]:
    """An edit that can't be read hides no other one."""
    both = [OUT_OF_SCOPE, next(it for it in ARE_REFUSED if it[1] == "one_too_few")]
    ran = Ran(both)
    ran.says(both)
    ran.closes(1, 1)
    return ran.wrong_ones()


def few_checks() -> list[str]:
    """Functions that call an edited one, or pass its impl, aren't refused by themselves; and further edits stand in copies: one check."""
    together = [it for it in ARE_REFUSED if it[1] in ("twice_of_one", "once", "none", "width_two_more", "doubled_is_once", "doubled_and_one")]
    ran = Ran(together)
    ran.says(together)
    ran.closes(len(together), 0)
    ran.holds(f"{ran.checks} checks were made where one suffices", ran.checks == 1)
    # (an edit outside of all functions that names the one which must be refused: one check, of that function)
    named = Ran([it for it in EDITS if it[1] == "most_of_nine"])
    named.closes(1, 0)
    named.holds(f"{named.checks} checks were made where one suffices", named.checks == 1)
    return [*ran.wrong_ones(), *named.wrong_ones()]


def with_record(record: str) -> list[str]:
    """What the record has isn't tried again, unless it is the crate's turn, or its line has another sum, or is none."""
    known = Ran(ARE_REFUSED, change=committed(record))
    known.closes(0, 0)
    known.holds("the record changed", known.record == record)
    unchanged = "".join(f"{line.split()[0]} {'0' * 32}\n" for line in record.splitlines()[:2])
    other = Ran([it for it in ARE_REFUSED if f"sums/{it[1]}.edit" in unchanged], change=committed(unchanged))
    other.closes(2, 0)
    other.holds("a sum of nothing stays in the record", "0" * 32 not in other.record and len(other.record.splitlines()) == 2)
    guess = [it for it in EDITS if it[1] == "another_guess"]
    forged = Ran(guess, change=committed(f"sums/another_guess.edit {'f' * 32}\n"))
    forged.says(guess)
    forged.closes(0, 1)
    bad = Ran(ARE_REFUSED[:1], change=committed(f"{record}sums/of_nothing.edit {'0' * 32}\nsums/once.edit\n"))
    bad.holds("a line that is none isn't named", sum(it.startswith("FAILED: the record's line") for it in bad.lines) == 1)
    bad.holds("its status isn't 1", bad.status == 1)
    bad.holds("a line of an edit that is gone stays", "of_nothing" not in bad.record)
    return [it for ran in (known, other, forged, bad) for it in ran.wrong_ones()]


def controls() -> list[str]:
    """Copies with no edit are proved."""
    ran = Ran(ARE_REFUSED, "--control")
    ran.closes(1, 0)
    return ran.wrong_ones()


def main() -> int:
    argparse.ArgumentParser(description=__doc__.splitlines()[0]).parse_args()
    wrong, record = all_kinds()
    cases = [unread(), few_checks(), with_record(record), controls()]
    wrong += [it for of_case in cases for it in of_case]
    return close(max(0, len(EDITS) + 17 - len(wrong)), len(wrong))


if __name__ == "__main__":
    sys.exit(main())
