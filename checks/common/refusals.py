"""The record of refused edits, checks/refusals.txt: a line an edit, its name and a sum of all that its refusal rests on.

The sum is of the edit, the sources of its crate and of those below it without their comments, the prover's logic, and the modules that
judge. It is the same on every computer. An edit whose line has the sum that it has now was refused when the record was written, and
needn't be tried again.
"""
from __future__ import annotations

import hashlib
import pathlib
import re
from collections.abc import Iterable, Mapping
from typing import Any

from common import proved

FILE = "checks/refusals.txt"
LINE = re.compile(r"(\w+/[\w.-]+\.edit) ([0-9a-f]{32})")
# What judges: beside this module.
JUDGES = ("edit_copies.py", "edit_files.py", "edit_trial.py")


def edits_of(crate: Any) -> list[str]:
    """The names of a crate's edits, in order."""
    return sorted(it.name for it in pathlib.Path(crate.folder, "edits").glob("*.edit"))


class Record:
    """The record beside what each edit rests on now."""

    def __init__(self, top: pathlib.Path, kit: Any, crates: Iterable[Any]) -> None:
        self.file = top / FILE
        logic = re.search(r"logic \w+", proved.kit_id(kit))
        every = list(crates)
        self.sums = self.sums_of(every, proved.sums_of(kit, every, logic[0] if logic else "", proved.without_comments))
        lines = self.file.read_text(encoding="utf-8").splitlines() if self.file.is_file() else []
        found = [LINE.fullmatch(it) for it in lines]
        self.bad = [f"line {k + 1}: {lines[k][:80]}" for k, it in enumerate(found) if not it]
        # (an edit that is gone has no line in the record that is written)
        self.lines = {it[1]: it[2] for it in found if it and it[1] in self.sums}

    def sums_of(self, crates: Iterable[Any], rests: Mapping[str, str]) -> dict[str, str]:
        """What each edit rests on now, by its name."""
        judges = [pathlib.Path(__file__).with_name(it).read_text(encoding="utf-8") for it in JUDGES]
        sums = {}
        for crate in crates:
            for name in edits_of(crate):
                text = pathlib.Path(crate.folder, "edits", name).read_text(encoding="utf-8", errors="replace")
                sums[f"{crate.name}/{name}"] = hashlib.sha256(repr((name, text, rests[crate.name], judges)).encode()).hexdigest()[:32]
        return sums

    def is_known(self, crate: str, name: str) -> bool:
        """Whether this edit was refused when the record was written, and rests on the same now."""
        return self.lines.get(f"{crate}/{name}") == self.sums[f"{crate}/{name}"]

    def note(self, crate: str, name: str, is_refused: bool) -> None:
        """Notes what came of an edit."""
        self.lines.pop(f"{crate}/{name}", None)
        if is_refused:
            self.lines[f"{crate}/{name}"] = self.sums[f"{crate}/{name}"]

    def write(self) -> None:
        """Writes the record, if it isn't the same."""
        text = "".join(f"{name} {self.lines[name]}\n" for name in sorted(self.lines))
        if not self.file.is_file() or self.file.read_text(encoding="utf-8") != text:
            self.file.parent.mkdir(exist_ok=True)
            self.file.write_text(text, encoding="utf-8")
