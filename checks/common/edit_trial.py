"""The trial of a crate's edits: the prover must refuse each.

A function is proved from the contracts of what it calls and never from their bodies. So all edits of a crate can stand in one copy of it,
which is checked once (edit_copies.py), and each edited function must be refused by itself: an error in its own proof, or a goal of its own
that isn't proved. That it calls a function that isn't proved, or passes the impl of one, is no refusal.

For the same reason the other functions of such a copy need neither body nor proof, which are most of a check's work. So the copy is a
bare one: each of them has an endless loop as its body, and a hole as its proof. Only methods of traits, const functions and cycles of
calls stay as they are.

What can't stand in that copy is tried in further bare ones: a second edit of a trait's method, of a cycle, or of several functions. An edit
that isn't refused in a bare copy is tried in copies where all else is whole: among others, once more among others, and then alone.
Where a function that nobody edited is refused by itself, the edits of that check are tried again: those of the first copy in today's
batches, those of a whole one in two halves, down to one. An edit that is known to bring that about has a line 'alone: WHY', and is tried
alone. So is one that stands outside of all functions. Of an edit that is tried alone it is enough that any function is refused by itself,
as the kit's own gate has it. Its check is of the whole crate. Where the edit names a function that is to be refused, in a line
'refused: MODULE::FUNCTION', this function and what it calls are checked first, and the whole crate only if none of these is refused.

A check is of the edited functions and what they call. Where the checker knows a function by none of the paths that this module guesses,
it is of the whole crate. Only a check of the whole crate says NOT REFUSED.
"""
from __future__ import annotations

import contextlib
import os
import re
import shutil
import subprocess
import tempfile
import time
from collections.abc import Collection, Iterable, Iterator, Mapping, Sequence
from typing import Any, Optional

from common.edit_copies import Copies, Crate, read_logic
from common.edit_files import (
    TYPE_ALONE, Change, Edit, Function, Path, Place, Texts, body_of, homes_of, places_of, put_in, read_changes, sources_of,
)

FLAGS = ["--jobs", "1"]
OF_A_CALL = re.compile(r"it (?:calls|passes the block) [^;]*, which (?:is|are) not proved")
# How a reason begins that says little of a contract.
SAYS_LITTLE = "refused, as it must be (only"
# The body of a function that nobody edited, in a bare copy, and the files of its own proof there.
ENDLESS = "\nloop {}"
OWN_PROOFS = ("Answers.antt", "Invariants.antt", "Proof.antt")
# What a proof file says where an edit took away a name that the proof cites.
NAMES = re.compile(r"(\./)?proofs/.*(has no field|is not in scope|has no `|was not admitted)")
# Functions of a check; None stands for what is outside of all functions.
Functions = Iterable[Optional[Function]]
# Whether an edit is refused, and what is said of it.
Result = tuple[bool, str]


def hole_of(crate: str, function: Function) -> tuple[str, str]:
    """The path and the text of a proof that is a hole."""
    path = function.guesses()[0]
    lines = [
        f"use Rattle.{crate}.proofs.{'.'.join(path)}.Statement.{{statement}}", "",
        f"pub {path[-1]}_spec : {{M : Type 1}} → statement M", f"{path[-1]}_spec = ?", "",
    ]
    return f"proofs/{'/'.join(path)}/Proof.antt", "\n".join(lines)


class Trial:
    """The edits of one crate."""

    def __init__(self, kit: Any, crate: Any) -> None:
        self.kit, self.crate, self.folder = kit, crate, f"{crate.folder}/edits"
        self.results: dict[str, Result] = {}
        self.lines: list[str] = []
        self.plain: Texts = {}
        self.edits: list[Edit] = []
        self.homes = homes_of(crate)
        # the functions that checks have named, and paths that are no function's
        self.paths: set[Path] = set()
        self.unknown: set[Path] = set()
        for file in sources_of(crate):
            self.plain[file] = self.text_of(file)
        self.places: dict[Function, Place] = {}
        for file, text in self.plain.items():
            if file.endswith(".rt"):
                self.places.update(places_of(file, text, self.homes))
        self.bodies = dict(self.find_bodies())

    def text_of(self, file: str) -> str:
        with open(f"{self.crate.folder}/{file}", encoding="utf-8") as it:
            return it.read()

    def read(self, names: Iterable[str]) -> None:
        """Reads these edits."""
        for name in names:
            texts, why = self.kit.read_edit(f"{self.folder}/{name}", self.crate.folder)
            if why:
                self.note(name, False, f"BAD EDIT: {why}")
                continue
            for file in texts:
                self.plain.setdefault(file, self.text_of(file))
            edit = read_changes(self.crate, self.text_of(f"edits/{name}"), texts, self.plain, self.homes)
            edit.name = name
            self.edits.append(edit)

    def note(self, name: str, is_refused: bool, said: str) -> None:
        self.results[name] = (is_refused, f"edit {self.crate.name}/{name}: {said}")

    def types(self) -> frozenset[str]:
        """The structs and enums of the crate."""
        return frozenset(name for file, text in self.plain.items() if file.startswith("src/") for name in TYPE_ALONE.findall(text))

    def find_bodies(self) -> Iterator[tuple[Function, tuple[str, int, int]]]:
        """The functions and the types' own methods whose bodies a copy can lack, with the file and the places of each body."""
        types = self.types()
        for function, place in self.places.items():
            found = body_of(self.plain[place.file], place)
            if found and (not function.owner or function.owner == function.spelled and function.owner in types):
                yield function, (place.file, *found)

    def copies(self, is_control: bool = False) -> Copies:
        """The one copy of the crate, with nothing in it as yet."""
        crate = Crate(
            self.crate.name, self.plain, read_logic(self.crate.folder), self.types(), self.places,
            lambda function: self.path_of(function) or function.guesses()[0],
        )
        return Copies(crate, is_control)

    def run(self) -> Trial:
        """Tries all edits that were read."""
        with tempfile.TemporaryDirectory(prefix="edits-") as self.kept:
            for name in ("bare", "whole"):
                os.mkdir(f"{self.kept}/{name}")
            copies = self.copies()
            left = copies.take(self.edits)
            waiting = self.try_copies(copies, [it for it in self.edits if it not in left])
            self.try_whole(waiting, self.try_rest(left, waiting))
        return self

    def try_rest(self, left: Sequence[Edit], waiting: list[Edit]) -> list[Edit]:
        """Tries in bare copies what can't stand in the one copy. Returns what is to be tried alone; the others come to `waiting`."""
        rest, alone = [it for it in left if not it.is_apart()], [it for it in left if it.is_apart()]
        while rest:
            batch, rest = batch_of(rest)
            waiting += self.try_bare(batch)
        return [it for edit in alone for it in (self.try_bare([edit]) if None not in edit.functions else [edit])]

    def try_whole(self, waiting: list[Edit], alone: list[Edit]) -> None:
        """Tries edits in whole copies: among others, and then alone."""
        while waiting:
            named = [it for it in waiting if it.is_apart()]
            alone, waiting = [*alone, *named], [it for it in waiting if it not in named]
            batch, waiting = batch_of(waiting)
            again, more = self.try_batch(batch) if batch else ([], [])
            waiting, alone = [*waiting, *again], [*alone, *more]
        for edit in alone:
            self.try_alone(edit)

    def check(self, texts: Texts, what: str, functions: Functions = (), bare: Optional[Collection[Function]] = None) -> Said:
        """What the prover says of the crate with these texts: of all of it, or of these functions and what they call.

        In a bare copy some functions have no body in these texts. They get a hole as their proof.
        """
        begun, only = time.time(), self.paths_of(functions)
        ran = self.run_check(texts, only, bare)
        while only and ran.returncode == 2:
            self.unknown.update([it for it in only if f"no function `{'::'.join(it)}`" in ran.stdout] or only)
            only = self.paths_of(functions)
            ran = self.run_check(texts, only, bare)
        self.lines.append(f"{self.crate.name}: {what}, {time.time() - begun:.0f} s")
        if self.kit.rtlib.STALE.search(ran.stdout):
            raise RuntimeError(f"{self.crate.name}: the libraries in out/ can't be used: run make test first")
        said = Said(self.kit, ran, texts, not only)
        self.paths.update(said.paths)
        return said

    def run_check(self, texts: Texts, only: Sequence[Path], bare: Optional[Collection[Function]]) -> subprocess.CompletedProcess[str]:
        flags = [*FLAGS, *(word for path in only for word in ("--only", "::".join(path)))]
        if bare is None:
            whole: subprocess.CompletedProcess[str] = self.kit.checked(self.crate, texts, flags, f"{self.kept}/whole")
            return whole
        with tempfile.TemporaryDirectory(prefix=f"rt-edit-{os.getpid()}-") as room:
            self.write_copy(room, texts, dict(hole_of(self.crate.name, it) for it in bare))
            words = self.crate.words([*flags, "--allow-holes", "--incremental", f"{self.kept}/bare"], keeps=False)
            return subprocess.run(
                [*self.kit.rtlib.guarded(), self.kit.rtlib.RATTLE, "check", *words], cwd=room, stdin=subprocess.DEVNULL,
                stdout=subprocess.PIPE, stderr=subprocess.STDOUT, text=True, errors="replace", check=False,
            )

    def write_copy(self, room: str, texts: Mapping[str, str], holes: Mapping[str, str]) -> None:
        """A copy of the crate with these texts, and with these proofs in place of those functions' own files."""
        for part in self.kit.rtlib.PARTS:
            if os.path.isdir(f"{self.crate.folder}/{part}"):
                shutil.copytree(f"{self.crate.folder}/{part}", f"{room}/{part}")
        for path in holes:
            for own in OWN_PROOFS:
                with contextlib.suppress(FileNotFoundError):
                    os.remove(f"{room}/{os.path.dirname(path)}/{own}")
        for path, text in [*texts.items(), *holes.items()]:
            os.makedirs(os.path.dirname(f"{room}/{path}"), exist_ok=True)
            with open(f"{room}/{path}", "w", encoding="utf-8") as it:
                it.write(text)

    def paths_of(self, functions: Functions) -> list[Path]:
        """These functions by their paths, which are guessed where no check has named them; none where one has no path."""
        found = [it and self.path_of(it) for it in functions]
        return [it for it in found if it] if None not in found else []

    def path_of(self, function: Function) -> Optional[Path]:
        named = sorted((it for it in self.paths if function.is_named(it)), key=lambda it: (len(it), it))
        return next((it for it in [*named, *function.guesses()] if it not in self.unknown), None)

    def merged(self, changes: Iterable[Change]) -> Texts:
        """The texts with these changes, each put in at its place in the unedited text."""
        by_file: dict[str, list[tuple[int, int, str]]] = {}
        for file, start, end, new in changes:
            by_file.setdefault(file, []).append((start, end, new))
        return {file: put_in(self.plain[file], of_file) for file, of_file in sorted(by_file.items())}

    def without_bodies(self, edited: Collection[Optional[Function]]) -> tuple[list[Change], list[Function]]:
        """What takes the bodies of all functions away that nobody edited, and these functions."""
        bare = {function: places for function, places in self.bodies.items() if function not in edited}
        return [(*places, ENDLESS) for places in bare.values()], [*bare]

    def check_copies(self, copies: Copies, what: str) -> tuple[Said, list[Path]]:
        """What the prover says of the one copy, and which functions are refused in it that no edit is in."""
        changes, bare = self.without_bodies(copies.edited)
        texts = {**self.merged(copies.all_changes(changes)), **copies.all_added()}
        wanted = {it for functions in copies.wanted.values() for it in functions}
        said = self.check(texts, what, sorted(wanted, key=repr), bare)
        return said, [it for it in said.refused if not any(function.is_named(it) for function in wanted)]

    def try_copies(self, copies: Copies, edits: Sequence[Edit]) -> list[Edit]:
        """Tries these edits in one check. Returns those that aren't refused there, which are all of them if something else is refused."""
        if not edits:
            return []
        said, strays = self.check_copies(copies, f"{len(edits)} edits in the one copy")
        if strays or not said.was_judged:
            why = f"{'::'.join(strays[0])} is refused too" if strays else f"it was not judged: {(said.unread or said.lines[-1])[:200]}"
            self.lines.append(f"{self.crate.name}: these {len(edits)} edits are tried in batches: {why}")
            waiting: list[Edit] = []
            return [*self.try_rest(edits, waiting), *waiting]
        return [it for it in edits if not self.is_refused(it, said, copies.wanted[it.name])]

    def is_refused(self, edit: Edit, said: Said, functions: Functions) -> bool:
        """Notes the edit if one of these functions is refused for a reason that says something of a contract."""
        own = [path for path in said.refused if any(function and function.is_named(path) for function in functions)]
        why = said.reason(own) if own else ""
        if not why or why.startswith(SAYS_LITTLE):
            return False
        self.note(edit.name, True, why)
        return True

    def control(self) -> list[str]:
        """What is wrong in the one copy with no edit put in: nothing may be refused there."""
        with tempfile.TemporaryDirectory(prefix="edits-") as self.kept:
            os.mkdir(f"{self.kept}/bare")
            copies = self.copies(is_control=True)
            left = copies.take(self.edits)
            if not copies.wanted:
                return []
            said, strays = self.check_copies(copies, f"{len(self.edits) - len(left)} edits' places with no edit")
        if said.unread or not said.lines[-1].startswith(("logic=", "holes=", "only=")):
            return [f"the copy was not judged: {(said.unread or said.lines[-1])[:200]}"]
        refused = [name for name, functions in copies.wanted.items() if any(f.is_named(it) for f in functions for it in said.refused)]
        return [*(f"{it} is refused with no edit" for it in refused), *(f"{'::'.join(it)} is refused" for it in strays)]

    def try_bare(self, batch: Sequence[Edit]) -> list[Edit]:
        """Tries edits in a copy that lacks the bodies and the proofs of all functions that none of them changes or names.

        Returns those that aren't refused there. These are all of them where the copy is refused for something else.
        """
        edited = {it for edit in batch for it in edit.functions}
        changes, bare = self.without_bodies(edited)
        texts = self.merged([*(it for edit in batch for it in edit.changes), *changes])
        said = self.check(texts, f"{len(batch)} edits in one bare copy", edited, bare)
        strays = [it for it in said.refused if not any(function and function.is_named(it) for function in edited)]
        is_judged = said.was_judged and not strays
        return [it for it in batch if not (is_judged and self.is_refused(it, said, it.functions))]

    def try_batch(self, batch: Sequence[Edit]) -> tuple[list[Edit], list[Edit]]:
        """Tries edits in a whole copy. Returns what is to be tried among others once more, and what is to be tried alone."""
        edited = {it for edit in batch for it in edit.functions}
        said = self.check(self.merged(it for edit in batch for it in edit.changes), f"{len(batch)} edits in one check", edited)
        strays = [it for it in said.refused if not any(function and function.is_named(it) for function in edited)]
        if not said.was_judged or strays:
            why = f"{'::'.join(strays[0])} is refused too" if strays else f"it was not judged: {(said.unread or said.lines[0])[:120]}"
            self.lines.append(f"{self.crate.name}: these {len(batch)} edits are tried in halves: {why}")
            return self.split(batch)
        again: list[Edit] = []
        alone: list[Edit] = []
        for edit in batch:
            own = [it for it in said.refused if any(function and function.is_named(it) for function in edit.functions)]
            if own:
                self.note(edit.name, True, said.reason(own))
                continue
            edit.tries += 1
            (again if edit.tries < 2 and len(batch) > 1 else alone).append(edit)
        return again, alone

    def split(self, batch: Sequence[Edit]) -> tuple[list[Edit], list[Edit]]:
        if len(batch) == 1:
            return [], [*batch]
        halves = [self.try_batch(batch[: len(batch) // 2]), self.try_batch(batch[len(batch) // 2 :])]
        return [it for again, _alone in halves for it in again], [it for _again, alone in halves for it in alone]

    def try_alone(self, edit: Edit) -> None:
        said = self.check(edit.texts, f"{edit.name} alone", () if edit.tries else edit.functions)
        if not said.is_whole and not (said.was_judged and said.refused):
            said = self.check(edit.texts, f"{edit.name} alone, the whole crate")
        if said.unread:
            self.note(edit.name, False, f"BAD EDIT: the prover cannot read the edited text, so no contract was tried: {said.unread[:200]}")
        elif not said.was_judged and said.is_proved:
            self.note(edit.name, False, "NOT REFUSED: the crate is still proved with this edit")
        elif not said.was_judged:
            self.note(edit.name, False, f"BAD EDIT: it did not reach the prover: {said.lines[:3]}")
        elif said.refused:
            self.note(edit.name, True, said.reason([*said.refused], said.errors()))
        else:
            self.note(edit.name, False, f"NOT REFUSED: no function is refused by itself: {next(iter(said.errors()), '')}")


def batch_of(edits: Sequence[Edit]) -> tuple[list[Edit], list[Edit]]:
    """Edits of different functions, and the rest."""
    batch: list[Edit] = []
    for edit in edits:
        if not any(edit.functions & other.functions for other in batch):
            batch.append(edit)
    return batch, [it for it in edits if it not in batch]


class Said:
    """What the prover said of a copy of a crate."""

    def __init__(self, kit: Any, ran: subprocess.CompletedProcess[str], texts: Texts, is_whole: bool) -> None:
        self.is_whole = is_whole
        self.lines = ran.stdout.rstrip("\n").split("\n")
        self.is_proved = ran.returncode == 0
        self.unread: str = next((it for it in self.lines if kit.unread(it, texts)), "")
        self.was_judged = not self.unread and ran.returncode == 1 and self.lines[-1].startswith(("logic=not-proved", "only="))
        self.refused: dict[Path, str] = {}
        self.paths: list[Path] = []
        for line in self.lines:
            found = re.match(r"fn (\S+?): (proved|no holes|depends on a hole|not proved|no proof:)(.*)", line)
            if found:
                self.hear(tuple(found[1].split("::")[1:]), found[2], found[3], line)

    def hear(self, path: Path, verdict: str, rest: str, line: str) -> None:
        """Takes what is said of a function."""
        self.paths.append(path)
        if verdict not in ("not proved", "no proof:"):
            return
        why = OF_A_CALL.sub("", rest)
        calls_one, has_more = why != rest, bool(why.strip(" ;,"))
        if has_more or self.own_error(path) or verdict == "not proved" and not calls_one:
            self.refused[path] = line

    def errors(self, below: str = "proofs/") -> list[str]:
        return [it for it in self.lines if it.removeprefix("./").startswith(below) and ": error" in it]

    def own_error(self, path: Path) -> str:
        return next(iter(self.errors(f"proofs/{'/'.join(path)}/")), "")

    def reason(self, paths: Sequence[Path], elsewhere: Iterable[str] = ()) -> str:
        """That these functions are refused, with the first error that says something of a contract: of their own proofs, or of one that
        they cite."""
        errors = [self.own_error(path) or self.refused[path] for path in paths]
        first = next((it for it in [*errors, *elsewhere] if not NAMES.match(it)), "")
        if not first:
            return (
                f"{SAYS_LITTLE} because a proof file names what the edit took away, so this says little of the"
                f" contract: change a value and keep the names): {errors[0][:160]}"
            )
        return f"refused, as it must be: {first[:160]}"
