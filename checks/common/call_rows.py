"""Rows of calls: a text whose lines call the library for windows and say what is due. checks/rows/ranges.rows is an example.

    # a comment
    make ranges range[3]                  an array of three structs, of which all is zeros
    make why facts 0 0 0 0 0 1 0          a struct with these members
    make pins uint16_t[4] 0 1 7 0         numbers
    over list list kind=TO_ASK numbers/2  a struct of arrays: what was made under these names, whole or so much of it, and numbers
    == the name of a case                 what was made before the first case is made anew for each one
    add_range ranges 3 count 30 40 1 = true
    9 * look_ended times finds true       the same row so many times
    task := next_task tasks budget 5 0    what the call returns is kept
    call make process facts = true        a call whose name is one of these words
    set ranges[1].window 7                a member, a number or a struct becomes this
    is ranges[1] 10 20 7 0 0              what it contains is due

The values of an array begin anew where there are fewer than it has members. A word is a number, true or false, a constant of the header
without what its names begin with, or something that was made. A row with `=` or `is` is compared.
"""
from __future__ import annotations

import ctypes
import itertools
import pathlib
import re
import shlex
from collections.abc import Iterator, Sequence
from typing import Any

from common.window_library import TYPES, Library, values_of
from harness import Tally

PLACE = re.compile(r"(\w+)(?:\[(\d+)\])?((?:\.\w+)*)")
MADE = re.compile(r"(\w+)(?:\[(\d+)\])?")
TIMES = re.compile(r"(\d+) \* (.*)")
# A row, and where it is.
Row = tuple[int, str]


def flat(value: Any) -> list[Any]:
    """The numbers of a value, one after another."""
    return [number for one in value for number in flat(one)] if isinstance(value, tuple) else [value]


def filled(kind: Any, values: Iterator[Any]) -> Any:
    """A struct, a number or an array of a type, filled with the next of these values."""
    if issubclass(kind, ctypes.Structure):
        return kind(*[filled(member[1], values) for member in kind._fields_])
    if issubclass(kind, ctypes.Array):
        of: Any = kind
        return of(*[filled(of._type_, values) for _ in range(of._length_)])
    return kind(next(values))


def member_of(at: Any, key: Any) -> Any:
    """A member of a struct, or what an array or the names that were made have at a place."""
    return getattr(at, key) if isinstance(at, ctypes.Structure) else at[key]


class Rows:
    """What the rows of a case have made so far."""

    def __init__(self, library: Library, tally: Tally, name: str) -> None:
        self.library, self.tally, self.name = library, tally, name
        self.made: dict[str, Any] = {}

    def over(self, kind: str, *words: str) -> Any:
        """A struct of arrays, of what these words are by now: `row`, `given=memory`, `numbers/2` or `first=510`."""
        members = {}
        for word in words:
            name, _, of = word.partition("=")
            of, _, count = (of or name).partition("/")
            name = name.partition("/")[0]
            members[name] = (self.value(of), int(count, 0)) if count else self.value(of)
        return self.library.over(kind, **members)

    def value(self, word: str) -> Any:
        """What a word is."""
        if word in ("true", "false"):
            return word == "true"
        if word in self.library.constants:
            return self.library.constants[word]
        if word[0].isdigit() or word[0] == "-":
            return int(word, 0)
        found = member_of(*self.place(word))
        return self.over(*found) if isinstance(found, list) else found

    def place(self, word: str) -> tuple[Any, Any]:
        """What a word names: of what it is a member, a place or a name, and which one."""
        name, place, members = PLACE.fullmatch(word).groups()  # type: ignore[union-attr]
        keys: list[Any] = [name, *([] if place is None else [int(place)]), *members.split(".")[1:]]
        at: Any = self.made
        for key in keys[:-1]:
            at = member_of(at, key)
        return at, keys[-1]

    def make(self, name: str, what: str, *words: str) -> None:
        kind, count = MADE.fullmatch(what).groups()  # type: ignore[union-attr]
        of: Any = TYPES[kind] if kind in TYPES else self.library.structs[kind]
        of = of if count is None else of * int(count)
        self.made[name] = filled(of, itertools.cycle([self.value(word) for word in words] or [0]))

    def set(self, word: str, *words: str) -> None:
        (at, key), values = self.place(word), [self.value(it) for it in words]
        before = member_of(at, key)
        value = values[0] if isinstance(before, int) else filled(type(before), iter(values))
        if isinstance(at, ctypes.Structure):
            setattr(at, key, value)
        else:
            at[key] = value

    def case(self, number: int, found: Any, due: Sequence[str]) -> None:
        """A case: what a row gives, and what was due."""
        self.tally.equal(f"{self.name}, line {number}", flat(values_of(found)), [self.value(word) for word in due])

    def row(self, number: int, text: str) -> None:
        """Does what a row says."""
        again = TIMES.fullmatch(text)
        if again:
            for _ in range(int(again[1])):
                self.row(number, again[2])
            return
        name, *words = shlex.split(text, comments=True)
        kept = name if words[0] == ":=" else None
        if kept:
            name, words = words[1], words[2:]
        due = words[words.index("=") + 1 :] if "=" in words else None
        if name == "make":
            self.make(*words)
        elif name == "over":
            self.made[words[0]] = words[1:]
        elif name == "set":
            self.set(*words)
        elif name == "is":
            self.case(number, self.value(words[0]), words[1:])
        else:
            name, *words = words if name == "call" else [name, *words]
            given = words if due is None else words[: words.index("=")]
            found = self.library.call(name, *map(self.value, given))
            if kept:
                self.made[kept] = found
            if due is not None:
                self.case(number, found, due)


def cases_of(path: pathlib.Path) -> Iterator[tuple[str, list[Row]]]:
    """The cases of a file, each with its name and its rows; the rows before the first one belong to each."""
    first: list[Row] = []
    name, rows = "", first
    for number, line in enumerate(path.read_text(encoding="utf-8").splitlines(), 1):
        if line.startswith("== "):
            if rows is not first:
                yield name, rows
            name, rows = line[3:], [*first]
        elif line.strip() and not line.startswith("#"):
            rows.append((number, line.strip()))
    yield name, rows


def run_rows(tally: Tally, library: Library, path: pathlib.Path) -> None:
    """The rows of a file."""
    for name, rows in cases_of(path):
        made = Rows(library, tally, f"{path.name}, {name}")
        for number, text in rows:
            try:
                made.row(number, text)
            except (AttributeError, KeyError, IndexError, ValueError, TypeError, ctypes.ArgumentError) as wrong:
                tally.case(f"{path.name}, line {number}", [f"{text}: {wrong!r}"])
                break
