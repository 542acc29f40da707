"""Edits as files, and the functions of a crate that they change.

An edit is a file crates/NAME/edits/WHAT_IT_DOES.edit: a line 'file: PATH', and then pairs of lines 'old: TEXT' and 'new: TEXT'. The
layout of the sources is that of rt fmt.
"""
from __future__ import annotations

import dataclasses
import itertools
import os
import re
from collections.abc import Iterator, Mapping, Sequence
from typing import Any, Optional

HEAD = re.compile(r'^(\s*)(?:pub(?:\([a-z ]+\))? )?(?:unsafe )?(?:extern "C" )?(?:const )?fn (\w+)')
# The type and the trait of an impl, with the parameters of the impl, the trait's first argument and the type's arguments; a
# trait's own methods stand under its name.
IMPL = re.compile(
    r"^impl(?:<(?P<parameters>.*?)>)?\s+(?:(?P<trait>[\w:]+)(?:<\(?(?:\w+::)*(?P<argument>\w+)?.*>)?\s+for\s+)?&?(?:'\w+ )?"
    r"(?P<type>\w+)(?:<(?P<arguments>[\w, ]+)>)?"
)
TRAIT = re.compile(r"^(?:pub(?:\([a-z ]+\))? )?(?:unsafe )?trait (?P<type>\w+)")
TYPE = re.compile(r"(?m)^(?:pub(?:\([a-z ]+\))? )?(?:struct|enum|trait) (\w+)")
TYPE_ALONE = re.compile(r"(?m)^(?:pub(?:\([a-z ]+\))? )?(?:struct|enum) (\w+)")
# How the lines above a function begin that belong to it, and what says that others need its body.
ABOVE = ("#[", "///")
NEEDED = re.compile(r"^\s*#\[(cycle|test)\b|\bconst fn\b|\bfn main\b")
# A path of a function, without its crate, as the checker has it.
Path = tuple[str, ...]
# A file, two places in its unedited text, and what comes between them.
Change = tuple[str, int, int, str]
Texts = dict[str, str]


@dataclasses.dataclass(frozen=True)
class Function:
    """A function by its place: its module, the type that it is a method of, with the trait, and its name.

    A type's own methods stand in the type's module, wherever the impl is. Where a type has a trait more than once, as From, the
    checker puts the trait's argument behind the owner. It names the impl of a trait for Simd<u32, N> as one of SimdU32.
    """

    module: Path
    owner: str
    name: str
    argument: str = ""
    # how the checker may also spell the owner
    spelled: str = ""

    def owners(self) -> list[str]:
        """How the checker may spell the owner."""
        return [it + more for it in (self.owner, self.spelled) if it for more in ("", self.argument)]

    def guesses(self) -> list[Path]:
        """The paths by which the checker may know the function, the likeliest first."""
        return [(*self.module, it, self.name) for it in self.owners()] or [(*self.module, self.name)]

    def is_named(self, path: Path) -> bool:
        """Whether the checker means this function, or a closure in it, by these words of a path."""
        rest = path[len(self.module) :]
        if path[: len(self.module)] != self.module or self.name not in rest:
            return False
        before = [it for it in rest[: rest.index(self.name)] if it != "fn"]
        return before in ([[it] for it in self.owners()] or [[]])


@dataclasses.dataclass(frozen=True)
class Place:
    """Where a function stands: its file, where the lines above it begin that belong to it, and where it begins and ends."""

    file: str
    above: int
    first: int
    last: int


@dataclasses.dataclass
class Edit:
    """An edit: the edited files, what it changes, and the functions that it changes or names (None: what stands outside of all)."""

    name: str
    texts: Texts
    changes: list[Change]
    functions: frozenset[Optional[Function]]
    # whether it is known to make functions fail that nobody edited
    is_alone: bool = False
    # whether it names the function that is to be refused
    is_named: bool = False
    tries: int = 0

    def is_apart(self) -> bool:
        """Whether it can't be tried among others in their places."""
        return self.is_alone or self.is_named or None in self.functions

    def one(self) -> Optional[Function]:
        """The only function that it changes or names; None if there is none, or more than one."""
        return next(iter(self.functions)) if len(self.functions) == 1 else None


def module_of(file: str) -> Path:
    words = file.removeprefix("src/").removesuffix(".rt").split("/")
    return tuple(words[:-1] if words[-1] in ("lib", "main", "mod") else words)


def sources_of(crate: Any) -> list[str]:
    """The files of a crate's src/."""
    return [os.path.relpath(f"{at}/{it}", crate.folder) for at, _folders, files in os.walk(f"{crate.folder}/src") for it in files]


def homes_of(crate: Any) -> dict[str, Path]:
    """The module of each type and each trait of a crate."""
    homes = {}
    for file in sources_of(crate):
        with open(f"{crate.folder}/{file}", encoding="utf-8") as it:
            homes.update({found[1]: module_of(file) for found in TYPE.finditer(it.read())})
    return homes


def owners_of(words: Mapping[str, Optional[str]]) -> tuple[str, str]:
    """The owner of the methods of an impl or a trait, and how the checker may also spell it: with the type's own arguments."""
    trait = (words.get("trait") or "").split("::")[-1]
    parameters = set(re.findall(r"(?:const )?(\w+)(?:\s*:|,|$)", words.get("parameters") or ""))
    arguments = [it for it in re.findall(r"\w+", words.get("arguments") or "") if it not in parameters]
    kind = words["type"] or ""
    return kind + trait, kind + "".join(it[0].upper() + it[1:] for it in arguments) + trait


def functions_of(file: str, text: str, homes: Mapping[str, Path]) -> list[tuple[Function, int, int]]:
    """The functions of a file, each with the places of its first letter and behind its last one."""
    found, owner, spelled, argument, at = [], "", "", "", 0
    module: Path = ()
    open_one: Optional[tuple[Function, int, str]] = None
    for line in text.split("\n"):
        after = at + len(line) + 1
        block = IMPL.match(line) or TRAIT.match(line)
        if block:
            words = block.groupdict()
            owner, spelled = owners_of(words)
            module = module_of(file) if words.get("trait") else homes.get(words["type"], module_of(file))
            argument = words.get("argument") or ""
        head = HEAD.match(line)
        if head:
            own = Function(module, owner, head[2], argument, spelled) if head[1] else Function(module_of(file), "", head[2])
            open_one = (own, at, head[1])
        if open_one and (line in (open_one[2] + "}", open_one[2] + "{}") or head and line.endswith("}")):
            found.append((open_one[0], open_one[1], after))
            open_one = None
        elif line == "}":
            owner, open_one = "", None
        at = after
    return found


def places_of(file: str, text: str, homes: Mapping[str, Path]) -> Iterator[tuple[Function, Place]]:
    """The functions of a file, each with where it stands."""
    for function, first, last in functions_of(file, text, homes):
        above = itertools.takewhile(lambda it: it.lstrip().startswith(ABOVE), reversed(text[:first].split("\n")[:-1]))
        yield function, Place(file, first - sum(len(it) + 1 for it in above), first, last)


def body_of(text: str, place: Place) -> Optional[tuple[int, int]]:
    """The places in a file between the braces of a function's body; None where it has none, or where others need it."""
    lines = text[place.first : place.last].rstrip("\n").split("\n")
    indent = lines[0][: len(lines[0]) - len(lines[0].lstrip())]
    above = text[place.above : place.first].split("\n")
    if lines[-1] != indent + "}" or any(NEEDED.search(it) for it in [lines[0], *above]):
        return None
    # (below clauses the brace is on a line of its own)
    opens = lines.index(indent + "{") if indent + "{" in lines else next((k for k, it in enumerate(lines) if it.endswith("{")), -1)
    if opens < 0:
        return None
    return place.first + len("\n".join(lines[: opens + 1])), place.first + len("\n".join(lines[:-1]))


def pairs_of(text: str) -> Iterator[tuple[str, str, str]]:
    """The pairs of an edit, each with its file."""
    file = old = ""
    for line in text.split("\n"):
        if line.startswith("file: "):
            file = line.removeprefix("file: ").strip()
        elif line.startswith("old: "):
            old = line.removeprefix("old: ")
        elif line.startswith("new:"):
            yield file, old, line.removeprefix("new:").removeprefix(" ")


def changes_of(text: str, texts: Texts, plain: Mapping[str, str]) -> list[Change]:
    """What an edit changes."""
    changes: list[Change] = []
    for file, old, new in pairs_of(text):
        if plain[file].count(old) != 1:
            return whole_changes(texts, plain)
        at = plain[file].index(old)
        changes.append((file, at, at + len(old), new))
    changes.sort()
    overlap = any(a[0] == b[0] and b[1] < a[2] for a, b in zip(changes, changes[1:]))
    return whole_changes(texts, plain) if overlap else changes


def whole_changes(texts: Texts, plain: Mapping[str, str]) -> list[Change]:
    """The same by what is different: one change a file."""
    changes = []
    for file, text in texts.items():
        old, start, end = plain[file], len(os.path.commonprefix([plain[file], text])), 0
        while end < min(len(old), len(text)) - start and old[-1 - end] == text[-1 - end]:
            end += 1
        changes.append((file, start, len(old) - end, text[start : len(text) - end]))
    return changes


def put_in(text: str, changes: Sequence[tuple[int, int, str]], first: int = 0, last: Optional[int] = None) -> str:
    """A text, or the part of it between two places, with these changes put in."""
    parts, at = [], first
    for start, end, new in sorted(changes):
        parts += [text[at:start], new]
        at = end
    return "".join([*parts, text[at:last]])


def read_changes(crate: Any, text: str, texts: Texts, plain: Mapping[str, str], homes: Mapping[str, Path]) -> Edit:
    """An edit of this crate by its text and the edited files. It has no name yet."""
    changes = changes_of(text, texts, plain)
    refused = [name.split("::") for name in re.findall(r"(?m)^refused: (\S+)$", text)]
    named: list[Optional[Function]] = [Function(tuple(it[:-1]), "", it[-1]) for it in refused]
    owners = frozenset(named or [owner_of(file, start, end, plain, homes) for file, start, end, _new in changes])
    return Edit("", texts, changes, owners, bool(re.search(r"(?m)^alone: ", text)), bool(named))


def owner_of(file: str, start: int, end: int, plain: Mapping[str, str], homes: Mapping[str, Path]) -> Optional[Function]:
    """The function that these places of a file are in, if there is one."""
    if not file.startswith("src/"):
        return None
    return next((it for it, first, last in functions_of(file, plain[file], homes) if first <= start and end <= last), None)
