"""Reads a header of C: its comments, and the declarations below each of them."""
from __future__ import annotations

import re
from typing import NamedTuple

COMMENT = re.compile(r"/\*(.*?)\*/", re.S)
FUNCTION = re.compile(r"\b(pageshare_\w+)\((?!\*)")


class Part(NamedTuple):
    """A comment, and what is declared below it."""

    title: str
    text: list[str]
    code: list[str]


def version(text: str) -> str:
    """The version that the header names."""
    (named,) = re.findall(r'^#define PAGESHARE_VERSION "([^"]+)"$', text, re.M)
    return str(named)


def said(comment: str) -> list[str]:
    """A comment's lines, without the stars in front."""
    lines = comment.strip("\n").split("\n")
    if len(lines) == 1:
        return [lines[0].strip()]
    return [re.sub(r"^ \*? ?", "", line).rstrip() for line in lines]


def declared(lines: list[str]) -> list[str]:
    """Code without the preprocessor's conditions and pragmas, macros with arguments and the bodies of functions."""
    kept, depth, is_body, is_macro, is_aside = [], 0, False, False, False
    for line in lines:
        if is_aside or line.startswith("/* ("):
            is_aside = not line.endswith("*/")
            continue
        if is_macro:
            is_macro = line.endswith("\\")
            continue
        if re.match(r"#(?!define \w+ )|#define (\w+\(|PAGESHARE_DEPRECATED)|extern \"C|}$", line) and not is_body and depth == 0:
            is_macro = line.endswith("\\")
            continue
        if is_body:
            depth += line.count("{") - line.count("}")
            is_body = depth > 0
            continue
        if line.endswith(") {"):
            kept.append(line.removesuffix(" {") + ";")
            depth, is_body = 1, True
            continue
        kept.append(line)
        depth += line.count("{") - line.count("}")
    return kept


def title_of(code: list[str]) -> str:
    """What a part is headed by: the names of its functions, or of its type."""
    joined = "\n".join(code)
    names = FUNCTION.findall(joined)
    if names:
        return ", ".join(dict.fromkeys(names))
    kind = re.search(r"^(struct|enum) (\w+) \{", joined, re.M)
    return f"{kind[1]} {kind[2]}" if kind else ""


def unattributed(lines: list[str]) -> list[str]:
    """Declarations without what hides a name or warns of it. Their further lines move as far to the left as the first."""
    shown, moved = [], 0
    for line in lines:
        bare = line.replace("PAGESHARE_DEPRECATED ", "").replace("static inline ", "")
        if bare != line:
            moved = len(line) - len(bare)
        else:
            bare = line[moved:] if moved and line.startswith(" " * moved) else line
        moved = 0 if line.endswith(";") else moved
        shown.append(bare)
    return shown


def trimmed(lines: list[str]) -> list[str]:
    while lines and not lines[0].strip():
        lines = lines[1:]
    while lines and not lines[-1].strip():
        lines = lines[:-1]
    return lines


def parts(text: str) -> list[Part]:
    """The comments that begin a line, in order, with what stands below each of them."""
    found = []
    at = 0
    begins = [it for it in COMMENT.finditer(text) if it.start() == 0 or text[it.start() - 1] == "\n"]
    begins = [it for it in begins if not it[1].startswith(" (")]
    for number, comment in enumerate(begins):
        at = comment.end()
        end = begins[number + 1].start() if number + 1 < len(begins) else len(text)
        code = unattributed(trimmed(declared(text[at:end].split("\n"))))
        if "pageshare_make_of(" in "".join(code):
            # (what the macro pageshare_make calls is shown under its name, and what C++ has beside it once)
            code = list(dict.fromkeys(line.replace("pageshare_make_of(", "pageshare_make(") for line in code))
        found.append(Part(title_of(code), said(comment[1]), code))
    return found


def functions(every: list[Part]) -> list[str]:
    """The names of the functions that are declared, each once."""
    names = [name for part in every for name in FUNCTION.findall("\n".join(part.code))]
    return list(dict.fromkeys(names))
