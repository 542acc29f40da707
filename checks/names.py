#!/usr/bin/env python3
"""Looks whether what the documents name is there.

    checks/names.py

Reads each Markdown file of the tree. The target of each link must be a file or a folder, and each heading that a link names must
stand in it. Of what stands in back-ticks, each path must be there, each target of `make` must be in the Makefile, and each word of
the form of a name in code (such as `hash_ahead`, `Core::apply` or `IsNew`) must stand somewhere in the tree outside of documents.
Names of other projects are listed in OTHERS. Prints what is missing, with its line, and
last 'N passed, M failed' (status 0 where M is 0, else 1).
"""
from __future__ import annotations

import argparse
import re
import subprocess
import sys
from collections.abc import Container, Iterator

from harness import TOP, Tally

LINK = re.compile(r"\]\(([^)\s]+)\)")
CODE = re.compile(r"`([^`\n]+)`")
WORD = re.compile(r"[A-Za-z_][A-Za-z0-9_]*")
# The form of a name in code: an underscore within, two words by :: or a capital letter behind a small one.
NAME = re.compile(r"[A-Za-z_][A-Za-z0-9_]*(?:::[A-Za-z_][A-Za-z0-9_]*)*(?:\(\))?")
PATH = re.compile(r"(?:\.\./)*[\w.+-]+(?:/[\w.+-]+)+/?")
FOLDERS = ("crates", "docs", "checks", "tools", "examples", "monitor", "fleet", "benches", "host", "window", "lib", "packaging", ".ci")
# A document whose lib/ is the folder of that name in an installation.
INSTALLED = ("docs/INSTALL.md", "lib")
TARGET = re.compile(r"(?m)^([a-z][\w-]*):")
# What is named and isn't of this tree: names of ELF, of Linux, of SELinux, of other monitors and of the kit.
OTHERS = set(
    "svirt_t lib_t pageshare_host_t"
    " e_type e_shoff e_phentsize e_shentsize use_zero_pages kvm_pvm memory_region_get_ram_ptr memory_region_get_fd ram_block_discard_range"
    " ram_block_discard_disable RssShmem GuestMemory GuestMemoryMmap MmapRegion build_raw for_each_mut".split()
)


def documents() -> list[str]:
    listed = subprocess.run(["git", "ls-files", "-co", "--exclude-standard"], cwd=TOP, capture_output=True, text=True, check=True)
    return [it for it in listed.stdout.splitlines() if (TOP / it).is_file()]


def anchors(text: str) -> set[str]:
    """The anchors of a document's headings, as a forge makes them."""
    heads = re.findall(r"(?m)^#+ (.*)$", text)
    return {re.sub(r"[^\w\- ]", "", head.lower()).strip().replace(" ", "-") for head in heads}


def lines_of(text: str) -> Iterator[tuple[int, str]]:
    """The lines of a document that aren't code of their own, with their numbers."""
    is_code = False
    for number, line in enumerate(text.splitlines(), 1):
        if line.startswith("```"):
            is_code = not is_code
        elif not is_code and not line.startswith("    "):
            yield number, line


def wrong_link(file: str, target: str) -> bool:
    path, _, anchor = target.partition("#")
    if re.match(r"\w+:", target):
        return False
    found = (TOP / file).parent / path if path else TOP / file
    return not found.exists() or bool(anchor) and anchor not in anchors(found.read_text())


def wrong_path(file: str, path: str) -> bool:
    folder = path.split("/")[0]
    if folder not in FOLDERS or (file, folder) == INSTALLED or re.search(r"\b[A-Z]{2,}\b|NAME", path):
        return False
    return not any((at / path).exists() for at in (TOP, (TOP / file).parent))


def wrong_name(name: str, words: Container[str]) -> bool:
    plain = name.removesuffix("()")
    is_name = "::" in plain or re.search(r"[a-z0-9]_[a-z0-9]|[a-z][A-Z]", plain)
    return bool(is_name) and any(it not in words and it not in OTHERS for it in WORD.findall(plain))


def looked_at(file: str, text: str, words: Container[str], targets: Container[str]) -> Iterator[tuple[int, str, bool]]:
    """What a document names, each as a line, the name and whether it is missing."""
    for number, line in lines_of(text):
        for target in LINK.findall(line):
            yield number, target, wrong_link(file, target)
        for code in CODE.findall(line):
            made = re.match(r"make ([a-z][\w-]*)", code)
            if made:
                yield number, code, made[1] not in targets
            elif PATH.fullmatch(code.split(" ")[0]):
                yield number, code, wrong_path(file, code.split(" ")[0])
            elif NAME.fullmatch(code):
                yield number, code, wrong_name(code, words)


def main() -> int:
    argparse.ArgumentParser(description=__doc__.splitlines()[0]).parse_args()
    files = documents()
    words = {*FOLDERS}
    for file in files:
        words |= set(re.split(r"[/.]", file))
        if not file.endswith((".md", ".svg")):
            words |= set(WORD.findall((TOP / file).read_text(errors="replace")))
    targets = set(TARGET.findall((TOP / "Makefile").read_text()))
    tally = Tally()
    for file in sorted(it for it in files if it.endswith(".md")):
        for number, name, is_missing in looked_at(file, (TOP / file).read_text(), words, targets):
            tally.case(f"{file}:{number}", [f"{name} isn't there"] if is_missing else [])
    return tally.close()


if __name__ == "__main__":
    sys.exit(main())
