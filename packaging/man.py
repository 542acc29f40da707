#!/usr/bin/env python3
"""Writes the man pages, from what the programs print for --help, the header, docs/FORMATS.md and the texts in packaging/man/.

    packaging/man.py FOLDER [--program PROGRAM] [--host PROGRAM] [--date YYYY-MM-DD]

With --program, which is the program pageshare, FOLDER gets man1/pageshare.1 and a page for each command, man3/pageshare.3 and a name
for each function, and man5/pageshare-journal.5 and pageshare-digest.5. With --host, which is pageshare-host, it gets
man8/pageshare-host.8 and the name pageshare-qemu.8.
The date is that of the pages, by default the last commit's. Nothing is written twice: a page says what its source says.
"""
from __future__ import annotations

import argparse
import pathlib
import re
import subprocess
from collections.abc import Iterable

import header
import helptext
import roff

TOP = pathlib.Path(__file__).resolve().parent.parent
DIGESTS = re.compile(r"digest|fleet|pairs", re.I)


def last_commit() -> str:
    done = subprocess.run(["git", "log", "-1", "--format=%cs"], cwd=TOP, capture_output=True, text=True, check=False)
    return done.stdout.strip() or "1970-01-01"


def synopsis(usage: str) -> str:
    """A usage line as roff: the words in front bold, what stands for a value italic."""
    shown = []
    is_front = True
    for word in usage.split():
        is_front = is_front and re.fullmatch(r"[\w-]+", word) is not None
        if is_front:
            shown.append(f"\\fB{roff.plain(word)}\\fR")
        else:
            shown.append(re.sub(r"<([^>]*)>", lambda found: f"\\fI{found[1]}\\fR", roff.plain(word)))
    return " ".join(shown)


def write_help(page: roff.Page, name: str, help_: helptext.Help, about: str) -> None:
    """The sections that a help gives."""
    page.heading("Name")
    page.raw(f"{roff.plain(name)} \\- {roff.plain(about.rstrip('.'))}")
    page.heading("Synopsis")
    for number, usage in enumerate(help_.usage):
        page.lines += [".br"] if number else []
        page.raw(synopsis(usage))
    for title, entries in help_.sections.items():
        is_long = len(title.split()) > 2
        if is_long and ".SH \"OPTIONS\"" not in page.lines:
            page.heading("Options")
        page.heading(title, 2 if is_long else 1)
        for entry in entries:
            if entry.term != "help" or title != "Commands":
                page.entry(entry.term, entry.text)
    if help_.after:
        page.heading("Description")
        roff.write_blocks(page, help_.after)


def see_also(page: roff.Page, names: Iterable[tuple[str, int]]) -> None:
    page.heading("See also")
    page.raw(",\n".join(f"\\fB{roff.plain(name)}\\fR({section})" for name, section in names))


class Writer:
    """Writes pages to a folder, each of one date and version."""

    def __init__(self, folder: pathlib.Path, date: str, version: str) -> None:
        self.folder, self.date, self.version = folder, date, version

    def page(self, name: str, section: int) -> roff.Page:
        return roff.Page(name, section, self.date, self.version)

    def keep(self, page: roff.Page, name: str, section: int) -> None:
        file = self.folder / f"man{section}" / f"{name}.{section}"
        file.parent.mkdir(parents=True, exist_ok=True)
        file.write_text(page.text())

    def name(self, name: str, of: str, section: int) -> None:
        """Another name of a page."""
        link = self.folder / f"man{section}" / f"{name}.{section}"
        link.unlink(missing_ok=True)
        link.symlink_to(f"{of}.{section}")


def first_sentence(text: str) -> str:
    """What a page is known by: one line, without its full stop."""
    return re.split(r"[.:;] ", text + " ", maxsplit=1)[0].strip().rstrip(".")


def write_commands(writer: Writer, program: str) -> None:
    """The program's page, and a page for each of its commands."""
    top = helptext.of(program)
    names = [it.term.split()[0] for it in top.commands()]
    page = writer.page("pageshare", 1)
    write_help(page, "pageshare", top, first_sentence(top.about))
    page.heading("Environment")
    page.entry(
        "PAGESHARE_LEVEL",
        "The installed program runs the build for x86-64-v3 if the processor has that level, and else the one for x86-64-v2. "
        "`v2` or `v3` chooses by hand.",
    )
    see_also(page, [*((f"pageshare-{name}", 1) for name in names), ("pageshare-journal", 5), ("pageshare-digest", 5), ("pageshare", 3)])
    writer.keep(page, "pageshare", 1)
    for name in names:
        help_ = helptext.of(program, name)
        page = writer.page(f"pageshare-{name}", 1)
        write_help(page, f"pageshare-{name}", help_, first_sentence(help_.about))
        see_also(page, [("pageshare", 1), ("pageshare-digest" if name in ("digest", "fleet") else "pageshare-journal", 5)])
        writer.keep(page, f"pageshare-{name}", 1)


def sections_of(text: str) -> list[tuple[str, list[str]]]:
    """The sections of a document, headed by ##, each with its title and its lines, its heading among them."""
    found: list[tuple[str, list[str]]] = [("", [])]
    lines, is_code = text.split("\n"), False
    for line in lines:
        is_code = is_code != line.startswith("```")
        if not is_code and line.startswith("## "):
            found.append((line.lstrip("# "), []))
        found[-1][1].append(line)
    return found


def write_formats(writer: Writer) -> None:
    """The texts that the program reads and writes."""
    sections = sections_of((TOP / "docs/FORMATS.md").read_text())[1:]
    for name, about, other, is_wanted in [
        ("pageshare-journal", "journals and scripts of page requests, and what the program prints of them", "pageshare-digest", False),
        ("pageshare-digest", "digests of guests' memory, and the numbers of a fleet", "pageshare-journal", True),
    ]:
        page = writer.page(name, 5)
        page.heading("Name")
        page.raw(f"{roff.plain(name)} \\- {roff.plain(about)}")
        for title, lines in sections:
            if bool(DIGESTS.search(title)) == is_wanted:
                roff.write_markdown(page, lines)
        see_also(page, [("pageshare", 1), (other, 5)])
        writer.keep(page, name, 5)


def write_library(writer: Writer) -> None:
    """The header's page, and its functions' names."""
    parts = header.parts((TOP / "lib/include/pageshare.h").read_text())
    names = header.functions(parts)
    page = writer.page("pageshare", 3)
    page.heading("Name")
    page.raw(f"pageshare, {', '.join(roff.plain(it) for it in names)} \\- content\\-based page sharing for virtual machine monitors")
    page.heading("Library")
    page.paragraph("libpageshare: `pkg-config --cflags --libs pageshare`")
    page.heading("Synopsis")
    page.shown(["#include <pageshare.h>"])
    page.heading("Description")
    for number, part in enumerate(parts):
        if number and part.title:
            page.heading(part.title, 2)
        roff.write_blocks(page, part.text)
        if part.code:
            page.shown(part.code)
    see_also(page, [("pageshare", 1), ("pageshare-journal", 5)])
    writer.keep(page, "pageshare", 3)
    for name in names:
        writer.name(name, "pageshare", 3)


def write_host(writer: Writer, program: str) -> None:
    """The host's page: what it prints for help, and the text about it."""
    help_ = helptext.of(program)
    page = writer.page("pageshare-host", 8)
    write_help(page, "pageshare-host", help_, first_sentence(help_.about) or "shares memory between the monitors of one machine")
    roff.write_markdown(page, (TOP / "packaging/man/pageshare-host.md").read_text().split("\n"))
    see_also(page, [("pageshare", 1), ("pageshare", 3)])
    writer.keep(page, "pageshare-host", 8)
    writer.name("pageshare-qemu", "pageshare-host", 8)


def main() -> None:
    options = argparse.ArgumentParser(description=__doc__.splitlines()[0])
    options.add_argument("folder", type=pathlib.Path)
    options.add_argument("--program")
    options.add_argument("--host")
    options.add_argument("--date", default=None)
    given = options.parse_args()
    writer = Writer(given.folder, given.date or last_commit(), header.version((TOP / "lib/include/pageshare.h").read_text()))
    if given.program:
        write_commands(writer, given.program)
        write_formats(writer)
        write_library(writer)
    if given.host:
        write_host(writer, given.host)


if __name__ == "__main__":
    main()
