"""Reads what a program prints for --help, as clap lays it out and programs in C do, whatever its words are.

A help is some lines on what the program does; `Usage: ..`, or indented lines that begin with the program's name; sections, each a
title with a colon and entries below it, indented by two to six spaces (a term, and behind two spaces or on lines of their own its
text); and last a text, whose lines with four spaces in front are to be shown as they are.
"""
from __future__ import annotations

import pathlib
import re
import subprocess
from collections.abc import Callable
from typing import NamedTuple

ENTRY = re.compile(r"^ {2,6}(\S.*?)(?: {2,}(\S.*))?$")
TITLE = re.compile(r"^[A-Z].*:$")
FLAG = re.compile(r"--?[A-Za-z][\w-]*")
VALUES = re.compile(r"\[possible values: ([^\]]*)\]")
# An option as a usage line has it.
USED = re.compile(r"(--[a-z][\w-]*)(?:[ =]([A-Z][A-Z=]*))?")


class Entry(NamedTuple):
    """An argument, an option or a command, and what is said of it."""

    term: str
    text: str

    def flags(self) -> list[str]:
        """The option's names, such as -h and --help; none of an argument."""
        return FLAG.findall(self.term.split("<")[0].split("=")[0]) if self.term.startswith("-") else []

    def value(self) -> str | None:
        """The name of the option's value, or None."""
        named = re.search(r"--?[\w-]+(?:, --?[\w-]+)*[ =\[]+<?([^>\]\s][^>\]]*)", self.term)
        return named[1] if named else None

    def choices(self) -> list[str]:
        """The words that the value may be, where the text lists them."""
        listed = VALUES.search(self.text)
        return [it.strip() for it in listed[1].split(",")] if listed else []


class Help(NamedTuple):
    about: str
    usage: list[str]
    sections: dict[str, list[Entry]]
    after: list[str]

    def entries(self, is_wanted: Callable[[str], bool]) -> list[Entry]:
        return [it for title, entries in self.sections.items() if is_wanted(title) for it in entries]

    def options(self) -> list[Entry]:
        """The options, and those that the usage alone names."""
        options = [it for it in self.entries(lambda title: title not in ("Commands", "Arguments")) if it.flags()]
        named = {flag for it in options for flag in it.flags()}
        for flag, value in USED.findall(" ".join(self.usage)):
            if flag not in named:
                options.append(Entry(f"{flag} <{value}>" if value else flag, ""))
                named.add(flag)
        return options

    def arguments(self) -> list[Entry]:
        return self.sections.get("Arguments", [])

    def commands(self) -> list[Entry]:
        return [it for it in self.sections.get("Commands", []) if it.term != "help"]


def begins_entry(line: str, is_after_blank: bool) -> re.Match[str] | None:
    """The term and the text of a line that is the first of an entry. Behind an empty line only an option or an argument is one."""
    found = ENTRY.match(line)
    return found if found and (not is_after_blank or found[1][0] in "-<[") else None


def read_section(lines: list[str], at: int) -> tuple[list[Entry], int]:
    """The entries from this line on, and the first line behind them."""
    entries = []
    is_after_blank = False
    while at < len(lines):
        line = lines[at]
        begun = begins_entry(line, is_after_blank)
        if begun:
            entries.append([begun[1], begun[2] or ""])
        elif line.startswith(" " * 8) and entries:
            entries[-1][1] = f"{entries[-1][1]} {line.strip()}".strip()
        elif line.strip():
            break
        is_after_blank = not line.strip()
        at += 1
    return [Entry(*it) for it in entries], at


def read_usage(lines: list[str]) -> tuple[str, list[str], int]:
    """What a program does, its usage lines, and the first line behind them."""
    named = next((at for at, line in enumerate(lines) if line.lower().startswith("usage:")), None)
    if named is not None:
        about = " ".join(line.strip() for line in lines[:named] if line.strip())
        usage, at = [lines[named].split(":", 1)[1].strip()], named + 1
        while at < len(lines) and lines[at].strip():
            usage, at = usage + [lines[at].strip()], at + 1
        return about, [it for it in usage if it], at
    name, _, about = lines[0].partition(": ")
    used = [at for at, line in enumerate(lines) if line.startswith(f"  {name} ")]
    usage = [re.split(r" {2,}", lines[at].strip())[0] for at in used]
    return about.strip(), usage, used[-1] + 1 if used else 1


def read(text: str) -> Help:
    """A program's help."""
    lines = text.rstrip("\n").split("\n")
    about, usage, at = read_usage(lines)
    sections: dict[str, list[Entry]] = {}
    after: list[str] = []
    while at < len(lines):
        is_title = TITLE.match(lines[at]) and at + 1 < len(lines) and begins_entry(lines[at + 1], False)
        if is_title and not after:
            title = lines[at][:-1]
            sections[title], at = read_section(lines, at + 1)
            continue
        if lines[at].strip() or after:
            after.append(lines[at])
        at += 1
    return Help(about, usage, sections, after)


def of(program: str | pathlib.Path, *words: str) -> Help:
    """The help of a program, or of one of its commands."""
    done = subprocess.run([program, *words, "--help"], stdin=subprocess.DEVNULL, capture_output=True, text=True, check=True)
    return read(done.stdout)
