"""Writes pages in the language man(7), from lines of text, from Markdown and from comments of C."""
from __future__ import annotations

import re
import textwrap
from collections.abc import Iterable

CODE = re.compile(r"`([^`\n]+)`|\*\*([^*\n]+)\*\*|(?<![\w*])\*([^*\n]+)\*(?![\w*])|\[([^\]\n]+)\]\([^)\n]*\)")
LINE_MOST = 78
CELL = re.compile(r"(?<!\\)\|")


def plain(text: str) -> str:
    """A text that shows as it is."""
    shown = text.replace("\\", "\\e").replace("-", "\\-").replace("^", "\\(ha").replace("~", "\\(ti").replace("`", "\\(ga")
    shown = re.sub(r"[^\x00-\x7f]", lambda found: f"\\[u{ord(found[0]):04X}]", shown)
    return re.sub(r"(?m)^(?=[.'])", r"\\&", shown)


def marked(text: str) -> str:
    """A text with Markdown's marks: code and strong words bold, emphasis italic, links as their words."""
    parts, at = [], 0
    for found in CODE.finditer(text):
        parts.append(plain(text[at : found.start()]))
        code, strong, slanted, link = found.groups()
        if link is not None:
            parts.append(marked(link))
        elif slanted is not None:
            parts.append(f"\\fI{plain(slanted)}\\fR")
        else:
            parts.append(f"\\fB{plain(code or strong)}\\fR")
        at = found.end()
    return re.sub(r"(?m)^(?=[.'])", r"\\&", "".join([*parts, plain(text[at:])]))


def wrapped(text: str) -> list[str]:
    """A text's lines, of at most 80 characters where it has spaces; none is taken for a request of roff."""
    lines = []
    for line in text.split("\n"):
        lines += textwrap.wrap(line, LINE_MOST, break_long_words=False, break_on_hyphens=False)
    return [f"\\&{line}" if line[0] in ".'" else line for line in lines]


class Page:
    """A page that is being written."""

    def __init__(self, name: str, section: int, date: str, version: str) -> None:
        self.lines = [f'.TH "{name.upper()}" "{section}" "{date}" "pageshare {version}" "pageshare"']
        self.is_fresh = False

    def heading(self, title: str, level: int = 1) -> None:
        self.lines.append(f'.{"SH" if level == 1 else "SS"} "{plain(title.upper() if level == 1 else title)}"')
        self.is_fresh = True

    def paragraph(self, text: str) -> None:
        if not self.is_fresh:
            self.lines.append(".PP")
        self.raw(marked(text))

    def raw(self, text: str) -> None:
        """Lines of roff."""
        self.lines += wrapped(text)
        self.is_fresh = False

    def entry(self, term: str, text: str, is_plain: bool = True) -> None:
        """A term, and indented behind it what is said of it. A long term is a paragraph, since .TP has one line for it."""
        shown, said = f"\\fB{plain(term)}\\fR" if is_plain else marked(term), wrapped(marked(text)) or ["\\&"]
        if len(shown) > LINE_MOST:
            self.lines += [".PP", *wrapped(shown), ".RS 7", *said, ".RE"]
        else:
            self.lines += [".TP", shown, *said]
        self.is_fresh = False

    def item(self, mark: str, text: str) -> None:
        self.lines += [f".IP {mark} 3", *wrapped(marked(text))]
        self.is_fresh = False

    def shown(self, lines: Iterable[str]) -> None:
        """Lines that are shown as they are, such as code."""
        if not self.is_fresh:
            self.lines.append(".PP")
        self.lines += [".in +4n", ".nf", *(plain(line.rstrip()) or "\\&" for line in lines), ".fi", ".in"]
        self.is_fresh = False

    def text(self) -> str:
        return "\n".join(self.lines) + "\n"


def blocks(lines: list[str], indent: int) -> list[tuple[bool, list[str]]]:
    """Groups of lines: (is shown as it is, its lines). What is indented by so much is shown."""
    groups: list[tuple[bool, list[str]]] = []
    kind: bool | None = None
    for line in lines:
        if not line.strip():
            kind = None if kind is not True else kind
            if kind is True and groups:
                groups[-1][1].append("")
            continue
        is_shown = line.startswith(" " * indent)
        if is_shown != kind or kind is None:
            groups.append((is_shown, []))
            kind = is_shown
        groups[-1][1].append(line[indent:] if is_shown else line.strip())
    return [(is_shown, trimmed(group)) for is_shown, group in groups]


def trimmed(lines: list[str]) -> list[str]:
    while lines and not lines[-1].strip():
        lines = lines[:-1]
    return lines


def write_blocks(page: Page, lines: list[str], indent: int = 4) -> None:
    """Paragraphs, lists with - or numbers, and lines to be shown, which are indented by so much."""
    for is_shown, group in blocks(lines, indent):
        if is_shown:
            page.shown(group)
            continue
        items = []
        for line in group:
            begun = re.match(r"(-|\*|\d+\.) +(.*)", line)
            if begun:
                items.append([begun[1], begun[2]])
            elif items:
                items[-1][1] += f" {line}"
            else:
                items.append([None, line])
        for mark, text in items:
            if mark is None:
                page.paragraph(text)
            else:
                page.item("\\(bu" if mark in "-*" else mark, text)


def write_table(page: Page, rows: list[str]) -> None:
    """A table of Markdown: each row's first cell as a term, and behind it the others, each after its column's name if there are several."""
    cells = [[it.strip() for it in CELL.split(row.strip().strip("|"))] for row in rows]
    titles, body = cells[0], cells[2:]
    for row in body:
        more = zip(titles[1:], row[1:])
        text = row[1] if len(row) == 2 else "; ".join(f"{title}: {cell}" for title, cell in more if cell)
        page.entry(f"{titles[0]} {row[0]}" if row[0][:1].isdigit() else row[0] or "\\&", text, is_plain=False)


def write_markdown(page: Page, lines: list[str]) -> None:
    """Markdown as the documents use it: headings, paragraphs, lists, tables and code. What ## heads becomes a section."""
    at = 0
    plain_lines: list[str] = []

    def flush() -> None:
        write_blocks(page, plain_lines)
        plain_lines.clear()

    while at < len(lines):
        line = lines[at]
        heading = re.match(r"(#+) (.*)", line)
        if heading:
            flush()
            page.heading(heading[2].replace("`", ""), 1 if len(heading[1]) <= 2 else 2)
        elif line.startswith("```"):
            flush()
            end = next(it for it in range(at + 1, len(lines)) if lines[it].startswith("```"))
            page.shown(lines[at + 1 : end])
            at = end
        elif line.startswith("|"):
            flush()
            end = next((it for it in range(at, len(lines)) if not lines[it].startswith("|")), len(lines))
            write_table(page, lines[at:end])
            at = end - 1
        else:
            plain_lines.append(line)
        at += 1
    flush()
