"""Tables and sentences of an object of numbers, written plainly for the checks: by fractions and sorting. Standard library only.

An object is that of `estimate --json` or `fleet --json`.
"""
from __future__ import annotations

import fractions
import math
from collections.abc import Iterable, Iterator, Sequence

from common.plain_fleet import Numbers

HOW_TO_SHARE = "To share it: man pageshare-host, or docs/HOST.md in the source tree.\n"
PAGES_OF_A_MIB = 256


def exact(pages: int, scale: int) -> fractions.Fraction:
    return fractions.Fraction(scale * pages, PAGES_OF_A_MIB)


def rounded(number: fractions.Fraction) -> int:
    """To the nearest whole number, a half up."""
    return math.floor(number + fractions.Fraction(1, 2))


def shares(parts: Sequence[int], scale: int) -> list[int]:
    """The parts in units of which a MiB has `scale`: rounded down, and then up in the order of their remainders, until they add up."""
    due = rounded(exact(sum(parts), scale))
    units = [math.floor(exact(pages, scale)) for pages in parts]
    places = sorted(range(len(parts)), key=lambda place: (units[place] - exact(parts[place], scale), place))
    for place in places[: due - sum(units)]:
        units[place] += 1
    assert sum(units) == due
    assert all(abs(own - exact(pages, scale)) < 1 for own, pages in zip(units, parts))
    return [due, *units]


def per_cent(part: int, whole: int) -> str:
    return "0.0" if whole == 0 else tenths(rounded(fractions.Fraction(1000 * part, whole)))


def tenths(number: int) -> str:
    return f"{number // 10}.{number % 10}"


def whole_number(number: int) -> str:
    return str(number)


def parts_of(total: Numbers) -> list[int]:
    return [total["parts"][name] for name in ("zeros", "between", "within")]


def sentence(total: Numbers, place: str = "") -> str:
    """The sentence, with where the memory could be reclaimed: in tenths of a MiB where less than 10 MiB could be reclaimed, and else in whole MiB."""
    scale = 10 if total["reclaimed"] < 10 * PAGES_OF_A_MIB else 1
    show = tenths if scale == 10 else whole_number
    errors = total.get("errors")
    plus = {name: f" (+- {show(rounded(exact(errors[name], scale)))})" if errors else "" for name in ("reclaimed", "between", "within")}
    whole, zeros, between, within = map(show, shares(parts_of(total), scale))
    return (
        f"{whole}{plus['reclaimed']} of {show(rounded(exact(total['pages'], scale)))} MiB could be reclaimed{place} "
        f"({per_cent(total['reclaimed'], total['pages'])} %): {zeros} zeros, {between}{plus['between']} between guests, "
        f"{within}{plus['within']} within guests"
    )


class Table:
    """A table's cells. In MiB each has one decimal."""

    def __init__(self, found: Numbers, unit: str) -> None:
        self.found, self.unit, self.is_sampled = found, unit, "sample" in found
        total = found["total"]
        names = ("shared", "frames", "reclaimed", "between")
        most = total["pages"]
        if self.is_sampled:
            for own in [total, *([found["on_hosts"]] if "on_hosts" in found else [])]:
                most = max([most, *(own[name] for name in names), *(own["errors"][name] for name in names)])
        self.width = max(14, len(str(most)) if unit == "pages" else len(str(rounded(exact(most, 1)))) + 2)
        self.contents = max(12, len(str(most)) + 2) if "guest" in (found["guests"] or [{"guest": 0}])[0] else 12

    def shown(self, pages: int) -> str:
        return str(pages) if self.unit == "pages" else tenths(rounded(exact(pages, 10)))

    def cell(self, text: str) -> str:
        return "  " + text.rjust(self.width)

    def row(self, numbers: Numbers, names: Iterable[str], known: Sequence[str] = ()) -> str:
        """The cells of some numbers, each followed by its standard error, if it has one."""
        text = ""
        for name in names:
            text += self.cell(self.shown(numbers[name]))
            if self.is_sampled and name not in known:
                text += self.cell(self.shown(numbers["errors"][name]))
        return text

    def headings(self, names: Iterable[str], known: Sequence[str] = ()) -> str:
        return "".join(self.cell(name) + (self.cell("+-") if self.is_sampled and name not in known else "") for name in names)

    def reclaimed(self, total: Numbers) -> str:
        parts = parts_of(total)
        if self.unit == "pages":
            texts = [str(pages) for pages in [sum(parts), *parts]]
        else:
            texts = [tenths(units) for units in shares(parts, 10)]
        text = ""
        for name, own in zip(("reclaimed", "zero_reclaimed", "between", "within"), texts):
            text += self.cell(own)
            if self.is_sampled and name != "zero_reclaimed":
                text += self.cell(self.shown(total["errors"][name]))
        return text


def copies_text(table: Table, is_fleet: bool) -> list[str]:
    copies = table.found["copies"]
    left = max(24, 2 * len(str(copies[-1]["to"])) + 5 if copies and is_fleet else 24)
    wide, plus = table.contents, "+-".rjust(table.contents) if table.is_sampled else ""
    lines = ["\n" + "copies".ljust(left) + "contents".rjust(wide) + plus + table.headings(["memory"])]
    for row in copies:
        name = str(row["from"]) if row["from"] == row["to"] else f"{row['from']} to {row['to']}"
        plus = str(row["errors"]["contents"]).rjust(wide) if table.is_sampled else ""
        lines.append(name.ljust(left) + str(row["contents"]).rjust(wide) + plus + table.row(row, ["pages"]))
    return lines


def hosts_text(table: Table, found: Numbers, known: Sequence[str]) -> Iterator[str]:
    """A line for each host, for the sum over all hosts, and for all guests in one pool."""
    if "hosts" not in found:
        return
    numbers = ["pages", "zero", "shared", "frames", "reclaimed"]
    yield ""
    yield " host  guests" + table.headings(["memory", *numbers[1:]], known) + "  reclaimed of memory  name"
    guests = sum(host["guests"] for host in found["hosts"])
    rows = [(str(n), host["guests"], host["total"], host["host"]) for n, host in enumerate(found["hosts"])]
    rows += [("sum", guests, found["on_hosts"], "all hosts"), ("pool", guests, found["total"], "one host with all guests")]
    for label, count, total, name in rows:
        part = per_cent(total["reclaimed"], total["pages"])
        yield f"{label:>5}  {count:>6}" + table.row(total, numbers, known) + f"  {part:>17} %  {name}"


def sentences(found: Numbers) -> list[str]:
    """The sentence, or first the one about the hosts."""
    if "hosts" not in found:
        return [sentence(found["total"])]
    return [sentence(found["on_hosts"], " on the guests' hosts"), sentence(found["total"], " if one host had all guests")]


def table_text(found: Numbers, unit: str = "mib", names: Sequence[str] | None = None) -> str:
    """The whole table of an object; `names` are what the guests are called there, by default what the object calls them."""
    is_fleet = not found["guests"] or "guest" in found["guests"][0]
    table, known = Table(found, unit), ("pages", "memory", "zero", "zero_reclaimed")
    lines = []
    if table.is_sampled:
        lines.append(f"An estimate from {found['kept']} contents: zeros, and one in {found['sample']} of the others. "
                     'Each estimate is followed by its standard error, under "+-".')
    lines += [f"Each number in {'MiB' if unit == 'mib' else 'pages of 4,096 bytes'}.", ""]
    headings = table.headings(["memory", "zero", "shared", "distinct", "alone"], known)
    lines.append(f"guest{headings}        salt  {'name' if is_fleet else 'image'}")
    for n, guest in enumerate(found["guests"]):
        name = names[n] if names else guest.get("guest", guest.get("image"))
        salt = "-" if guest["salt"] is None else str(guest["salt"])
        own = "-" if name is None else name
        lines.append(str(n).rjust(5) + table.row(guest, ["pages", "zero", "shared", "distinct", "alone"], known) + f"  {salt:>10}  {own}")
    lines += hosts_text(table, found, known)
    total = found["total"]
    order = ["memory", "zero", "shared", "frames", "reclaimed", "zero_reclaimed", "between", "within"]
    lines += ["", "     " + table.headings(order, known) + "  reclaimed of memory"]
    part = per_cent(total["reclaimed"], total["pages"])
    lines.append("total" + table.row(total, ["pages", "zero", "shared", "frames"], known) + table.reclaimed(total) + f"  {part:>17} %")
    lines += [*copies_text(table, is_fleet), "", *sentences(found)]
    return "\n".join(lines) + "\n" + ("" if is_fleet else HOW_TO_SHARE)
