"""The memory of each host before and after a plan, as SVG. Needs numpy."""
from __future__ import annotations

from collections.abc import Sequence
from typing import TYPE_CHECKING

import numpy
from drawing import Drawing

if TYPE_CHECKING:
    from guests import Guests

BAR, GAP, LEFT, WIDE = 9, 12, 190, 700
TITLE = "Memory of each host before and after the plan"
FILLS = (("zeros", "#fff"), ("shared", "#1f4e79"), ("alone", "#bbb"))


def parts_of(guests: Guests, host_of: numpy.ndarray, hosts: int) -> numpy.ndarray:
    """The pages of each host: zeros, those that another page on the host has, too, and the others."""
    pages = numpy.bincount(host_of, guests.pages, hosts)
    zeros = numpy.bincount(host_of, guests.zero, hosts)
    shared = numpy.bincount(host_of, guests.own_shared, hosts)
    every = guests.weight * ~guests.is_zeros
    for host in range(hosts):
        copies = numpy.asarray(guests.copies[host_of == host].sum(axis=0)).ravel()
        shared[host] += (every * copies * (copies > 1)).sum()
    shared = numpy.minimum(shared, pages - zeros)
    return numpy.stack([zeros, shared, pages - zeros - shared], axis=1)


def text_of(guests: Guests, hosts: Sequence[str], before: Sequence[int], after: Sequence[int]) -> str:
    """The picture: two bars for each host."""
    pairs = [parts_of(guests, numpy.asarray(host_of), len(hosts)) for host_of in (before, after)]
    most = max(1.0, *(parts.sum(axis=1).max() for parts in pairs))
    step = 2 * BAR + GAP
    drawing = Drawing(LEFT + WIDE + 110, 100 + step * len(hosts), TITLE)
    drawing.put("text", TITLE, x=16, y=26, font_size=18, font_weight="bold")
    for number, (name, fill) in enumerate(FILLS):
        drawing.put("rect", x=LEFT + 110 * number, y=42, width=14, height=14, fill=fill, stroke="#000", stroke_width=".6")
        drawing.put("text", name, x=LEFT + 20 + 110 * number, y=54)
    drawing.put("text", "upper bar: before, lower bar: after, in MiB", x=LEFT + 350, y=54)
    for row, host in enumerate(hosts):
        top = 76 + step * row
        drawing.put("text", host[-22:], x=LEFT - 10, y=top + BAR + 4, text_anchor="end")
        for bar, parts in enumerate(pairs):
            put_bar(drawing, parts[row], top + BAR * bar, WIDE / most)
    return drawing.svg()


def put_bar(drawing: Drawing, parts: numpy.ndarray, top: int, scale: float) -> None:
    """A bar, and its pages in MiB behind it."""
    at = float(LEFT)
    for pages, (_name, fill) in zip(parts, FILLS):
        wide = float(pages) * scale
        if wide > 0:
            drawing.put("rect", x=at, y=top, width=wide, height=BAR, fill=fill, stroke="#000", stroke_width=".4")
        at += wide
    drawing.put("text", f"{parts.sum() / 256:.1f}", x=at + 6, y=top + BAR - 1, font_size=9)
