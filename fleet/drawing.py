"""Pictures as SVG. All that Python draws in this tree is made of these shapes. Standard library only."""
from __future__ import annotations

import html
import os
import pathlib
from collections.abc import Iterable
from typing import Union

# An attribute's value: a float is written with one digit behind the point, and all else as it is.
Value = Union[str, int, float]


def shape(name: str, text: str | None = None, /, **attributes: Value) -> str:
    """An element of SVG. In the names of attributes `_` stands for `-`."""
    given = ((at.replace("_", "-"), f"{it:.1f}" if isinstance(it, float) else it) for at, it in attributes.items())
    head = f"<{name}" + "".join(f' {at}="{it}"' for at, it in given)
    return f"{head}/>" if text is None else f"{head}>{html.escape(text, quote=False)}</{name}>"


class Drawing:
    """A white picture of this size. What is put there later lies above what was put there before. The title is shown by viewers only."""

    def __init__(self, width: int, height: int, title: str | None = None) -> None:
        self.width, self.height = width, height
        self.shapes = [shape("title", title)] if title else []
        self.put("rect", width=width, height=height, fill="white")

    def put(self, name: str, text: str | None = None, /, **attributes: Value) -> None:
        self.shapes.append(shape(name, text, **attributes))

    def text(self, x: float, y: float, what: str, **more: Value) -> None:
        self.put("text", what, x=float(x), y=float(y), **more)

    def curve(self, points: Iterable[tuple[float, float]], colour: str, **more: Value) -> None:
        """A line through these points."""
        corners = " ".join(f"{x:.1f},{y:.1f}" for x, y in points)
        self.put("polyline", points=corners, fill="none", stroke=colour, stroke_width=2, **more)

    def svg(self) -> str:
        """The picture's text."""
        head = f'<svg xmlns="http://www.w3.org/2000/svg" width="{self.width}" height="{self.height}" font-family="sans-serif" font-size="12">'
        return "\n".join([head, *self.shapes, "</svg>"]) + "\n"

    def save(self, path: str | os.PathLike[str]) -> None:
        pathlib.Path(path).write_text(self.svg(), encoding="utf-8")
