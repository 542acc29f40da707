"""Charts of lines: what the pictures of measurements share. Standard library only."""
from __future__ import annotations

import pathlib
import sys
from collections.abc import Mapping

sys.path.append(str(pathlib.Path(__file__).resolve().parent.parent / "fleet"))

from drawing import Drawing  # noqa: E402

Point = tuple[float, float]
# How a line is drawn. A second kind of line differs from the first in black and white, too.
Dashes = Mapping[str, str]
SOLID: Dashes = {}
DASHED: Dashes = {"stroke_dasharray": "6 4"}
# The colours of two lines.
BLUE, RED = "#1f5fa8", "#c0392b"


class Chart(Drawing):
    """A chart with a title, whose axes lie so far from the left, the right, the top and the bottom."""

    def __init__(self, title: str, left: int, right: int, top: int, bottom: int, size: tuple[int, int] = (600, 340)) -> None:
        super().__init__(*size)
        self.left, self.right, self.top, self.bottom = left, self.width - right, top, self.height - bottom
        self.text(left, 20, title, font_size=14)

    def row(self, y: float, label: str, gap: int) -> None:
        """A line across at this height, with its number at the left."""
        self.put("path", d=f"M{self.left} {y:.1f}H{self.right}", stroke="#ddd")
        self.text(self.left - gap, y + 4, label, text_anchor="end")

    def column(self, x: float, y: float, label: str) -> None:
        """A number below the axis, or what the numbers are."""
        self.text(x, y, label, text_anchor="middle")

    def axes(self) -> None:
        self.put("path", d=f"M{self.left} {self.top}V{self.bottom}H{self.right}", fill="none", stroke="#444")
