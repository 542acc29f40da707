"""The limits of machines and of their texts, as the table in docs/MODEL.md has them."""
from __future__ import annotations

import re

from harness import TOP

_ROW = re.compile(r"^\| ([^|]+) \| \d+ \| ([\d,]+) \|$", re.MULTILINE)
_TABLE = {name: int(number.replace(",", "")) for name, number in _ROW.findall((TOP / "docs/MODEL.md").read_text(encoding="utf-8"))}

PAGES = _TABLE["pages of a guest, and of all guests together"]
FRAMES = _TABLE["frames"]
RING = _TABLE["ring capacity"]
ENTRIES = _TABLE["journal entries"]
TEXT_BYTES = _TABLE["bytes of an input text"]
