"""Guests' pages that are lent to a host and shown from the frames of its file, and which events are possible: the rules of docs/MONITOR.md.

An event is its word of a trace (docs/FORMATS.md) with its numbers, such as ("lend", 0, 1).
"""
from __future__ import annotations

import dataclasses
from collections.abc import Iterable
from typing import Optional, Union

Event = tuple[Union[str, int], ...]


@dataclasses.dataclass
class Window:
    """A page: it shows memory of its own, or a frame, over which its guest may have a copy. A page of bytes is a number, 0 for zeros."""

    own: Optional[int]
    over: Optional[int] = None
    guarded: bool = False
    # what the lender copied, and whether the page was guarded since
    copy: Optional[int] = None
    copy_fresh: bool = False
    # the frame that the page holds, and whether the page was guarded since the copy in it was made
    held: Optional[int] = None
    frame_fresh: bool = False

    def is_bare(self) -> bool:
        """It shows a frame itself."""
        return self.over is not None and self.own is None

    def unguard(self) -> None:
        self.guarded = self.copy_fresh = self.frame_fresh = False


class Windows:
    """Pages and frames with these contents."""

    def __init__(self, contents: Iterable[int], frames: Iterable[int]) -> None:
        self.pages, self.frames = [Window(it) for it in contents], [*frames]

    def shown(self, page: int) -> int:
        """What a page shows."""
        it = self.pages[page]
        return it.own if it.own is not None else self.frames[it.over or 0]

    def apply(self, event: Event) -> bool:
        """Whether an event is possible; if so it happens."""
        word, at, *more = event
        assert isinstance(at, int)
        if word == "trim":
            return self.trim(at, int(more[0]))
        if at >= len(self.pages):
            return False
        return bool(getattr(self, word if isinstance(word, str) else "")(self.pages[at], *more))

    def trim(self, frame: int, content: int) -> bool:
        """The host changes a frame that no page holds."""
        if frame >= len(self.frames) or any(it.held == frame for it in self.pages):
            return False
        self.frames[frame] = content
        return True

    def write(self, page: Window, content: int) -> bool:
        """The guest writes, unless the page is guarded."""
        if not page.guarded:
            page.own = content
        return not page.guarded

    def guard(self, page: Window) -> bool:
        page.guarded = True
        return True

    def unguard(self, page: Window) -> bool:
        page.unguard()
        return True

    def copy(self, page: Window) -> bool:
        """The lender copies what a guarded page shows."""
        if page.guarded:
            page.copy, page.copy_fresh = page.own if page.own is not None else self.frames[page.over or 0], True
        return page.guarded

    def lend(self, page: Window, frame: int) -> bool:
        """The copy goes into a frame: no page holds that, or it contains the same."""
        if page.copy is None or page.held is not None or frame >= len(self.frames):
            return False
        if any(it.held == frame for it in self.pages) and self.frames[frame] != page.copy:
            return False
        self.frames[frame] = page.copy
        page.held, page.frame_fresh, page.copy, page.copy_fresh = frame, page.copy_fresh, None, False
        return True

    def map(self, page: Window) -> bool:
        """The frame that the page holds is mapped, if the page was guarded since its copy was made."""
        if not page.frame_fresh or page.held is None:
            return False
        page.own, page.over = None, page.held
        page.unguard()
        return True

    def release(self, page: Window) -> bool:
        """The page holds nothing more, unless it shows its frame."""
        if page.is_bare():
            return False
        page.held, page.frame_fresh = None, False
        return True

    def discard(self, page: Window) -> bool:
        """Zeros are mapped in the page's place."""
        page.own, page.over = 0, None
        page.unguard()
        return True
