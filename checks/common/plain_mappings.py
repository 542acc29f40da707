"""How many mappings pages take, and how many more once zeros lie in place of some: the rules of window/pageshare_window.h, in plain Python."""
from __future__ import annotations

import dataclasses

from common.plain_page import Page

PART = 512


@dataclasses.dataclass
class Mappings:
    """Pages in a row, before which so many pages of their first part lie, and which parts are whole."""

    pages: list[Page]
    whole: list[bool]
    lead: int

    def is_whole(self, at: int) -> bool:
        """Whether a page's part is whole. One that isn't there counts as split."""
        number = (self.lead + at) // PART
        return number < len(self.whole) and self.whole[number]

    def begins(self, at: int) -> bool:
        """Whether a mapping begins at a page."""
        if at == 0:
            return True
        one, other = self.pages[at - 1], self.pages[at]
        if one.over or other.over:
            return not (one.over and other.over and one.past == other.past and (one.clue + 1) % 32768 == other.clue)
        return one.moved != other.moved or other.begins or self.is_whole(at - 1) != self.is_whole(at)

    def begun(self, first: int, count: int) -> int:
        """How many begin at pages, or at the one behind them."""
        return sum(self.begins(at) for at in range(first, min(first + count + 1, len(self.pages))))

    def more(self, at: int) -> int:
        """How many more a page may take, whatever becomes of it."""
        return min(2, len(self.pages) - at) - self.begun(at, 1)

    def may_join(self, at: int, zeros: int) -> bool:
        """Whether the system may join a page, if it is there, with zeros in place of another one."""
        if not 0 <= at < len(self.pages):
            return False
        page = self.pages[at]
        return not page.over and not page.out and self.is_whole(at) == self.is_whole(zeros)

    def are_alone(self, first: int, count: int) -> bool:
        """Whether zeros in place of pages will be a mapping by themselves."""
        return not self.may_join(first - 1, first) and not self.may_join(first + count, first)

    def zeros_more(self, first: int, count: int) -> int:
        """How many more there are once zeros lie in place of pages."""

        def joins(at: int) -> bool:
            return self.may_join(at, first) and not self.pages[at].moved

        behind = first + count
        after = int(not joins(first - 1)) + int(behind < len(self.pages) and not joins(behind))
        return max(0, after - self.begun(first, count))


def has_room(most: int, taken: int, more: int) -> bool:
    """Whether windows may take so many mappings more, where they have taken so many of so many."""
    return more == 0 or taken + more <= most
