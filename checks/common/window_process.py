"""All windows of a process, as window/pageshare_process.h declares its calls: a handle, and each call with plain numbers, lists and names.

    process = Process(built_process())
    process.make(ProcessFacts(most=100))
    window = process.offer(5, 1_100)
    process.note(window, 100, 10, "COVERED", frame=7)
    process.mappings() == 3

A kind is its name in the header, or a number. A list that a call writes to is filled with 9 before it, and returned after what the call returns.
common/plain_process.py has the same calls, which return what is due.
"""
from __future__ import annotations

import ctypes
import struct
from collections.abc import Sequence
from typing import Any, Optional, Union

from common.plain_looks import Look, PartConfig, PartFound
from common.plain_page import NONE, Facts
from common.plain_process import ProcessFacts
from common.window_library import Library, values_of

Kind = Union[str, int]
# What a call has written, after what it returned.
Wrote = tuple[bool, list[int]]
PAGE, LOOK = "<IIHBB", "pageshare_window_look"


class Process:
    """A handle of the library."""

    def __init__(self, library: Library) -> None:
        self.library, self.handle = library, library.make("process")

    # ---- how a call is made ----

    def call(self, name: str, *words: Any) -> Any:
        return self.library.call(name, self.handle, *words)

    def number(self, kind: Kind) -> int:
        return kind if isinstance(kind, int) else self.library.constants[kind]

    def of(self, kind: str, values: object) -> Any:
        """A struct with the members of an object, which have the same names."""
        return self.library.make(kind, **vars(values))

    def listed(self, kind: str, values: Sequence[Any]) -> tuple[Any, int]:
        """An array with these values, and how many they are."""
        return self.library.array(kind, values), len(values)

    def room(self, kind: str, count: int) -> tuple[Any, int]:
        return self.listed(kind, [9] * count)

    # ---- the process and its windows ----

    def make(self, facts: ProcessFacts) -> bool:
        return bool(self.call("make", self.of("facts", facts)))

    def free(self) -> bool:
        return bool(self.call("free"))

    def offer(self, number: int, count: int, seams: int = 0, inherited: bool = False, ends: bool = False) -> int:
        state = self.library.make("state", inherited=inherited, ends=ends)
        return int(self.call("offer", self.library.make("offer", number=number, count=count, seams=seams, state=state)))

    def end(self, window: int) -> bool:
        return bool(self.call("end", window))

    def take_out(self, window: int) -> bool:
        return bool(self.call("take_out", window))

    def set_facts(self, facts: ProcessFacts) -> bool:
        return bool(self.call("set_facts", self.of("facts", facts)))

    def set_state(self, window: int, inherited: bool, ends: bool) -> bool:
        return bool(self.call("set_state", window, self.library.make("state", inherited=inherited, ends=ends)))

    def mappings(self) -> int:
        return int(self.call("mappings"))

    # ---- pages ----

    def note(self, window: int, first: int, count: int, kind: Kind, flag: bool = False, frame: int = 0, why: Facts = NONE) -> bool:
        its = self.of("pageshare_window_facts", why)
        return bool(self.call("note", window, first, count, self.library.make("notice", kind=self.number(kind), flag=flag, frame=frame, why=its)))

    def note_page(self, window: int, page: int, kind: Kind, flag: bool = False) -> bool:
        return bool(self.call("note_page", window, page, self.number(kind), flag))

    def may(self, window: int, first: int, count: int, kind: Kind, flag: bool = False, why: Facts = NONE) -> bool:
        its = self.of("pageshare_window_facts", why)
        return bool(self.call("may", window, first, count, self.library.make("question", kind=self.number(kind), flag=flag, why=its)))

    def find_staying(self, window: int, first: int, copies: Sequence[bool], why: Facts = NONE) -> tuple[bool, list[bool]]:
        array, count = self.listed("bool", copies)
        found = self.call("find_staying", window, self.of("pageshare_window_facts", why), first, array, count)
        return bool(found), list(array)[:count]

    def next_run(self, window: int, first: int, end: int, kinds: int) -> Optional[tuple[int, int, int]]:
        run = self.library.make("pageshare_window_run", first=98, count=99, kind=97)
        is_found, found = self.call("next_run", window, first, end, kinds, run), values_of(run)
        return found if is_found or found != (98, 99, 97) else None

    def read_pages(self, window: int, first: int, count: int) -> Optional[list[tuple[int, ...]]]:
        """What is known of each page: its slot, frame, clue, belief and looks."""
        pages = self.library.array("pageshare_window_page", [(9,) * 5] * count)
        is_read, found = self.call("read_pages", window, first, pages, count), list(struct.iter_unpack(PAGE, bytes(pages)))[:count]
        return found if is_read or found != [(9,) * 5] * count else None

    def pin(self, window: int, first: int, count: int, is_more: bool) -> bool:
        return bool(self.call("pin", window, first, count, is_more))

    # ---- lists ----

    def go_through(self, window: int, kind: Kind, numbers: Sequence[int], beyond: int = 0, look: Look = Look(),
                   file_frames: int = 0, is_heard: bool = False, **given: Sequence[int]) -> Wrote:
        """What is done with a list, which gets so many answers more than there are numbers. What is given beside are its other arrays."""
        types = {"fingerprints": "uint64_t", "given": "uint8_t", "slots": "uint64_t", "frames": "uint32_t"}
        arrays: dict[str, Any] = {name: self.listed(types[name], values) for name, values in given.items()}
        answers = self.room("uint8_t", len(numbers) + beyond)
        more = {"look": self.of(LOOK, look), "file_frames": file_frames, "is_heard": is_heard, "kind": self.number(kind)}
        listed = self.library.over("list", numbers=self.listed("uint32_t", numbers), answers=answers, **arrays, **more)
        return bool(self.call("list", window, listed)), [*answers[0]][: answers[1]]

    def to_release(self, window: int, first: int, count: int, room: int) -> tuple[int, Sequence[int]]:
        places, _ = self.room("size_t", room)
        found = int(self.call("to_release", window, first, count, places, room))
        return found, [*places][:room]

    def released(self, window: int, numbers: Sequence[int], is_heard: bool) -> bool:
        return bool(self.call("released", window, *self.listed("size_t", numbers), is_heard))

    # ---- rows ----

    def begin_row(self, window: int, first: int, takings: Sequence[int], beyond: int = 0) -> Wrote:
        row = self.room("uint8_t", len(takings) + beyond)
        return bool(self.call("begin_row", window, first, *row, *self.listed("uint8_t", takings))), [*row[0]][: row[1]]

    def next_of_row(self, window: int, first: int, row: Sequence[int]) -> tuple[int, int, int]:
        order = self.library.make("pageshare_window_row_order", first=9, count=9, step=9)
        self.call("next_of_row", window, first, *self.listed("uint8_t", row), order)
        return order.first, order.count, order.step

    def row_done(self, window: int, first: int, row: Sequence[int], order: tuple[int, int, int], done: int, refused: int) -> Wrote:
        (array, count), its = self.listed("uint8_t", row), self.library.structs["pageshare_window_row_order"](*order)
        return bool(self.call("row_done", window, first, array, count, its, done, refused)), [*array][:count]

    # ---- parts ----

    def scan(self, window: int, kind: Kind, first: int, look: Look, row: Sequence[int], memory: Sequence[int] = (),
             outcomes: Sequence[tuple[int, int, bool]] = ()) -> Wrote:
        array, count = self.listed("uint8_t", row)
        lists: dict[str, Any] = {"memory": self.listed("uint8_t", memory), "outcomes": self.listed("pageshare_window_find_outcome", outcomes)}
        scan = self.library.over("scan", row=(array, count), first=first, look=self.of(LOOK, look), kind=self.number(kind), **lists)
        return bool(self.call("scan", window, scan)), [*array][:count]

    def glance_numbers(self, window: int, first: int, places: Sequence[int]) -> Sequence[int]:
        numbers, count = self.room("uint64_t", len(places))
        self.call("glance_numbers", window, first, *self.listed("uint16_t", places), numbers, count)
        return [*numbers][:count]

    def read_part(self, window: int, first: int) -> Optional[tuple[tuple[int, ...], tuple[int, ...]]]:
        """What is known of a part, and the counts of its pages."""
        part = self.library.make("part")
        return values_of(part) if self.call("read_part", window, first, part) or any(bytes(part)) else None

    def note_part(self, window: int, first: int, kind: Kind, flag: bool = False, changes: int = 0, own: int = 0, look: Look = Look(),
                  config: PartConfig = PartConfig(), found: PartFound = PartFound()) -> tuple[bool, int]:
        """Notes something of a part. Returns what is to be done with it, too, and 9 where nothing is said of that."""
        order = ctypes.c_uint8(9)
        its = {"config": self.of("pageshare_window_part_config", config), "found": self.of("pageshare_window_part_look", found)}
        more = {"kind": self.number(kind), "flag": flag, "changes": changes, "own": own, "look": self.of(LOOK, look)}
        return bool(self.call("note_part", window, first, self.library.make("part_notice", **its, **more), order)), order.value
