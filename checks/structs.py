#!/usr/bin/env python3
"""Compares what C, the proved libraries and the wrapper in Rust share: the members of structs, and the numbers of statuses and states.

    checks/structs.py

No proof says in what order a struct of the libraries has its members, and a header with two members of one type exchanged compiles. So
each struct with #[repr(C)] in FOLDERS must have the members of the header's structs that STRUCTS names, one by one: their order, names
and types. Each constant of STATUSES must be the number that a header has under the same name, and so must each number that a function
of NUMBERS returns, or of DECODED takes. `estimate --pid` knows the library's own memory by PLACES, whose numbers C and Rattle must both have. Prints what fails, and last 'N passed, M failed'.
"""
from __future__ import annotations

import argparse
import re
import sys

from harness import TOP, Tally

HEADERS = ["lib/include/pageshare.h", "lib/include/pageshare_host.h", "window/pageshare_window.h", "window/pageshare_process.h"]
FOLDERS = {
    "crates/c_surface/src": "rt", "crates/pageshare_c/src": "rt", "crates/pageshare_host_c/src": "rt", "crates/pageshare_window_c/src": "rt",
    "crates/offered_ranges/src": "rt", "crates/page_looks/src": "rt", "crates/window_pages/src": "rt", "crates/client_session/src": "rt",
    "crates/host_messages/src": "rt", "crates/window_tables/src": "rt", "crates/look_tasks/src": "rt", "crates/process_lender/src": "rt", "lib/rust/src": "rs",
}
# The statuses of the proved libraries, and what a header writes before a name. FAULT_ANSWER is a fault that no packet of a client has.
STATUSES = "crates/c_surface/src/status.rt"
PREFIXES = ("PAGESHARE_ERROR_", "PAGESHARE_", "PAGESHARE_HOST_ERROR_", "PAGESHARE_HOST_")
NOT_OF_C = {"FAULT_ANSWER"}
# Functions that return the numbers of an enum of C, and what the header writes before each name.
NUMBERS = {
    r"crates/page_lender/src/packed.rt number\w*": "PAGESHARE_WINDOW_",
    "crates/pageshare_window_c/src/holds.rt step_number": "PAGESHARE_WINDOW_HOLD_",
    "crates/window_tables/src/runs.rt kind_number": "PAGESHARE_WINDOW_KIND_",
    "crates/part_scans/src/seen.rt step_number": "PAGESHARE_WINDOW_FIND_",
    "crates/pageshare_window_c/src/part.rt part_number": "PAGESHARE_WINDOW_",
    "crates/lend_steps/src/copies.rt number": "PAGESHARE_WINDOW_CHECK_",
}
# Functions that say what a number of C is, and what the header writes before each name.
DECODED = {
    r"crates/pageshare_window_c/src/process/notice.rt notice_\w+": "PAGESHARE_PROCESS_",
    "crates/pageshare_window_c/src/process/question.rt question_by": "PAGESHARE_PROCESS_",
    "crates/pageshare_window_c/src/process/lists.rt step_by": "PAGESHARE_PROCESS_",
    "crates/pageshare_window_c/src/process/scans.rt step_by": "PAGESHARE_PROCESS_SCAN_",
    "crates/pageshare_window_c/src/process/parts.rt change_by": "PAGESHARE_PROCESS_",
    "crates/pageshare_window_c/src/process/page.rt notice_by": "PAGESHARE_PROCESS_",
}
# The names of C that aren't spelled as the library's. What has none is no number of its own.
SPELLED = {"Frame": "", "Off": "SHOWN", "InPlace": "HOMING_IN_PLACE", "Elsewhere": "HOMING"}
# Where the library for windows maps memory of its own.
PLACES = ("APART_BEGIN", "APART_END")
PLACES_OF_C, PLACES_OF_RATTLE = "window/kernel.c", "crates/live_memory/src/mapping.rt"
# The structs of C for each of the others.
STRUCTS = {
    "Answer": "pageshare_answer", "Totals": "pageshare_totals", "PageName": "pageshare_page_name", "Lending": "pageshare_lending",
    "Region": "pageshare_region", "DomainShape": "pageshare_domain_shape", "DomainLoan": "pageshare_loan",
    "DomainTotals": "pageshare_domain_totals pageshare_host_totals", "HostShape": "pageshare_host_shape",
    "KnownSession": "pageshare_host_session", "ReceivedPacket": "pageshare_host_received",
    "ServedPacket": "pageshare_host_served", "PacketAllowance": "pageshare_host_allowance", "PacketHead": "pageshare_host_packet", "WindowBudget": "pageshare_window_budget",
    "KeptSession": "pageshare_window_session", "Lent": "pageshare_window_lent pageshare_host_lent",
    "WindowPage": "pageshare_window_page", "PartCounts": "pageshare_window_counts", "WindowFacts": "pageshare_window_facts",
    "Part": "pageshare_window_part", "PartConfig": "pageshare_window_part_config",
    "PartLook": "pageshare_window_part_look", "OfferedRange": "pageshare_window_range", "Piece": "pageshare_window_piece",
    "OfferedBounds": "pageshare_window_range_bounds", "Transfer": "pageshare_window_transfer", "FindOutcome": "pageshare_window_find_outcome",
    "WindowLook": "pageshare_window_look", "LookSteps": "pageshare_window_steps", "PartReturn": "pageshare_window_return",
    "WindowTask": "pageshare_window_task", "WindowRowOrder": "pageshare_window_row_order", "LookTasks": "pageshare_window_tasks", "TaskOutcome": "pageshare_window_outcome",
    "ProcessFacts": "pageshare_process_facts", "WindowState": "pageshare_process_state", "WindowOffer": "pageshare_process_offer",
    "ProcessNotice": "pageshare_process_notice", "ProcessQuestion": "pageshare_process_question", "ProcessList": "pageshare_process_list",
    "ProcessScan": "pageshare_process_scan", "PartRead": "pageshare_process_part", "ProcessPartNotice": "pageshare_process_part_notice",
    "Taken": "pageshare_window_taken", "PageRun": "pageshare_window_run", "LookFinds": "pageshare_window_finds", "LookTimes": "pageshare_window_times",
}
# A struct that no header has.
ALONE = {"TableFacts"}
# A handle has a pointer and a flag; what is in it is private, and so are its names.
HANDLES = {"Machine", "Slot", "DomainHandle", "DomainSlot", "HostHandle", "HostSlot", "ProcessHandle", "ProcessSlot", "Handle"}
# What stands for a type of C. Each other one is an array or a pointer, but for PhantomData, which takes no place.
TYPES = {"bool": "bool", "u8": "uint8_t", "u16": "uint16_t", "u32": "uint32_t", "u64": "uint64_t", "usize": "size_t"}
STRUCT = re.compile(r"#\[repr\(C\)\]\n(?:[ #/][^\n]*\n)*(?:pub(?:\(crate\))? )?struct (\w+)[^{\n]*\{\n((?:[^}\n][^\n]*\n)*)\}")
STATUS = re.compile(r"^pub const (\w+): u32 = (\d+);$", re.M)
ENUMERATOR = re.compile(r"^\s*(PAGESHARE_\w+) = (\d+)\b", re.M)
ARM = re.compile(r"^ +\w+::(\w+)(\([^)]*\))? => (\d+)(?: \+ target\.number\(\))?,$", re.M)
DECODED_ARM = re.compile(r"^ +(\d+) => Some\((?:\w+::Noted\()?\w+::(\w+)", re.M)
SLICE = re.compile(r"&'[ab] (?:mut )?\[\w+\]")
MEMBER = re.compile(r"^\s*(?:pub(?:\(crate\))? )?(\w+): ([^\n]+?),$", re.M)


def structs_of_c() -> dict[str, list[tuple[str, str]]]:
    """The members of each struct of the headers, each a name and a type."""
    found = {}
    for header in HEADERS:
        text = re.sub(r"/\*(?:[^*]|\*(?!/))*\*/", "", (TOP / header).read_text())
        for name, inside in re.findall(r"^struct (\w+) \{\n((?:[^}\n]*\n)*)\};", text, re.M):
            members = re.findall(r"^\s*((?:const )?(?:struct )?\w+ )(\**)(\w+)(\[\w+\])?;", inside, re.M)
            found[name] = [(member, "array" if sizes else "pointer" if stars else kind.strip()) for kind, stars, member, sizes in members]
    return found


def type_of(kind: str) -> str:
    """What stands in C for a type."""
    if kind in STRUCTS:
        return f"struct {STRUCTS[kind]}"
    return "array" if kind.startswith("[") else TYPES.get(kind, "pointer")


def members_of(inside: str) -> list[tuple[str, str]]:
    """The members of a struct that isn't C's. A slice is a pointer and a number of members for C."""
    found = []
    for member, kind in MEMBER.findall(inside):
        if "PhantomData" not in kind:
            found.append((member, type_of(kind)))
        if SLICE.fullmatch(kind):
            found.append((f"{member}_count", "size_t"))
    return found


def compare_statuses(tally: Tally) -> None:
    """Each status is the number that the headers have under its name."""
    of_c = dict(pair for header in HEADERS for pair in ENUMERATOR.findall((TOP / header).read_text()))
    for name, number in STATUS.findall((TOP / STATUSES).read_text()):
        found = {of_c[prefix + name] for prefix in PREFIXES if prefix + name in of_c}
        tally.equal(f"{name} in {STATUSES}", found, set() if name in NOT_OF_C else {number})


def compare_numbers(tally: Tally) -> None:
    """Each number of NUMBERS is the one that the header has under its name."""
    of_c = dict(pair for header in HEADERS for pair in ENUMERATOR.findall((TOP / header).read_text()))
    for place, prefix in NUMBERS.items():
        file, function = place.split()
        bodies = re.findall(rf"fn {function}\(.*?\n(?:    )?}}\n", (TOP / file).read_text(), re.S)
        arms = [arm for body in bodies for arm in ARM.findall(body)]
        tally.case(place, [] if arms else ["it has no numbers"])
        for name, inside, number in arms:
            spelled = SPELLED.get(name + inside, SPELLED.get(name, plain(name).removeprefix("FIND_")))
            if spelled:
                tally.equal(f"{name}{inside} in {file}", of_c.get(prefix + spelled), number)


def plain(name: str) -> str:
    """A name as C spells it."""
    return re.sub(r"(?<=[a-z])(?=[A-Z])", "_", name).upper()


def compare_decoded(tally: Tally) -> None:
    """Each number of DECODED is the one that the header has under its name."""
    of_c = dict(pair for header in HEADERS for pair in ENUMERATOR.findall((TOP / header).read_text()))
    for place, prefix in DECODED.items():
        file, function = place.split()
        bodies = re.findall(rf"fn {function}\(.*?\n(?:    )?}}\n", (TOP / file).read_text(), re.S)
        arms = [arm for body in bodies for arm in DECODED_ARM.findall(body)]
        tally.case(place, [] if arms else ["it has no numbers"])
        for number, name in arms:
            tally.equal(f"{name} in {file}", of_c.get(prefix + plain(name)), number)


def compare_places(tally: Tally) -> None:
    """The addresses of the library's own memory, in C and in Rattle."""
    of_c = dict(re.findall(r"^#define (APART_\w+) UINT64_C\((0x[\da-f]+)\)$", (TOP / PLACES_OF_C).read_text(), re.M))
    of_rattle = dict(re.findall(r"^const (APART_\w+): u64 = (0x[\da-f_]+);$", (TOP / PLACES_OF_RATTLE).read_text(), re.M))
    for name in PLACES:
        tally.equal(f"{name} in {PLACES_OF_RATTLE}", int(of_rattle.get(name, "0"), 0), int(of_c.get(name, "1"), 0))


def main() -> int:
    argparse.ArgumentParser(description=__doc__.splitlines()[0]).parse_args()
    tally, due = Tally(), structs_of_c()
    compare_statuses(tally)
    compare_numbers(tally)
    compare_decoded(tally)
    compare_places(tally)
    for folder, suffix in FOLDERS.items():
        for file in sorted((TOP / folder).rglob(f"*.{suffix}")):
            for name, inside in STRUCT.findall(file.read_text()):
                if name not in HANDLES | ALONE:
                    for of_c in STRUCTS.get(name, "").split() or [""]:
                        tally.equal(f"{name} in {file.relative_to(TOP)}", members_of(inside), due.get(of_c))
    return tally.close()


if __name__ == "__main__":
    sys.exit(main())
