#!/usr/bin/env python3
"""Builds window/ with its tests and runs them, without KVM.

    checks/windows.py [LIBRARY [SECONDS]]

LIBRARY is libpageshare.a, by default out/libpageshare.a (`make embed`); a stress runs for SECONDS at most, by default 10. All that is
built goes to out/window. In turn: what becomes of pages (pages.c), of those that leave their window (leaves.c), and of huge pages
(parts.c); what the system refuses (guards.c), and each of its calls and of the lender's refused in turn (refusals.c); a frames' file without
memory (full.c); what happens between a look's tasks, and how looks attend and sleep (tasks.c); how long a write waits (stalls.c); and a
stress (stress.c), by each way of holding and finding pages, under the address and the thread sanitizer, and with a record of its events
that `out/window_trace` must play. What this computer can't do is left out, and so said. CC names another compiler than cc, and CFLAGS more
words for it.

With WRONG=1 in the environment tests run with wrong bodies in place of right ones, too, and each must be found.

A test that fails prints what is wrong. The last line is `N passed, M failed`, of the programs that ran (status 0
where all passed, else 1).
"""
from __future__ import annotations

import argparse
import os
import pathlib
import shutil
import subprocess
import sys
import typing
from collections.abc import Sequence

from common.c_programs import CC, FLAGS, LENDER, WINDOW, WINDOW_LIBRARY, compile_c, needs_windows, passes, play, run
from harness import OUT as BUILT
from harness import TOP, LeftOut, StrPath, Tally

TESTS, OUT = TOP / "window/tests", BUILT / "window"
WRAPS = {
    "guards": ["ioctl", "madvise", "mremap", "fallocate", "syscall"],
    "parts": ["ioctl", "madvise", "mremap", "fallocate", "syscall"],
    "refusals": ["fcntl", "getrlimit", "ioctl", "madvise", "mmap", "mprotect", "mremap", "munmap", "open", "pread", "syscall"],
    "full": ["memfd_create", "fcntl"],
    "tasks": ["pageshare_window_next_task"],
}
MORE: dict[str, list[str]] = {
    "guards": ["faults"], "refusals": ["calls", "strict"], "pages": ["ring"], "leaves": ["ring"], "parts": ["faults", "ring"], "stress": ["ring"],
    "full": [], "stalls": [], "tasks": [],
}
# The tests but the stress, in turn, and the seconds that each has; those that run under the address sanitizer, too; and the seconds of a
# stress beside those that it runs by its own clock.
CASES = {"pages": 120, "leaves": 120, "parts": 120, "guards": 120, "refusals": 240, "full": 120, "tasks": 120, "stalls": 300}
SANITIZED = {"address,undefined": ("pages", "leaves", "parts", "tasks"), "thread": ("parts",)}
STRESS_MORE = 120
HUGE = ["--huge", "64", "--pages", "1500"]
# A stress that looks for a wrong body, and the file of its record.
LONG = ["--seconds", "20", "--writes", "40000000", "--trace"]
WAYS: list[list[str]] = [
    [], ["--move", "0"], ["--scan", "0"], ["--pins", "1", "--rest", "7"], ["--percent", "20"],
    HUGE, [*HUGE, "--move", "0", "--rest", "7"], [*HUGE, "--pins", "1"],
]


class Body(typing.NamedTuple):
    """A wrong body: the file, a part of a line that stands there once, what stands there instead, and the test that finds it with its words."""

    file: str
    part: str
    instead: str
    test: list[str]


ZEROED = "map_pages(window, first, count, ZEROS, PROT_READ | PROT_WRITE) == 0"
DROPPED = "madvise(address_of(window, first), bytes_of(count), MADV_DONTNEED) == 0"
GUARDED = "return cause == 0 ? pagemap_are_guarded(&windows->pagemap, at, PART) : cause;"
LEAVES = "(struct pageshare_window_facts){.leaves = true}"
WATCHED = "is_begun ? PAGESHARE_WINDOW_TAKEN_WATCHED : PAGESHARE_WINDOW_NOT_TAKEN"
NOT_PUT = "hold->stuck_cause = cause;\n            return (struct came){.done = done, .refused = 1};"
NOT_MAPPED = "note_failure(windows, WINDOW_NO_MAPPING, cause);\n        return (struct came){.refused = todo->count};"
NOT_ENDED = "hold->stuck_cause = cause;\n    return (struct came){.refused = todo->count};"
ENDED = "if (cause == 0) return (struct came){.done = todo->count};"
COMPARED = "is_equal = is_frame ? frames != NULL && are_equal(page, frames + bytes_of(frame)) : is_zero(page);"
REFUSED_DISCARD = "        return result_of(WINDOW_NO_MAPPING, errno);\n    if (is_anew"
BODIES = {
    "lends without a comparison": Body("lend.c", COMPARED, "is_equal = is_frame || is_zero(page);", ["stress"]),
    "holds nothing": Body("lend.c", "if (!hold->moves && !is_over_frame && may_pin(windows)) return false;",
                          "hold->moves = false, memset(hold->held, 1, hold->count); return true;", ["stress"]),
    "takes what is shown for copies": Body("kernel.c", "(ENTRY_FILE | ENTRY_GUARDED)", "ENTRY_GUARDED", ["stress", "--scan", "0"]),
    "discards over a frame": Body("home.c", ZEROED, DROPPED, ["stress"]),
    "guards what may be pinned": Body("windows.c", "windows->config = *config;", "windows->config = *config, windows->config.pins = WINDOWS_PINS_NEVER;",
                                      ["stress", "--pins", "1", "--move", "0"]),
    "copies a part unguarded": Body("parts.c", GUARDED, "return faults_end_watch(&windows->faults, at, PART);", ["parts"]),
    "copies what may be pinned": Body("parts.c", "if (cause == 0 && may_pin(windows)) cause = EBUSY;", "", ["parts"]),
    "lends what a child may have": Body("set.h", ".inherited = !window->advice.dont_fork,", ".inherited = false,", ["pages"]),
    "lends what a device has": Body("transfers.c", "first, count, true);", "first, 0, true);", ["parts"]),
    "lends copies that a device may have": Body("pages.c", ".may_pin = windows->config.pins != WINDOWS_PINS_NEVER,", ".may_pin = false,", ["leaves"]),
    "lends what is locked": Body("pages.c", ".locked = windows->is_locked,", ".locked = false,", ["pages"]),
    "lends a frame that has its memory still": Body("lender/domain_lender.c", "bool may_lend = lender_trim(lender) == 0;", "bool may_lend = true;", ["guards"]),
    "says a memory policy of frames": Body("advice.c", "== POLICY_DEFAULT || is_file ||", "== POLICY_DEFAULT ||", ["pages"]),
    "ends no window": Body("window.c", "    pageshare_process_end(OF(window));\n    window->ended", "    window->ended", ["pages"]),
    "says of no page that it leaves": Body("home.c", LEAVES, "(struct pageshare_window_facts){.leaves = false}", ["leaves"]),
    "forgets why pages go home": Body("home.c", ".why = {.pinned = true});", ".why = {.pinned = false});", ["leaves"]),
    "moves copies that a device may have": Body("home.c", "if (cause == 0) pageshare_process_find_staying(", "for (size_t i = 0; i < home->count; i++) home->stays[i] = false;\n    if (cause == 0) pageshare_process_find_staying(", ["pages"]),
    "forgets transfers": Body("transfers.c", "return count == 0 || pageshare_process_pin(", "return true || pageshare_process_pin(", ["leaves"]),
    "forgets transfers that have no place": Body("pages.c", ".elsewhere = windows->transfers_elsewhere,", ".elsewhere = 0,", ["leaves"]),
    "begins transfers of no byte": Body("transfers.c", "begin, begin + buffers[i].iov_len, &begun)", "begin, begin, &begun)", ["leaves"]),
    "notes no page that was given up": Body("home.c", "    NOTE(window, first, count, .kind = PAGESHARE_PROCESS_GIVEN_UP);\n", "", ["pages"]),
    "notes no page that was unmapped": Body("home.c", "    NOTE(window, first, count, .kind = PAGESHARE_PROCESS_UNMAPPED);\n", "", ["leaves"]),
    "notes no page that has left": Body("home.c", "    NOTE(window, first, count, .kind = PAGESHARE_PROCESS_LEFT);\n", "", ["leaves"]),
    "notes no lender that is gone": Body("windows.c", "    NOTE(window, first, rest_of_part(window, first), .kind = PAGESHARE_PROCESS_DETACHED);\n", "", ["leaves"]),
    "notes no zeros": Body("lend.c", "pageshare_process_note_page(OF(hold->window), hold->first + i, PAGESHARE_PROCESS_GIVEN_BACK, true);", "", ["parts"]),
    "notes zeros as frames": Body("pages.c", "if (is_file) NOTE(", "if (is_file || is_said) NOTE(", ["pages"]),
    "notes no part that changes": Body("parts.c", "    NOTE_PART(window, first, .kind = PAGESHARE_PROCESS_WHOLE, .flag = is_whole);\n", "", ["parts"]),
    "reads the first part for all": Body("set.h", "pageshare_process_read_part(OF(window), page, &part);", "pageshare_process_read_part(OF(window), page * 0, &part);", ["parts"]),
    "offers a window from another page on": Body("window.c", "offer.number = (uintptr_t)window->at / WINDOW_PAGE_BYTES;", "offer.number = 1;", ["parts"]),
    "never says that a watch ended": Body("lend.c", ENDED, ENDED.replace(".done", ".refused"), ["guards"]),
    "takes what is watched for what was refused": Body("lend.c", WATCHED, "PAGESHARE_WINDOW_NOT_TAKEN", ["guards"]),
    "takes what is guarded for aside": Body("lend.c", "hold->moves ? PAGESHARE_WINDOW_TAKEN_ASIDE :", "true ? PAGESHARE_WINDOW_TAKEN_ASIDE :", ["pages"]),
    "counts what can't be put back as put back": Body("lend.c", NOT_PUT, NOT_PUT.replace("done, .refused = 1", "done + 1"), ["guards"]),
    "counts what can't be mapped as mapped": Body("lend.c", NOT_MAPPED, NOT_MAPPED.replace(".refused", ".done"), ["guards"]),
    "keeps memory of what stays": Body("home.c", "if (cause != 0 || home->stays[i]) unmap_apart(", "if (home->stays[i]) unmap_apart(", ["refusals"]),
    "forgets what can't be unmapped": Body("tasks.c", "    unmap_again();\n", "", ["guards"]),
    "keeps the memory of what can't be unmapped": Body("kernel.c", "madvise(at, bytes, MADV_DONTNEED); /*", "/*", ["guards"]),
    "gives up without a mapping left": Body("home.c", "bool wants = MAY(", "bool wants = are_over || MAY(", ["pages"]),
    "puts zeros without a mapping left": Body("pages.c", ".most = windows->mappings_most,", ".most = UINT64_MAX,", ["pages"]),
    "takes reserved memory for another": Body("advice.c", ".is_reserved = has(flags, \" ac\")", ".is_reserved = false && has(flags, \" ac\")", ["pages"]),
    "leaves holes in place of zeros": Body("lend.c", "if (!hold->missing[i] ||", "if (true ||", ["pages"]),
    "shows what was given up": Body("lend.c", "is_done && !hold->given_up[i];", "is_done;", ["pages"]),
    "brings home what was given up": Body("home.c", "if (!is_cleared(window, home->first + from + i) ||", "if (true ||", ["pages"]),
    "keeps frames mapped after the end": Body("windows.c", "    if (at != NULL) unmap_apart(at, bytes);", "    (void)bytes;", ["leaves"]),
    "reads all mappings for each discard": Body("home.c", "bool is_known = !window->has_cuts &&", "bool is_known = false &&", ["leaves"]),
    "forgets transfers of a new window": Body("window.c", "if (count_transfers(window)) return true;", "return true;", ["leaves"]),
    "takes a refused discard for done": Body("home.c", REFUSED_DISCARD, REFUSED_DISCARD.replace("NO_MAPPING", "OK"), ["refusals"]),
    "leaves what was said of no window": Body("window.c", "if (result.status != WINDOW_OK && !meets) unprepare(window);", "", ["guards"]),
    "speaks of another window's pages": Body("window.c", "    if (meets) return result_of(WINDOW_BAD_RANGE, EINVAL);\n", "", ["guards"]),
    "takes a policy that isn't known for none": Body("window.c", "if (facts->policy_cause != 0) return", "if (false) return", ["guards"]),
    "guards pages that KSM may merge": Body("lend.c", "cause = advice_say(at, hold->count, MADV_UNMERGEABLE);", "advice_say(at, hold->count, MADV_UNMERGEABLE);", ["guards"]),
    "brings pages home that KSM may merge": Body("home.c", "if (cause == 0) cause = advice_say(address_of(window, home->first), home->count, MADV_UNMERGEABLE);", "", ["guards"]),
    "takes memory for unlocked that isn't known": Body("tasks.c", "int refused = locked_kib(&kib);", "int refused = 0 * locked_kib(&kib);", ["pages"]),
    "leaves the scratch area half made": Body("tasks.c", "lacks_scratch ? make_scratch(windows) : 0;", "lacks_scratch ? 0 : 0;", ["guards"]),
    "takes a window for one mapping": Body("window.c", "window->seams = facts.mappings - 1;", "window->seams = 0 * facts.mappings;", ["pages"]),
    "joins zeros of which too little was said": Body("pages.c", ".flag = is_said);", ".flag = true);", ["guards"]),
    "joins zeros that were written": Body("pages.c", "|| memchr(written, true, count) == NULL", "|| count > 0", ["guards"]),
    "forgets what is stuck": Body("lend.c", "!= 0) add_stuck(window,", "!= 0 && false) add_stuck(window,", ["guards"]),
    "goes on with nothing that is stuck": Body("lend.c", "pageshare_window_row_again(stuck.byte);", "stuck.byte;", ["guards"]),
    "counts what stays stuck as let go": Body("lend.c", NOT_ENDED, NOT_ENDED.replace(".refused", ".done"), ["guards"]),
    "glances anywhere": Body("look.c", "glance(scan, places[at], numbers[at]);", "glance(scan, places[at], 0);", ["pages"]),
    "believes no copy": Body("look.c", "].is_own = is_own;", "].is_own = false;", ["pages"]),
    "reads another page": Body("look.c", "(windows->lender.salt, page_at(scan, places[at]), next);", "(windows->lender.salt, page_at(scan, 0), next);", ["pages"]),
    "copies what was given up": Body("lend.c", "    LIST(window, count, .kind = PAGESHARE_PROCESS_TO_COPY,", "    memset(listed->there, 1, count);\n    LIST(window, count, .kind = PAGESHARE_PROCESS_TO_COPY,", ["leaves"]),
    "compares what was given up": Body("lend.c", " && listed->there[i] != 0 &&", " &&", ["leaves"]),
    "forgets that the caller watches": Body("windows.c", "    windows->is_watched = true;\n", "", ["leaves"]),
    "leaves copies over frames apart": Body("tasks.c", "if (has_more) join_left_over(look);", "", ["leaves"]),
    "joins what is asked about still": Body("tasks.c", "PAGESHARE_WINDOW_KIND_LEFT_OVER)) return 0;", "PAGESHARE_WINDOW_KIND_IN_FRAMES)) return 0;", ["leaves"]),
    "gives up what has left as what is in the window": Body("home.c", "run.kind == PAGESHARE_WINDOW_KIND_LEFT ? give_up_all_left(window, &run) : give_up(", "give_up(", ["leaves"]),
    "gives up nothing that has left": Body("home.c", "count, ITS))\n        result", "count, IN_WINDOW))\n        result", ["leaves"]),
    "counts only what is in the window as kept": Body("home.c", "OVER_FRAMES)) found += run.count;", "PAGESHARE_WINDOW_KIND_IN_FRAMES)) found += run.count;", ["leaves"]),
    "brings nothing home where it is": Body("home.c", "PAGESHARE_WINDOW_KIND_COMING))", "PAGESHARE_WINDOW_KIND_LEFT_OVER))", ["leaves"]),
    "takes a watch for ended": Body("tasks.c", "if (refused == 0 && !is_any && ", "if (refused == 0 && ", ["leaves"]),
    "attends to nothing": Body("tasks.c", "windows->config.attend == NULL || ", "windows->config.attend == NULL || true || ", ["tasks"]),
    "goes on when a look is to end": Body("tasks.c", "return !look->is_cut_short;", "return true;", ["tasks"]),
    "counts no processor time": Body("tasks.c", "return windows->has_budget ?", "return false ?", ["tasks"]),
    "pays for what a thread used before": Body("tasks.c", "look->spent_ns - windows->budget.spent;", "0;", ["tasks"]),
    "forgets that a lender is away": Body("tasks.c", "|| windows->lender_waits) windows->counts", ") windows->counts", ["tasks"]),
    "goes to no window": Body("tasks.c", "look->next = windows->first;", "look->next = NULL;", ["tasks"]),
    "takes a lost reply for a refusal": Body("lend.c", "if (cause == 0 || cause == ENOTCONN", "if (cause >= 0 || cause == ENOTCONN", ["pages"]),
    "asks about no page of a lost reply again": Body("windows.c", "if (windows->awaits_loans) each_part(", "if (false) each_part(", ["pages"]),
    "loses the loan of a page that has left": Body("lend.c", "slots[i] = loans[i].slot,", "slots[i] = has_kind(window, batch->pages[i], batch->pages[i] + 1, IN_WINDOW) ? loans[i].slot : UINT64_MAX,", ["tasks"]),
    "keeps the order of a page that isn't held": Body("lend.c", "outcomes[i] = is_left ?", "outcomes[i] = is_left && false ?", ["tasks"]),
    "follows no lock": Body("tasks.c", "is_locked = is_locked;\n    follow_facts(windows);", "is_locked = is_locked;", ["pages"]),
    "follows no watch": Body("windows.c", "    windows->watches_begun++;\n    follow_facts(windows);", "    windows->watches_begun++;", ["pages"]),
    "follows no watch that ended": Body("tasks.c", "is_watched = false;\n    follow_facts(windows);", "is_watched = false;", ["pages"]),
    "follows no pins that were found": Body("pages.c", "config.pins = WINDOWS_PINS_POSSIBLE;\n    follow_facts(windows);", "config.pins = WINDOWS_PINS_POSSIBLE;", ["leaves"]),
    "follows no pins that were said": Body("windows.c", "config.pins = pins;\n    follow_facts(windows);", "config.pins = pins;", ["pages"]),
    "follows no end of all": Body("windows.c", "    windows->is_over = true;\n    follow_facts(windows);", "    windows->is_over = true;", ["pages"]),
    "follows no transfer that ends elsewhere": Body("transfers.c", "elsewhere, 0);\n    follow_facts(windows);\n", "elsewhere, 0);\n", ["leaves"]),
    "follows no advice on forks": Body("window.c", "window->advice.dont_fork = true;\n    follow_state(window);", "window->advice.dont_fork = true;", ["pages"]),
    "takes what stays guarded for free": Body("pages.c", "page, PAGESHARE_WINDOW_PLACE_GUARDED, 0);", "page, PAGESHARE_WINDOW_PLACE_FREE, 0);", ["guards"]),
    "takes what is stuck for free": Body("lend.c", "hold->row[i], hold->scratch + i", "PAGESHARE_WINDOW_PLACE_FREE, hold->scratch + i", ["guards"]),
}


def build(name: str, library: StrPath, more: Sequence[str] = (), suffix: str = "") -> pathlib.Path:
    """Builds a test, and returns its path."""
    wraps = [f"-Wl,--wrap={call}" for call in WRAPS.get(name, [])]
    sources = [TESTS / f"{part}.c" for part in [name, *MORE[name]]]
    return compile_c([*FLAGS, *more, *wraps, f"-I{TOP / 'lib/include'}", *sources, *WINDOW, *LENDER, library, WINDOW_LIBRARY], OUT / (name + suffix))


def has_sanitizer(name: str) -> bool:
    """Whether a program with this sanitizer can be built and runs."""
    path = OUT / "probe"
    words = [CC, f"-fsanitize={name}", "-x", "c", "-o", str(path), "-"]
    built = subprocess.run(words, input=b"int main(void) { return 0; }", capture_output=True, check=False).returncode == 0
    return built and subprocess.run([path], capture_output=True, check=False).returncode == 0


def sanitized(tally: Tally, name: str, library: StrPath, seconds: str) -> None:
    """The stress under a sanitizer, and what becomes of pages under that of addresses."""
    if not has_sanitizer(name):
        raise LeftOut(f"the {name} sanitizer")
    suffix = "_" + name.split(",", maxsplit=1)[0]
    stress = build("stress", library, [f"-fsanitize={name}"], suffix)
    passes(tally, [stress, "--seconds", seconds], int(seconds) + STRESS_MORE)
    for program in SANITIZED[name]:
        passes(tally, [build(program, library, [f"-fsanitize={name}"], suffix)], CASES[program])


def record(tally: Tally, library: StrPath, seconds: str) -> None:
    """A stress, and parts that are split and become whole, with a record of their events, which is played."""
    trace = OUT / "window.trace"
    more: dict[str, list[str]] = {"stress": ["--seconds", seconds, "--writes", "1000000"], "parts": []}
    for name, words in more.items():
        program = build(name, library, ["-DWINDOW_TRACE"], "_trace")
        if passes(tally, [program, *words, "--trace", trace], int(seconds) + STRESS_MORE):
            tally.part(play, trace)


def with_body(name: str, body: Body) -> pathlib.Path:
    """The folder of a copy of the sources with a wrong body."""
    folder = OUT / "wrong"
    shutil.rmtree(folder, ignore_errors=True)
    for part_of in ["window", "lib/include"]:
        shutil.copytree(TOP / part_of, folder / part_of)
    path = folder / "window" / body.file
    text = path.read_text()
    if text.count(body.part) != 1:
        sys.exit(f"{name}: its line stands {text.count(body.part)} times in {body.file}")
    path.write_text(text.replace(body.part, body.instead))
    return folder


def is_found(folder: pathlib.Path, library: StrPath, words: Sequence[str]) -> bool:
    """Whether a test fails with these sources and words; of a stress, whether its record does."""
    name = words[0]
    sources = [folder / source.relative_to(TOP) for source in [*(TESTS / f"{it}.c" for it in [name, *MORE[name]]), *WINDOW, *LENDER]]
    flags = [flag for flag in FLAGS if flag != "-Werror"] + ["-w", "-DWINDOW_TRACE", f"-I{folder / 'lib/include'}"]
    wraps = [f"-Wl,--wrap={call}" for call in WRAPS.get(name, [])]
    test = compile_c([*flags, *wraps, *sources, library, WINDOW_LIBRARY], OUT / f"{name}_wrong")
    trace, program = OUT / "wrong.trace", BUILT / "window_trace"
    more: list[StrPath] = [*LONG, trace] if name == "stress" else []
    if run([test, *more, *words[1:]], capture_output=True).returncode != 0:
        return True
    return name == "stress" and program.exists() and run([program, trace]).returncode == 1


def are_there(tally: Tally) -> None:
    """What a wrong body takes away stands once in its file, so that each can be tried."""
    for name, body in BODIES.items():
        tally.equal(f"how often the line of a wrong body stands in {body.file}: {name}", (TOP / "window" / body.file).read_text().count(body.part), 1)


def wrong_bodies(tally: Tally, library: StrPath) -> None:
    """Each wrong body must be found."""
    for name, body in BODIES.items():
        tally.holds(name, is_found(with_body(name, body), library, body.test), "a wrong body that wasn't found")


def all_tests(tally: Tally, library: StrPath, seconds: str) -> None:
    """Each test in turn."""
    are_there(tally)
    needs_windows()
    OUT.mkdir(parents=True, exist_ok=True)
    for name, most in CASES.items():
        passes(tally, [build(name, library)], most)
    stress = build("stress", library)
    for way in WAYS:
        passes(tally, [stress, "--seconds", seconds, *way], int(seconds) + STRESS_MORE)
    for name in SANITIZED:
        tally.part(sanitized, name, library, seconds)
    record(tally, library, seconds)
    if os.environ.get("WRONG") == "1":
        wrong_bodies(tally, library)


def main() -> int:
    options = argparse.ArgumentParser(description=__doc__.splitlines()[0])
    options.add_argument("library", metavar="LIBRARY", nargs="?", type=pathlib.Path, default=BUILT / "libpageshare.a")
    options.add_argument("seconds", metavar="SECONDS", nargs="?", type=int, default=10)
    given = options.parse_args()
    if not given.library.exists():
        sys.exit(f"there is no library {given.library}")
    tally = Tally()
    tally.part(all_tests, given.library, str(given.seconds))
    return tally.close()


if __name__ == "__main__":
    sys.exit(main())
