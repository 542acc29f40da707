"""Guests that run beside a host: they start, share, work on, and have read no wrong byte."""
from __future__ import annotations

import os
from collections.abc import Iterable, Sequence
from typing import Any

from places import AS_NOBODY, HERE, Host, in_time, must, until
from qemu_guests import PAGE, Guest, read

GUESTS = int(os.environ.get("GUESTS", "3"))


def guest(number: int, host: Any = None, **more: Any) -> Guest:
    made = Guest(HERE.place, number, HERE.library if host else None, host.socket if host else None, wrap=more.pop("wrap", AS_NOBODY), **more)
    HERE.place.started.append(made)
    return made


def guests(count: int, host: Any = None, **more: Any) -> list[Guest]:
    HERE.place.guests_possible()
    made = [guest(number, host, **more) for number in range(count)]
    for it in made:
        it.wait()
    return made


def lent(made: Iterable[Guest]) -> list[int]:
    return [it.counts().get("lent", 0) for it in made]


def settle(host: Host, made: Sequence[Guest], least: int = 8000, seconds: float = 120) -> float:
    """Waits until each guest has lent so many pages, by its own counts and by the host's. Answers the seconds."""

    def is_settled() -> bool:
        state = host.status() or {"processes": []}
        known = {it["pid"]: it["client_lent_bytes"] // PAGE for it in state["processes"]}
        return all(own >= least and known.get(it.pid, 0) >= least for it, own in zip(made, lent(made)))

    good, took = until(seconds, is_settled, 1)
    in_time(good, f"not settled after {seconds} s: lent {lent(made)}; {host.status()}; {[it.said() for it in made]}")
    return took


def go_on(made: Sequence[Guest], rounds: int = 2, seconds: float = 180) -> None:
    """Each guest does some more rounds, and none has read a wrong byte."""
    before = [it.ticks() for it in made]
    good, _ = until(seconds, lambda: all(it.ticks() >= past + rounds or not it.is_alive() for it, past in zip(made, before)), 1)
    right(made)
    must(good, f"guests stand still: {before} to {[it.ticks() for it in made]} rounds")


def right(made: Iterable[Guest]) -> None:
    for it in made:
        must(it.is_alive(), f"guest {it.number} ended: {read(it.log)[-400:]}")
        must(it.wrong() == 0, f"guest {it.number}: {[line for line in read(it.out).splitlines() if 'WRONG' in line][:3]}")


def show(host: Host, made: Sequence[Guest], note: str) -> None:
    state = host.status()
    numbers = {name: round(state[name] / (1 << 20), 1) for name in ("lent_bytes", "frame_bytes", "reclaimed_bytes")} if state else "no host"
    print(f"  {note}: rounds {[it.ticks() for it in made]}, lent {lent(made)}, MiB {numbers}", flush=True)
