"""The kit's own command as a module, for the checks that prove and build."""
from __future__ import annotations

import importlib.machinery
import importlib.util
import os
import shutil
from typing import Any


def leave_checked(kit: Any) -> None:
    """Has a proof of a static library leave what it checked in out/checked, of which tools/build.py compiles the library."""
    plain = kit.Crate.ci

    def ci(crate: Any, flags: list[str], tests: bool) -> int:
        if tests or not crate.is_static:
            return int(plain(crate, flags, tests))
        shutil.rmtree(f"{crate.folder}/out/checked", ignore_errors=True)
        return int(crate.prove(["check", *crate.words(flags, keeps=False), "-o", "out/checked"]))

    kit.Crate.ci = ci


def load_kit() -> Any:
    """The kit's own command as a module, set as `rt ci` sets it."""
    path = os.path.realpath(shutil.which("rt") or "rt")
    loader = importlib.machinery.SourceFileLoader("rt", path)
    spec = importlib.util.spec_from_loader("rt", loader)
    assert spec is not None
    made: Any = importlib.util.module_from_spec(spec)
    loader.exec_module(made)
    leave_checked(made)
    made.Crate.cuts_libraries = True
    made.rtlib.Crate = made.Crate
    made.rtlib.guarded()
    return made
