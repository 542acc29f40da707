"""To be imported first by the scripts of this folder: they share checks/harness.py, checks/common and checks/host with the checks."""
from __future__ import annotations

import pathlib
import sys

CHECKS = pathlib.Path(__file__).resolve().parent.parent / "checks"
sys.path[1:1] = [str(CHECKS), str(CHECKS / "host")]
