"""To be imported first by the scripts of this folder: they share checks/harness.py and checks/common with the checks."""
from __future__ import annotations

import pathlib
import sys

sys.path.insert(1, str(pathlib.Path(__file__).resolve().parent.parent / "checks"))
