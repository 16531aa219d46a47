"""Finds the program teddertempo."""

from __future__ import annotations

import shutil
from pathlib import Path


def find_program() -> str | None:
    """The program in `bin` of the package that this file belongs to, else the one on the path, if there is one."""
    beside = Path(__file__).resolve().parents[3] / "bin" / "teddertempo"
    return str(beside) if beside.exists() else shutil.which("teddertempo")
