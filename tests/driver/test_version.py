"""The version that both tools print: that of the file VERSION, from the repository and from a package."""

from __future__ import annotations

import shutil
import subprocess
import sys
from pathlib import Path

import pytest
from support import TOOLS, TOP

VERSION = (TOP / "VERSION").read_text().strip()
BOTH = pytest.mark.parametrize("tool", ("teddertempo-diff", "teddertempo-reduce"))


def printed(launcher: Path) -> str:
    return subprocess.run([sys.executable, str(launcher), "--version"], capture_output=True, text=True, check=True).stdout


@BOTH
def test_version_in_the_repository(tool: str) -> None:
    assert printed(TOOLS / tool) == f"{tool} {VERSION}\n"


@BOTH
def test_version_in_a_package(tool: str, folder: Path) -> None:
    share = folder / "share" / "teddertempo"
    (folder / "bin").mkdir()
    shutil.copytree(TOOLS / "teddertempo", share / "teddertempo")
    shutil.copyfile(TOP / "VERSION", share / "VERSION")
    shutil.copyfile(TOOLS / tool, folder / "bin" / tool)
    assert printed(folder / "bin" / tool) == f"{tool} {VERSION}\n"
