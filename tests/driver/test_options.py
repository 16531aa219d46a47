"""The command lines of both tools on other systems."""

from __future__ import annotations

import subprocess
import sys
from pathlib import Path

import pytest
from support import TOOLS, Driver

# Runs a tool as on a system without two functions of Linux, as macOS.
ELSEWHERE = """
import os, runpy, sys
del os.sched_getaffinity, os.waitid
sys.argv = sys.argv[1:]
runpy.run_path(sys.argv[0], run_name="__main__")
"""


@pytest.fixture
def elsewhere(folder: Path) -> Path:
    file = folder / "elsewhere.py"
    file.write_text(ELSEWHERE)
    return file


@pytest.mark.parametrize("tool", ("teddertempo-diff", "teddertempo-reduce"))
def test_help(elsewhere: Path, tool: str) -> None:
    done = subprocess.run([sys.executable, str(elsewhere), str(TOOLS / tool), "--help"], capture_output=True, text=True)
    assert done.returncode == 0 and "--jobs N" in done.stdout, done.stderr


def test_run(driver: Driver, elsewhere: Path) -> None:
    python, *words = driver.command([driver.module], driver.engine("same"), driver.folder / "found", "--seeds", "2", "--dose", "5")
    done = subprocess.run([python, str(elsewhere), *words], capture_output=True, text=True)
    assert done.returncode == 0, done.stderr
