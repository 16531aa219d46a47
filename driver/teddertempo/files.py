"""Files that are replaced as a whole, and folders that one process at a time has."""

from __future__ import annotations

import fcntl
import os
from pathlib import Path
from typing import TextIO


def write_whole(file: Path, data: bytes) -> None:
    """Writes a file so that it has all of the new content or all of the old; it keeps its mode."""
    beside = file.with_name(f".{file.name}.new")
    beside.write_bytes(data)
    if file.exists():
        os.chmod(beside, file.stat().st_mode & 0o7777)
    os.replace(beside, file)


def lock_folder(folder: Path) -> TextIO | None:
    """Takes a folder for this process, if no other one has it. The lock ends when the file is closed, so with the process at last."""
    lock = open(folder / "lock", "a", encoding="ascii")
    try:
        fcntl.flock(lock, fcntl.LOCK_EX | fcntl.LOCK_NB)
    except OSError:
        lock.close()
        return None
    return lock


def differing(before: dict[str, object], now: dict[str, object]) -> list[str]:
    """The names of settings that two runs don't share."""
    return sorted(key for key in {*before, *now} if before.get(key) != now.get(key))
