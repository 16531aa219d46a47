"""The version of both tools."""

from __future__ import annotations

from importlib import metadata
from pathlib import Path


def version() -> str:
    """The version in the file VERSION of the repository or of a package that was unpacked; else the one that pip installed."""
    package = Path(__file__).resolve().parent
    for folder in (package.parent, package.parent.parent):
        if (folder / "VERSION").is_file():
            return (folder / "VERSION").read_text(encoding="ascii").strip()
    return metadata.version("teddertempo")
