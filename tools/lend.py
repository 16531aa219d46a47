#!/usr/bin/env python3
"""Puts the libraries that `rt ci` has proved on this machine into the folders out/ of a checkout, so that `rt check` of a crate begins at
once and doesn't prove the crates below it again. Prints the crates whose libraries are there, and those that `rt ci` hasn't proved with
these sources.

Usage: lend.py [CHECKOUT], this repository if none is given. It uses the kit's own program rt, as a module: another kit may need changes.
"""

from __future__ import annotations

import importlib.machinery
import importlib.util
import os
import shutil
import sys
from pathlib import Path
from typing import Any


def module_of(program: Path) -> Any:
    """The program as a module; its types aren't known."""
    loader = importlib.machinery.SourceFileLoader("rt", str(program))
    spec = importlib.util.spec_from_loader("rt", loader)
    assert spec is not None
    made = importlib.util.module_from_spec(spec)
    sys.modules["rt"] = made
    loader.exec_module(made)
    return made


def libraries(crates: list[Any]) -> list[Any]:
    """The libraries among the crates and below them, each after those that it uses."""
    found: dict[str, Any] = {}
    for crate in crates:
        for library in [*crate.below(), crate]:
            if library.makes_rlib():
                found.setdefault(library.name, library)
    return list(found.values())


def lend(store: Any, library: Any, lent: set[str]) -> bool:
    """Whether the library is in the crate's out/, where the store has put it if it has it."""
    if not all(below.name in lent for below in library.below()):
        return False
    if not library.is_built():
        key = store.key(library)
        if not os.path.isdir(store.place(library, False, key)) or not store.give(library, False, key):
            return False
        Path(library.folder, "out/rlib/stamp").write_text(library.stamp(), encoding="utf-8")
    store.is_built(library)
    return True


def main(words: list[str]) -> int:
    sys.dont_write_bytecode = True
    program = shutil.which("rt")
    if program is None:
        print("lend.py: needs rt of a Rattle kit on the path", file=sys.stderr)
        return 1
    checkout = Path(words[0] if words else Path(__file__).parent.parent).resolve()
    os.chdir(checkout)
    rt = module_of(Path(program).resolve())
    crates = libraries(rt.crates_of(str(checkout)))
    store = rt.Kept(crates)
    lent: set[str] = set()
    for library in crates:
        if lend(store, library, lent):
            lent.add(library.name)
    print("there:", *sorted(lent))
    print("not proved:", *sorted({library.name for library in crates} - lent))
    return 0


if __name__ == "__main__":
    sys.exit(main(sys.argv[1:]))
