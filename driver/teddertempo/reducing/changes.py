"""The program teddertempo, which changes operators that are named so that a valid module stays valid."""

from __future__ import annotations

import json
import os
import tempfile
from contextlib import contextmanager
from dataclasses import dataclass
from pathlib import Path
from typing import Iterator, Sequence

from ..options import MISUSED
from ..program import find_program
from .commands import Commands

# The limits of a run of the program, and of a list of what it can change.
SECONDS, LIST_SECONDS, MOST_LISTED = 600.0, 60.0, 256 << 20

# A function, counted with those that are imported, and an operator of its body.
Place = tuple[int, int]


@dataclass(frozen=True)
class Stretch:
    """Operators of a function, from the first to the last, or up to the end of the function if the last isn't named. Functions are
    counted with those that are imported."""

    function: int
    first: int = 0
    last: int | None = None

    def words(self) -> list[str]:
        """The options that name them."""
        last = [] if self.last is None else ["--to", str(self.last)]
        return ["--function", str(self.function), "--from", str(self.first), *last]


def program_of(named: str | None) -> str | None:
    """The program that is named, or by TEDDERTEMPO, else the one that is found, if there is one."""
    return named or os.environ.get("TEDDERTEMPO") or find_program()


class Changer:
    """Runs the program, from several threads at once."""

    def __init__(self, program: str, commands: Commands, folder: Path):
        self.program = program
        self.commands = commands
        self.folder = folder
        self.can_list = True

    def change(self, data: bytes, name: str, stretches: Sequence[Stretch]) -> bytes | None:
        """The module with the change of that name in each of the stretches; none if nothing changes in any."""
        changed = data
        for stretch in stretches:
            with self.written(changed) as old:
                new = old.with_name("new.wasm")
                if self.run(name, stretch, old, new) == 0:
                    changed = new.read_bytes()
        return None if changed == data else changed

    def places(self, data: bytes, name: str) -> list[Place] | None:
        """The places at which the change of that name can be made; none if the program can't list them. A program that can't, or takes
        too long, isn't asked again."""
        if not self.can_list:
            return None
        with self.written(data) as old:
            finished = self.commands.run([self.program, f"--change={name}", "--list", "--json", str(old)], LIST_SECONDS, MOST_LISTED)
        self.can_list = not (finished.status == MISUSED or finished.out_of_time or finished.too_much_output)
        return places_in(finished.output) if self.can_list else None

    def knows_places(self, data: bytes) -> bool:
        """Whether the program can change operators that are named."""
        with self.written(data) as old:
            return self.run("delete", Stretch(0), old, old.with_name("new.wasm")) != MISUSED

    def run(self, name: str, stretch: Stretch, old: Path, new: Path) -> int:
        """Runs the program on one stretch; returns its status."""
        return self.commands.run([self.program, f"--change={name}", *stretch.words(), str(old), "-o", str(new)], SECONDS).status

    @contextmanager
    def written(self, data: bytes) -> Iterator[Path]:
        """The module as a file in a folder of its own."""
        with tempfile.TemporaryDirectory(dir=self.folder) as own:
            file = Path(own) / "old.wasm"
            file.write_bytes(data)
            yield file


def places_in(output: bytes) -> list[Place]:
    """The places in a list of the program."""
    lines = map(json.loads, output.splitlines())
    return [(line["function"], line["operator"]) for line in lines]
