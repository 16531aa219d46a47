#!/usr/bin/env python3
"""Says what the runs of tests/coverage.sh came to, and judges them; or which functions one mutator covers more of than another.

usage: report.py BUILD [FIRST SECOND]

BUILD is the folder of the builds and of the runs. Prints a table of the runs: the seconds of a core that each had, and by the clock; on
how many inputs it ran the target, how many of these were valid modules, and how many calls of exported functions it made; the edges that
what it kept covers, by part of wabt, and how many of all of them the valid modules among that cover; how many files libFuzzer merges what
it kept to, and how many of these are valid modules; and at how many inputs it stopped. Then, for each two mutators, how many edges the
runs of the one cover, taken together, that none of the other's does. Where two mutators are named: the functions with the most edges of
these, and no judgement.

Judged is of each run: that the fuzzer ran to its end; that at each input at which it stopped the target stops by itself; that what it kept
has valid modules, and covers what the modules cover with which it began; and of keep and change, that every input was a valid module.
"""

from __future__ import annotations

import json
import re
import struct
import subprocess
import sys
from collections import Counter
from dataclasses import dataclass
from pathlib import Path

ORDER = ["bytes", "keep", "change", "mix"]

# The counts of counts.h.
COUNTS = ["runs", "read", "valid", "large", "instantiated", "called", "returned", "cut_off", "asked", "by_bytes", "not_made"]

# A part of wabt, by the file of the function that an edge is compiled into: of inlined code, of the function that it stands in at last.
# The translator reads a module again and writes the interpreter's own code. What is of the target itself isn't counted.
PARTS = [
    ("target", r"coverage/target\.cc$"),
    ("interpreter", r"/src/interp/interp\.cc$|/wabt/interp/[^/]*\.h$"),
    ("translator", r"/src/interp/(binary-reader-interp|istream)\.cc$"),
    ("validator", r"/(validator|shared-validator|type-checker|expr-visitor)\.(cc|h)$"),
    ("reader", r"/(src|wabt)/[^/]*$"),
    ("C++ library", r""),
]
SHOWN = ["reader", "validator", "translator", "interpreter", "C++ library"]
MOST_FUNCTIONS = 60


@dataclass(frozen=True)
class Place:
    """A function of the build."""

    part: str
    file: str
    function: str


def edges_of(file: Path) -> tuple[list[str], set[int], set[int]]:
    """The addresses of a build's edges, and the numbers of those that are covered, and that valid modules cover."""
    lines = [line.split() for line in file.read_text().splitlines()]
    covered, by_valid = ({number for number, cells in enumerate(lines) if cells[field] == "1"} for field in (1, 2))
    return [cells[0] for cells in lines], covered, by_valid


def places_of(program: Path, addresses: list[str]) -> list[Place]:
    said = subprocess.run(
        ["llvm-symbolizer", f"--obj={program}", "--output-style=JSON", "--inlines", "--demangle"],
        input="".join(f"0x{address}\n" for address in addresses),
        check=True,
        capture_output=True,
        text=True,
    ).stdout
    places = []
    for line in said.splitlines():
        outermost = json.loads(line)["Symbol"][-1]
        file = outermost["FileName"]
        part = next(part for part, pattern in PARTS if re.search(pattern, file))
        places.append(Place(part, file.rsplit("/", 1)[-1], outermost["FunctionName"]))
    assert len(places) == len(addresses)
    return places


def by_part(edges: set[int], places: list[Place]) -> list[int]:
    """How many edges there are, and how many of each part that is shown."""
    counted = Counter(places[edge].part for edge in edges)
    return [sum(counted[part] for part in SHOWN)] + [counted[part] for part in SHOWN]


def states_of(file: Path) -> tuple[int, int]:
    """How many files there are, and how many of them are valid modules."""
    states = Counter(line.split()[-1] for line in file.read_text().splitlines())
    return sum(states.values()), states["valid"] + states["run"]


class Run:
    """What a run of a fuzzer left in its folder."""

    def __init__(self, folder: Path) -> None:
        self.name = folder.name
        self.mutator, self.seed = folder.name.split("-")
        self.seconds, self.clock = (folder / "ended").read_text().split()
        self.counts = dict(zip(COUNTS, struct.unpack(f"{len(COUNTS)}Q", (folder / "counts").read_bytes())))
        _, self.edges, self.by_valid = edges_of(folder / "edges")
        self.files, self.valid = states_of(folder / "files")
        self.stops = len(list((folder / "stops").iterdir()))
        self.unexplained = (folder / "unexplained").exists()
        self.ended = "stat::number_of_executed_units" in (folder / "log").read_text(errors="replace")


class Judge:
    def __init__(self) -> None:
        self.passed = 0
        self.failed = 0

    def __call__(self, what: str, held: bool) -> None:
        if held:
            self.passed += 1
        else:
            self.failed += 1
            print(f"{what}: failed")


def row(cells: list[object]) -> None:
    print("| " + " | ".join(f"{cell:,}" if isinstance(cell, int) else str(cell) for cell in cells) + " |")


def head(cells: list[str]) -> None:
    row(list(cells))
    print("|" + "---|" * len(cells))


def show_runs(runs: list[Run], begun: set[int], modules: tuple[int, int], places: list[Place]) -> None:
    head(["Mutator", "Seed", "Seconds", "By the clock", "Runs", "Valid", "Calls", "Edges", *SHOWN, "By valid", "Files", "Valid", "Stops"])
    row(["the modules", "", "", "", "", "", "", *by_part(begun, places), by_part(begun, places)[0], *modules, ""])
    for run in runs:
        counts = run.counts
        row(
            [run.mutator, run.seed, int(run.seconds), int(run.clock), counts["runs"], counts["valid"], counts["called"]]
            + [*by_part(run.edges, places), by_part(run.by_valid, places)[0], run.files, run.valid, run.stops]
        )
    print()
    for run in runs:
        if run.mutator != "bytes":
            counts = run.counts
            print(f"{run.name}: asked {counts['asked']:,} times, {counts['by_bytes']:,} by bytes, {counts['not_made']:,} not made")


def show_differences(covered: dict[str, set[int]], places: list[Place]) -> None:
    print()
    head(["Covered by", "but not by", "Edges", *SHOWN])
    for first in covered:
        for second in covered:
            if first != second:
                row([first, second, *by_part(covered[first] - covered[second], places)])


def show_functions(edges: set[int], places: list[Place]) -> None:
    of = Counter(places)
    head(["Edges", "Of", "Part", "File", "Function"])
    for place, count in Counter(places[edge] for edge in edges).most_common(MOST_FUNCTIONS):
        row([count, of[place], place.part, place.file, place.function])


def judge_run(judge: Judge, run: Run, begun: set[int]) -> None:
    judge(f"{run.name}, that it ran to its end", run.ended)
    judge(f"{run.name}, that the target stops by itself", not run.unexplained)
    judge(f"{run.name}, that valid modules are kept", run.valid > 0)
    judge(f"{run.name}, that it covers what the modules cover", begun <= run.edges)
    if run.mutator in ("keep", "change"):
        judge(f"{run.name}, that every input is valid", run.counts["valid"] == run.counts["runs"] and run.valid == run.files)


def main() -> int:
    build = Path(sys.argv[1])
    addresses, begun, _ = edges_of(build / "modules.edges")
    places = places_of(build / "replay", addresses)
    runs = [Run(folder) for folder in (build / "runs").iterdir() if (folder / "files").exists()]
    runs.sort(key=lambda run: (ORDER.index(run.mutator), int(run.seed)))
    covered: dict[str, set[int]] = {}
    for run in runs:
        covered.setdefault(run.mutator, set()).update(run.edges)
    if len(sys.argv) == 4:
        show_functions(covered[sys.argv[2]] - covered[sys.argv[3]], places)
        return 0
    show_runs(runs, begun, states_of(build / "modules.files"), places)
    show_differences(covered, places)
    judge = Judge()
    for run in runs:
        judge_run(judge, run, begun)
    print(f"{judge.passed} passed, {judge.failed} failed")
    return 0 if judge.failed == 0 and judge.passed > 0 else 1


sys.exit(main())
