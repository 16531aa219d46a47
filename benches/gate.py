#!/usr/bin/env python3
"""Runs the gate, and counts what it takes, by crate: the CPU seconds of proofs, of tests, of seeded faults and of runs.

Usage: gate.py [COMMAND ARGS..], at the top of the repository; `rt ci --anew` if none is given. What the command prints goes to
standard output, the table after it. The command's processes are read each second from /proc, so that each is counted to within a second;
the total is the kernel's, and exact. Runs are the building of programs, by two compilers, and what they take themselves; what belongs to no
crate, such as `rt` itself, and the seconds that ended unseen, are the figure "others". For a figure to go by, nothing else
runs on the machine.
"""

from __future__ import annotations

import collections
import os
import resource
import subprocess
import sys
import threading
import time
from collections.abc import Iterator
from typing import NamedTuple

TICKS = os.sysconf("SC_CLK_TCK")

KINDS = {"proof": "Proof", "tests": "Tests", "faults": "Seeded faults", "runs": "Runs"}


class Process(NamedTuple):
    """What a process of the gate does, and what it has taken."""

    crate: str
    kind: str
    seconds: float


# A process's number and the time of its start, since numbers are used again.
Mark = tuple[int, str]


def read(path: str) -> bytes:
    """What a file of /proc holds."""
    with open(path, "rb") as file:
        return file.read()


def fields_of(number: int) -> list[str]:
    """The fields of a process's state after its name."""
    return read(f"/proc/{number}/stat").decode(errors="replace").rsplit(")", 1)[1].split()


def descendants(ancestor: int) -> Iterator[tuple[int, list[str]]]:
    """The processes that come from one, with the fields of their states."""
    states: dict[int, list[str]] = {}
    for name in filter(str.isdigit, os.listdir("/proc")):
        try:
            states[int(name)] = fields_of(int(name))
        except OSError:
            continue
    children = collections.defaultdict(list)
    for number, fields in states.items():
        children[int(fields[1])].append(number)
    waiting = [ancestor]
    while waiting:
        number = waiting.pop()
        waiting.extend(children[number])
        if number in states:
            yield number, states[number]


def process_of(number: int, fields: list[str]) -> Process | None:
    """What a process does, and for which crate; none if it has ended, or belongs to no crate."""
    try:
        words = read(f"/proc/{number}/cmdline").decode(errors="replace").split("\0")
        folder = os.readlink(f"/proc/{number}/cwd")
    except OSError:
        return None
    if "--crate-name" not in words:
        return None
    if "--crate-checked" in words:
        kind = "runs"
    elif "rt-edit" in folder:
        kind = "faults"
    elif "--test" in words:
        kind = "tests"
    else:
        kind = "proof"
    return Process(words[words.index("--crate-name") + 1], kind, (int(fields[11]) + int(fields[12])) / TICKS)


def watch(ancestor: int, seen: dict[Mark, Process], is_over: threading.Event) -> None:
    """Notes each second what each process of the command has taken so far."""
    while not is_over.wait(1.0):
        for number, fields in descendants(ancestor):
            found = process_of(number, fields)
            if found is not None:
                seen[number, fields[19]] = found


def table(seen: dict[Mark, Process], total: float) -> Iterator[str]:
    """The seconds of each crate by what they are for, the dearest crates first, and the sums in minutes."""
    crates: dict[str, dict[str, float]] = collections.defaultdict(lambda: dict.fromkeys(KINDS, 0.0))
    for process in seen.values():
        crates[process.crate][process.kind] += process.seconds
    rows = sorted(crates.items(), key=lambda row: -sum(row[1].values()))
    yield "| Crate | " + " | ".join(KINDS.values()) + " |"
    yield "|---" * (1 + len(KINDS)) + "|"
    for crate, spent in rows:
        yield f"| `{crate}` | " + " | ".join(f"{spent[kind]:,.0f}" if spent[kind] else "-" for kind in KINDS) + " |"
    sums = {kind: sum(spent[kind] for _, spent in rows) / 60 for kind in KINDS}
    sums["others"] = total / 60 - sum(sums.values())
    yield ", ".join(f"{kind} {minutes:.1f}" for kind, minutes in sums.items())
    yield f"total {total / 60:.1f} CPU minutes"


def main() -> int:
    seen: dict[Mark, Process] = {}
    is_over, began = threading.Event(), time.monotonic()
    with subprocess.Popen(sys.argv[1:] or ["rt", "ci", "--anew"]) as command:
        watcher = threading.Thread(target=watch, args=(command.pid, seen, is_over))
        watcher.start()
        try:
            status = command.wait()
        finally:
            is_over.set()
            watcher.join()
    used = resource.getrusage(resource.RUSAGE_CHILDREN)
    print(*table(seen, used.ru_utime + used.ru_stime), sep="\n")
    print(f"{(time.monotonic() - began) / 60:.1f} minutes by the clock")
    return status


if __name__ == "__main__":
    sys.exit(main())
