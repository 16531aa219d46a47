"""What the command lines of both tools share: the parser, values of options, and statuses."""

from __future__ import annotations

import argparse
import os
import re
import sys
from typing import NoReturn

from .version import version

MISUSED, FAILED = 64, 70


class Parser(argparse.ArgumentParser):
    """A parser with the option --version, whose refusals have the status of a wrong command line."""

    def __init__(self, program: str, usage: str, description: str, epilog: str):
        super().__init__(prog=program, usage=usage, description=description, epilog=epilog, allow_abbrev=False)
        self.add_argument("-V", "--version", action="version", version=f"{program} {version()}", help="prints the version")

    def error(self, message: str) -> NoReturn:
        self.print_usage(sys.stderr)
        self.exit(MISUSED, f"{self.prog}: {message}\n")


def duration(text: str) -> float:
    match = re.fullmatch(r"(\d+(?:\.\d+)?)([smh]?)", text)
    if not match or float(match.group(1)) == 0:
        raise argparse.ArgumentTypeError("seconds, or as 90s, 30m, 8h")
    return float(match.group(1)) * {"": 1, "s": 1, "m": 60, "h": 3600}[match.group(2)]


def positive(text: str) -> int:
    if not re.fullmatch(r"\d+", text) or int(text) == 0:
        raise argparse.ArgumentTypeError("a number above 0")
    return int(text)


def processors() -> int:
    """How many processors this process may use, if the system reports it, else how many there are."""
    return len(os.sched_getaffinity(0)) if hasattr(os, "sched_getaffinity") else os.cpu_count() or 1


def split_command(words: list[str]) -> tuple[list[str], list[str]]:
    """The words before the first `--`, and the command after it."""
    place = words.index("--") if "--" in words else len(words)
    return words[:place], words[place + 1 :]
