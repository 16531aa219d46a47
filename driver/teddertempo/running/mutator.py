"""Runs the program teddertempo: rewrites a module with a seed, counts the operators that it can rewrite, and shows a rewrite."""

from __future__ import annotations

import hashlib
import json
import re
from dataclasses import dataclass
from pathlib import Path
from typing import Iterable

from ..program import find_program
from .processes import Finished, Runner

NOTHING_TO_REWRITE, MISUSED = 2, 64

# The program's message about --exact and a module with a memory that threads share.
SHARED = "--exact: threads share a memory"

# The bounds of a run of the program: seconds, and bytes of the rewrites that it shows. The time of the whole run is a bound too.
SECONDS, MOST_SHOWN = 600.0, 256 << 20


class MutatorFailure(Exception):
    """The program rejected a module, or can't be started."""


class MutatorMisuse(Exception):
    """The program rejected its options."""


@dataclass(frozen=True)
class Rewrite:
    """A rewrite as the program shows it, and its rule."""

    rule: str
    text: str


@dataclass(frozen=True)
class Choice:
    """Which rules mutants may use: only some, or all but some; and into how many parts they are divided, one for each mutant."""

    only: tuple[str, ...] = ()
    without: tuple[str, ...] = ()
    parts: int = 1

    def words(self) -> list[str]:
        """The options for all of them."""
        return [*words_of("--rule", self.only), *words_of("--not-rule", self.without)]

    def part(self, names: list[str], seed: int) -> list[str]:
        """The options for the rules of a seed, of all names. Of as many seeds as there are parts, each rule belongs to one; they are
        divided in another way for the next seeds."""
        chosen = [name for name in self.only or names if name not in self.without]
        parts = min(self.parts, len(chosen))
        if parts < 2:
            return self.words()
        dealt = sorted(chosen, key=lambda name: hashlib.sha256(f"{seed // parts} {name}".encode()).digest())
        part = set(dealt[seed % parts :: parts])
        return words_of("--rule", (name for name in chosen if name in part))


def words_of(option: str, names: Iterable[str]) -> list[str]:
    return [word for name in names for word in (option, name)]


@dataclass(frozen=True)
class Dose:
    """How many rewrites a mutant has: a number, or a percentage of the operators that a rule can rewrite."""

    amount: float
    is_share: bool

    def count(self, rewritable: int) -> int:
        return max(1, round(rewritable * self.amount / 100) if self.is_share else round(self.amount))

    def __str__(self) -> str:
        return f"{self.amount:g}%" if self.is_share else f"{self.amount:g}"


def program_of(named: str | None) -> str:
    """The named program, else the one that is found."""
    found = named or find_program()
    if not found:
        raise MutatorFailure("teddertempo is neither beside this program nor on the path: name it by --teddertempo")
    return found


class Mutator:
    """The program, with its choice of rules and further options."""

    def __init__(self, program: str, choice: Choice, options: list[str], runner: Runner):
        self.program = program
        self.choice = choice
        self.options = options
        self.runner = runner
        self.exact: dict[bytes, bool] = {}
        self.names: list[str] = []
        self.version_line = ""

    def run_plainly(self, arguments: list[str]) -> Finished:
        try:
            return self.runner.run([self.program, *arguments], SECONDS, MOST_SHOWN)
        except OSError as error:
            raise MutatorFailure(f"{self.program}: {error.strerror}") from error

    def run(self, arguments: list[str]) -> Finished:
        finished = self.run_plainly(arguments)
        if finished.too_much_output or finished.out_of_time:
            raise MutatorFailure(f"{self.program} took longer than {SECONDS:.0f} s, or printed more than {MOST_SHOWN >> 20} MiB")
        if finished.status not in (0, NOTHING_TO_REWRITE):
            message = finished.errors.decode("utf-8", "replace").strip() or f"teddertempo ended with status {finished.status}"
            raise MutatorMisuse(message) if finished.status == MISUSED else MutatorFailure(message.split("\n")[0])
        return finished

    def version(self) -> str:
        if not self.version_line:
            self.version_line = self.run(["--version"]).output.decode().strip()
        return self.version_line

    def takes_exact(self, module: Path) -> bool:
        """Whether the program rewrites the module with --exact, by rules on floats, vectors and memories too."""
        finished = self.run_plainly(["--exact", "--list", "--rule", "drop_nop", str(module)])
        return SHARED not in finished.errors.decode("utf-8", "replace")

    def rules(self) -> list[str]:
        """The names of all rules."""
        if not self.names:
            self.names = [json.loads(line)["name"] for line in self.run(["--list-rules=json"]).output.decode().splitlines()]
        return self.names

    def words(self, module: Path, choice: list[str]) -> list[str]:
        """The options for the module, with those for rules. --exact is used unless threads share one of the module's memories."""
        digest = hashlib.sha256(module.read_bytes()).digest()
        if digest not in self.exact:
            self.exact[digest] = self.takes_exact(module)
        return [*(["--exact"] if self.exact[digest] else []), *choice, *self.options]

    def words_by(self, module: Path, seed: int) -> list[str]:
        """The options for a mutant."""
        return self.words(module, self.choice.part(self.rules(), seed) if self.choice.parts > 1 else self.choice.words())

    def rewritable(self, module: Path) -> int:
        """How many operators of the module a rule can rewrite."""
        errors = self.run([*self.words(module, self.choice.words()), "--reach", "--json", str(module), "-o", "/dev/null"]).errors
        for line in errors.decode().splitlines():
            report = json.loads(line) if line.startswith("{") else {}
            if report.get("of") == "operators":
                return int(report["rewritable"])
        return 0

    def places(self, module: Path) -> int:
        """The number of possible rewrites of the module."""
        return self.run([*self.words(module, self.choice.words()), "--list", str(module)]).output.count(b"\n")

    def rewrite(self, module: Path, seed: int, count: int, new: Path) -> bool:
        """Writes the rewritten module; returns whether there was something to rewrite."""
        arguments = [*self.words_by(module, seed), "--seed", str(seed), "--count", str(count), str(module), "-o", str(new)]
        return self.run(arguments).status == 0

    def shown(self, module: Path, seed: int, count: int) -> Rewrite:
        """The last of that many rewrites."""
        arguments = [*self.words_by(module, seed), "--seed", str(seed), "--count", str(count), "--show", str(module), "-o", "/dev/null"]
        text = self.run(arguments).errors.decode("utf-8", "replace")
        parts = re.split(r"^(?=function \d+ operator \d+ rule \w+$)", text, flags=re.M)
        last = parts[-1]
        rule = re.match(r"function \d+ operator \d+ rule (\w+)", last)
        return Rewrite(rule.group(1) if rule else "unknown", last)

    @staticmethod
    def command(words: list[str], seed: int, count: int, module: str, new: str) -> list[str]:
        """The command that makes a mutant of a module again, with these options."""
        return ["teddertempo", *words, "--seed", str(seed), "--count", str(count), module, "-o", new]
