"""Reduces a finding: the predicate, which accepts a module if rewrites by the finding's rule differ in its class, and the reducer."""

from __future__ import annotations

import json
import shlex
import shutil
import sys
import tempfile
from dataclasses import dataclass
from pathlib import Path
from typing import Any

from ..engines.engine import Engine, Observation, Plan, engine_of
from ..engines.outcomes import ENDS, Difference, difference_of
from ..running.mutator import Choice, Mutator, MutatorFailure
from ..running.processes import OutOfTime, Runner
from ..wasm.binary import Unreadable
from .store import Finding

# The number of seeds with which a module is rewritten, and of rewrites: at most, and for each place of the rule.
SEEDS, MOST_REWRITES, REWRITES_OF_PLACE = 4, 400, 2

# The number of seeds with which a single rewrite that differs is searched for.
SINGLE_SEEDS = 64

# The reducer has this part of the time. The rest is for the search for a rewrite of the reduced module.
REDUCER_SHARE = 0.75

# The seconds that the reducer has to end its predicates if it is ended.
GRACE = 3.0


class NoFinding(Exception):
    """The folder has no finding of a run."""


@dataclass(frozen=True)
class Mutant:
    """Rewrites of a module for which the engine's answers differ."""

    seed: int
    count: int
    difference: Difference
    observation: Observation


@dataclass(frozen=True)
class Witness:
    """Searches for rewrites by a rule that differ in one class."""

    engine: Engine
    mutator: Mutator
    runner: Runner
    kind: str
    strict: bool

    def observe(self, module: Path, plan: Plan) -> Observation:
        """Runs a module, always under the same name, which an engine may print."""
        folder = module.parent / "run"
        folder.mkdir(exist_ok=True)
        shutil.copyfile(module, folder / "module.wasm")
        return self.engine.observe(self.runner, folder, "module.wasm", plan)

    def plan(self, module: Path) -> Plan:
        interface = self.engine.interface_of(module.read_bytes())
        return Plan(interface, self.engine.calls(interface))

    def find(self, module: Path, attempts: list[tuple[int, int]]) -> Mutant | None:
        """The first of these mutants, by seed and number of rewrites, that differs in the class, if the module's own answers are the same
        in two runs. The mutant is written beside the module, as `mutant.wasm`."""
        plan = self.plan(module)
        answers = self.observe(module, plan).answers
        if any(answer.kind in ENDS for answer in answers):
            return None
        for seed, count in attempts:
            if not self.mutator.rewrite(module, seed, count, module.with_name("mutant.wasm")):
                return None
            observation = self.observe(module.with_name("mutant.wasm"), plan)
            difference = difference_of(answers, observation.answers, self.strict)
            if difference and difference.kind == self.kind:
                is_steady = self.observe(module, plan).answers == answers
                return Mutant(seed, count, difference, observation) if is_steady else None
        return None

    def differs(self, module: Path) -> bool:
        """Whether many rewrites by the rule differ in the class."""
        try:
            return self.many(module) is not None
        except (MutatorFailure, Unreadable):
            return False

    def most(self, module: Path) -> int:
        return min(MOST_REWRITES, REWRITES_OF_PLACE * self.mutator.places(module))

    def many(self, module: Path) -> Mutant | None:
        """A mutant of many rewrites that differs in the class."""
        count = self.most(module)
        return self.find(module, [(seed, count) for seed in range(SEEDS)]) if count else None

    def few(self, module: Path) -> Mutant | None:
        """A mutant of one rewrite that differs in the class, else one of the fewest for some seeds."""
        counts = range(2, self.most(module) + 1)
        single = self.find(module, [(seed, 1) for seed in range(SINGLE_SEEDS)])
        return single or self.find(module, [(seed, count) for count in counts for seed in range(SEEDS)])


def load(folder: Path) -> tuple[Finding, dict[str, Any]]:
    """The finding in a folder, and the settings of the run that found it."""
    try:
        report = json.loads((folder / "finding.json").read_text(encoding="utf-8"))
        settings = json.loads((folder.parent / "settings.json").read_text(encoding="utf-8"))
        return Finding(**report["finding"]), settings
    except (OSError, ValueError, KeyError, TypeError) as reason:
        raise NoFinding(f"{folder} has no finding of a run of teddertempo-diff ({reason})") from reason


def witness_of(folder: Path, program: str, runner: Runner) -> Witness:
    """Searches for the finding's difference by its rule alone."""
    finding, settings = load(folder)
    mutator = Mutator(program, Choice(only=(finding.rule,)), [], runner)
    engine = engine_of(settings["engine"], settings["as"], settings["calls"])
    return Witness(engine, mutator, runner, finding.kind, settings["strict"])


def differs(folder: Path, module: Path, program: str, runner: Runner) -> bool:
    """Whether rewrites of the module by the finding's rule differ in the finding's class."""
    with tempfile.TemporaryDirectory(prefix="teddertempo-diff-") as own:
        copy = Path(own) / "module.wasm"
        shutil.copyfile(module, copy)
        return witness_of(folder, program, runner).differs(copy)


@dataclass(frozen=True)
class Reduced:
    """The result for a finding: the bytes of its module and of the reduced one, and the command that makes the mutant of that again; or why
    there is none."""

    before: int
    after: int = 0
    command: str = ""
    trouble: str = ""


@dataclass(frozen=True)
class Reducer:
    """Reduces findings by teddertempo-reduce, which is beside this program."""

    runner: Runner
    program: str
    seconds: float
    jobs: int

    def words(self, folder: Path) -> list[str]:
        """The command of the reducer on a finding."""
        own = Path(sys.argv[0])
        runs = 2 + SEEDS
        predicate = [sys.executable, str(own), "--teddertempo", self.program, "--timeout", f"{self.runner.seconds}", "--differs",
                     str(folder.resolve())]
        return [sys.executable, str(own.with_name("teddertempo-reduce")), str(folder / "good.wasm"), "-o", str(folder / "reduced.wasm"),
                "--program", self.program, "--time", f"{self.seconds * REDUCER_SHARE}", "--timeout", f"{self.runner.seconds * runs}",
                "--jobs", str(self.jobs), "--quiet", "--", *predicate]

    def reduce(self, folder: Path) -> Reduced:
        """Writes `reduced.wasm`, `reduced_bad.wasm` and `reduced.txt` beside a finding, in the time of a reduction."""
        before = (folder / "good.wasm").stat().st_size
        try:
            with self.runner.within(self.seconds):
                finished = self.runner.run(self.words(folder), self.seconds, grace=GRACE)
                if finished.status != 0:
                    return Reduced(before, trouble=finished.errors.decode("utf-8", "replace").strip().split("\n")[-1])
                return self.explained(folder, before)
        except OutOfTime:
            return Reduced(before, trouble="the time was over before a rewrite of reduced.wasm was found")
        except MutatorFailure as failure:
            return Reduced(before, trouble=str(failure))

    def explained(self, folder: Path, before: int) -> Reduced:
        """Writes a mutant of the reduced module, with few rewrites if there is time to find them."""
        witness = witness_of(folder, self.program, self.runner)
        with tempfile.TemporaryDirectory(prefix="teddertempo-diff-") as own:
            module = Path(own) / "module.wasm"
            shutil.copyfile(folder / "reduced.wasm", module)
            mutant = witness.many(module)
            if mutant is None:
                return Reduced(before, trouble="the reduced module doesn't differ any more")
            reduced = kept(folder, before, witness, module, mutant)
            try:
                fewer = witness.few(module)
                return kept(folder, before, witness, module, fewer) if fewer else reduced
            except OutOfTime:
                return reduced


def kept(folder: Path, before: int, witness: Witness, module: Path, mutant: Mutant) -> Reduced:
    """Keeps a mutant of the reduced module beside the finding."""
    words = witness.mutator.words_by(module, mutant.seed)
    shown = witness.mutator.shown(module, mutant.seed, mutant.count).text
    command = shlex.join(witness.mutator.command(words, mutant.seed, mutant.count, str(folder / "reduced.wasm"), "reduced_bad.wasm"))
    reduced = Reduced(before, module.stat().st_size, command)
    shutil.copyfile(module.with_name("mutant.wasm"), folder / "reduced_bad.wasm")
    text = text_of(load(folder)[0], reduced, mutant, shown)
    (folder / "reduced.txt").write_text(text, encoding="utf-8", errors="backslashreplace")
    return reduced


def text_of(finding: Finding, reduced: Reduced, mutant: Mutant, shown: str) -> str:
    """The text for people about a reduced finding."""
    rewrites = "One rewrite" if mutant.count == 1 else f"A sequence of {mutant.count} rewrites"
    lines = [
        f"reduced.wasm has {reduced.after:,} bytes, good.wasm {reduced.before:,}. {rewrites} by the rule {finding.rule} changes the engine's "
        f"answer ({finding.kind}):",
        "",
        f"before  {mutant.difference.original}",
        f"after   {mutant.difference.rewrite}",
        "",
        "The last rewrite:",
        "",
        *(f"    {line}" for line in shown.rstrip("\n").split("\n")),
        "",
        "This command makes reduced_bad.wasm again:",
        "",
        f"    {reduced.command}",
        "",
        "The engine's output for it:",
        "",
        *(f"    {line}" for line in mutant.observation.text.rstrip("\n").split("\n")),
    ]
    return "\n".join(lines) + "\n"
