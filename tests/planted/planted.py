#!/usr/bin/env python3
"""Runs teddertempo-diff on an engine with planted faults, with one after another, and prints which are revealed: by which rule, at
which dose, and at which cost; beside what an optimizer's pipelines reveal as mutators of the same modules.

tests/planted.sh builds what this needs, and calls it. Judged are: the engine without a fault, which must show no difference at any
dose, and that each fault is executed, which the engine counts, by a module as it is.
"""

from __future__ import annotations

import argparse
import hashlib
import os
import re
import shutil
import subprocess
import sys
import tempfile
from concurrent.futures import ProcessPoolExecutor, ThreadPoolExecutor
from dataclasses import dataclass, field, replace
from pathlib import Path

TOP = Path(__file__).resolve().parents[2]
sys.path.insert(0, str(TOP / "driver"))
sys.dont_write_bytecode = True

from teddertempo.engines.engine import Spectest  # noqa: E402
from teddertempo.engines.interface import Interface  # noqa: E402
from teddertempo.engines.outcomes import Answer, difference_of  # noqa: E402
from teddertempo.findings.store import Store  # noqa: E402
from teddertempo.running.campaign import Campaign, Listener, Settings, Subject, find_modules  # noqa: E402
from teddertempo.running.command import dose  # noqa: E402
from teddertempo.running.mutator import Choice, Mutator  # noqa: E402
from teddertempo.running.processes import Runner  # noqa: E402

CALLS = 12
PIPELINES = ("-O1", "-O2", "-O3", "-Oz")
ROW = re.compile(r'^\s*(?:\{|WRONG\()"(?P<name>\w+)", "(?P<group>[^"]+)", (?:Kind::(?P<kind>\w+), )?"(?P<sentence>[^"]+)"', re.M)


@dataclass(frozen=True)
class Fault:
    """A fault as its table has it."""

    name: str
    group: str
    kind: str
    sentence: str


@dataclass
class Result:
    """What was made of a fault: how many modules execute it, what reveals it at each dose and at which cost, and which pipelines do."""

    executed: int = 0
    revealed: dict[str, str] = field(default_factory=dict)
    costs: dict[str, tuple[int, float]] = field(default_factory=dict)
    pipelines: list[str] = field(default_factory=list)


def faults_of(table: Path) -> list[Fault]:
    rows = ROW.finditer(table.read_text(encoding="utf-8"))
    return [Fault(row["name"], row["group"], (row["kind"] or "").lower(), row["sentence"]) for row in rows]


def sample_of(faults: list[Fault], count: int | None) -> list[Fault]:
    """So many of the faults, as far from one another in the table as can be; all of them where none are asked for."""
    if count is None or count >= len(faults):
        return faults
    return [faults[number * len(faults) // count] for number in range(count)]


def digest_of(file: Path) -> str:
    return hashlib.sha256(file.read_bytes()).hexdigest()[:20]


def put(file: Path, content: bytes) -> None:
    """Writes a file that other processes may look for: it is there whole, or not at all."""
    with tempfile.NamedTemporaryFile(dir=file.parent, delete=False) as beside:
        beside.write(content)
    os.replace(beside.name, file)


class Remembering(Mutator):
    """The program, which makes each mutant once: the same ones are run with each fault."""

    def __init__(self, program: str, choice: Choice, runner: Runner, folder: Path):
        super().__init__(program, choice, [], runner)
        self.folder = folder / f"mutants-{digest_of(Path(program))}-{choice.parts}"
        self.folder.mkdir(parents=True, exist_ok=True)

    def kept(self, module: Path, *words: object) -> Path:
        return self.folder / "-".join([digest_of(module), *map(str, words)])

    def rewrite(self, module: Path, seed: int, count: int, new: Path) -> bool:
        kept = self.kept(module, seed, count)
        if not kept.exists():
            put(kept, new.read_bytes() if super().rewrite(module, seed, count, new) else b"")
        shutil.copyfile(kept, new)
        return new.stat().st_size > 0

    def rewritable(self, module: Path) -> int:
        kept = self.kept(module, "rewritable")
        if not kept.exists():
            put(kept, str(super().rewritable(module)).encode())
        return int(kept.read_text())


class Bench:
    """The engine, with a fault or without one, and what is run on it."""

    def __init__(self, options: argparse.Namespace, fault: str | None, hits: Path | None = None):
        variables = {"PLANTED": fault, "PLANTED_HITS": hits}
        words = [f"{name}={value}" for name, value in variables.items() if value]
        self.options = options
        self.engine = Spectest(["env", *words, *options.engine] if words else options.engine, CALLS)
        self.folder = Path(options.folder)

    def campaign(self, amount: str, modules: list[Path], jobs: int, first: bool) -> Campaign:
        """A run of teddertempo-diff on the modules, at its end."""
        runner = Runner(self.options.timeout)
        settings = Settings(range(self.options.seeds), dose(amount), jobs, every=not first, first=first)
        with tempfile.TemporaryDirectory() as folder:
            store = Store(Path(folder), {}, False)
            mutator = Remembering(self.options.teddertempo, Choice(parts=self.options.swarm), runner, self.folder)
            made = Campaign(settings, self.engine, mutator, runner, store, Listener())
            made.run(modules)
            store.close()
        return made

    def answers(self, subject: Subject, module: Path) -> tuple[Answer, ...]:
        """What a module answers to the calls of a subject."""
        with tempfile.TemporaryDirectory() as folder:
            shutil.copyfile(module, Path(folder) / "module.wasm")
            return self.engine.observe(Runner(self.options.timeout), Path(folder), "module.wasm", subject.plan).answers

    def differs(self, subject: Subject, made: Path) -> bool:
        return difference_of(self.answers(subject, subject.path), self.answers(subject, made), False) is not None

    def call(self, subject: Subject) -> None:
        """Makes the calls of a subject itself, and looks at nothing: all that is executed is the module's own."""
        with tempfile.TemporaryDirectory() as name:
            folder = Path(name)
            shutil.copyfile(subject.path, folder / "module.wasm")
            bare = replace(subject.plan, interface=Interface())
            for command in self.engine.lay_out(folder, folder, "module.wasm", bare):
                Runner(self.options.timeout).run(command)


class Experiment:
    """The modules on which the faults are looked for, and what the optimizer makes of them."""

    def __init__(self, options: argparse.Namespace):
        self.options = options
        self.subjects: list[Subject] = []
        self.pairs: dict[str, list[tuple[Subject, Path]]] = {}
        self.differing: set[Path] = set()

    def take(self) -> None:
        """Takes the modules that the engine runs without a fault, and whose mutants differ at no dose."""
        bench = Bench(self.options, None)
        modules = find_modules(self.options.modules)
        for amount in self.options.doses:
            campaign = bench.campaign(amount, modules, self.options.jobs, first=False)
            for finding, _ in campaign.summary.findings:
                print(f"without a fault: {finding.module}: {finding.rule}: {finding.before}; {finding.after}", flush=True)
                self.differing.add(Path(finding.module))
            self.subjects = [subject for subject in campaign.subjects if subject.path not in self.differing]
            modules = [subject.path for subject in self.subjects]
        with ThreadPoolExecutor(self.options.jobs) as pool:
            for pipeline in PIPELINES:
                made = pool.map(lambda subject: self.optimized(bench, subject, pipeline), self.subjects)
                self.pairs[pipeline] = [(subject, file) for subject, file in zip(self.subjects, made) if file]

    def optimized(self, bench: Bench, subject: Subject, pipeline: str) -> Path | None:
        """The module as a pipeline of the optimizer makes it, where it answers as before without a fault."""
        made = Path(self.options.folder) / f"optimized{pipeline}-{digest_of(subject.path)}.wasm"
        command = [self.options.optimizer, "-all", pipeline, str(subject.path), "-o", str(made)]
        if not made.exists() and subprocess.run(command, capture_output=True).returncode != 0:
            return None
        return None if bench.differs(subject, made) else made

    def try_fault(self, fault: Fault) -> Result:
        """Runs everything with one fault, on one core, so that what is found first is always the same."""
        bench = Bench(self.options, fault.name)
        result = Result(executed=self.executed(fault))
        for amount in self.options.doses:
            campaign = bench.campaign(amount, [subject.path for subject in self.subjects], 1, first=True)
            result.costs[amount] = campaign.summary.runs, campaign.summary.seconds
            result.revealed.update({amount: finding.rule for finding, _ in campaign.summary.findings})
        result.pipelines = [pipeline for pipeline, pairs in self.pairs.items() if any(bench.differs(*pair) for pair in pairs)]
        return result

    def executed(self, fault: Fault) -> int:
        """How many modules execute the fault."""
        with tempfile.TemporaryDirectory() as folder:
            hits = Path(folder) / "hits"
            bench = Bench(self.options, fault.name, hits)
            for subject in self.subjects:
                bench.call(subject)
            return len(hits.read_text().splitlines()) if hits.exists() else 0


def line_of(fault: Fault, result: Result, doses: list[str]) -> str:
    """A row of the table."""
    cells = [fault.group, str(result.executed), *(result.revealed.get(amount, "-") for amount in doses), " ".join(result.pipelines) or "-"]
    return f"| `{fault.name}` | {' | '.join(cells)} |"


def totals(results: list[Result], doses: list[str]) -> list[str]:
    lines = []
    for amount in doses:
        runs = sum(result.costs[amount][0] for result in results)
        seconds = sum(result.costs[amount][1] for result in results)
        found = sum(amount in result.revealed for result in results)
        lines.append(f"dose {amount}: {found} of {len(results)} revealed, {runs:,} runs in {seconds:,.0f} s of a core")
    any_dose = sum(bool(result.revealed) for result in results)
    by_pipelines = sum(bool(result.pipelines) for result in results)
    return [*lines, f"any dose: {any_dose}; the optimizer's pipelines: {by_pipelines}"]


def options_of() -> argparse.Namespace:
    parser = argparse.ArgumentParser(description=__doc__, formatter_class=argparse.RawDescriptionHelpFormatter)
    parser.add_argument("--table", type=Path, required=True, help="the table of the faults")
    parser.add_argument("--only", action="append", default=[], help="only this fault")
    parser.add_argument("--sample", type=int, help="only so many of the faults, spread over the table")
    parser.add_argument("--folder", required=True, help="where mutants are kept")
    parser.add_argument("--teddertempo", required=True)
    parser.add_argument("--optimizer", required=True, help="the optimizer whose pipelines mutate")
    parser.add_argument("--doses", nargs="+", default=["400"])
    parser.add_argument("--seeds", type=int, default=200)
    parser.add_argument("--swarm", type=int, default=10, help="of how many parts of the rules each mutant has one")
    parser.add_argument("--jobs", type=int, default=len(os.sched_getaffinity(0)))
    parser.add_argument("--timeout", type=float, default=5.0)
    parser.add_argument("--engine", nargs="+", required=True)
    parser.add_argument("--modules", nargs="+", required=True)
    return parser.parse_args()


def main() -> int:
    options = options_of()
    Path(options.folder).mkdir(parents=True, exist_ok=True)
    experiment = Experiment(options)
    experiment.take()
    named = [fault for fault in faults_of(options.table) if not options.only or fault.name in options.only]
    faults = sample_of(named, options.sample)
    print(f"{len(experiment.subjects)} modules, {options.seeds} mutants of each")
    print(f"| Fault | Of | Executed by | {' | '.join(f'At {amount}' for amount in options.doses)} | Pipelines |")
    print("|---|---|---|" + "---|" * (len(options.doses) + 1))
    results = []
    with ProcessPoolExecutor(options.jobs) as pool:
        for fault, result in zip(faults, pool.map(experiment.try_fault, faults)):
            results.append(result)
            print(line_of(fault, result, options.doses), flush=True)
    print(*totals(results, options.doses), sep="\n")
    unexecuted = [fault.name for fault, result in zip(faults, results) if result.executed == 0]
    if unexecuted:
        print(f"not executed: {', '.join(unexecuted)}")
    failed = (len(experiment.differing) > 0) + len(unexecuted)
    print(f"{1 + len(faults) - failed} passed, {failed} failed")
    return 1 if failed else 0


if __name__ == "__main__":
    sys.exit(main())
