"""A run: the engine on each module and on its mutants, and each difference traced to the one rewrite that it begins with."""

from __future__ import annotations

import os
import shutil
import tempfile
import threading
import time
from collections import Counter, deque
from concurrent.futures import ThreadPoolExecutor
from contextlib import contextmanager
from dataclasses import dataclass, field
from pathlib import Path
from typing import Iterator

from ..engines.engine import Engine, Observation, Plan
from ..engines.outcomes import Difference, difference_of
from ..findings.account import Account, modules_of
from ..findings.store import Finding, Store
from ..wasm.binary import Unreadable
from .examining import Examiner, Skipped, Subject, folder_with, is_bounded
from .mutator import Dose, Mutator, MutatorFailure, Rewrite
from .processes import Ended, Runner


class EngineGone(Exception):
    """The engine can't be started, and why."""


@dataclass(frozen=True)
class Settings:
    """The options of a run."""

    seeds: range
    dose: Dose
    jobs: int
    strict: bool = False
    every: bool = False
    first: bool = False


@dataclass
class Summary:
    """The result of a run. `failing` modules fail by themselves, `unexamined` ones and `untraced` differences were left when it ended,
    and `trouble` is what ended it early."""

    modules: int = 0
    failing: int = 0
    unexamined: int = 0
    skipped: dict[str, str] = field(default_factory=dict)
    outcomes: Counter[str] = field(default_factory=Counter)
    findings: list[tuple[Finding, Path]] = field(default_factory=list)
    again: Counter[tuple[str, str]] = field(default_factory=Counter)
    untraced: int = 0
    runs: int = 0
    seconds: float = 0.0
    stopped: bool = False
    trouble: str = ""


@dataclass(frozen=True)
class Progress:
    """How far a run is: how many of the modules were examined, how many of their mutants were tried, and how many findings there are."""

    modules: int
    all_modules: int
    mutants: int
    all_mutants: int
    findings: int


class Listener:
    """Is informed while a run continues; this one does nothing."""

    def tell(self, progress: Progress) -> None:
        """A module was examined, or a mutant was tried."""

    def found(self, finding: Finding, folder: Path) -> None:
        """There is one more finding."""


@dataclass
class Turn:
    """A module in the queue of the run: what is known of it once it was examined, and the seeds that are left."""

    path: Path
    seeds: Iterator[int]
    subject: Subject | None = None


class Campaign:
    """A run over modules with one engine."""

    def __init__(self, settings: Settings, engine: Engine, mutator: Mutator, runner: Runner, store: Store, listener: Listener):
        self.settings = settings
        self.engine = engine
        self.mutator = mutator
        self.runner = runner
        self.store = store
        self.listener = listener
        self.examiner = Examiner(engine, mutator, settings.dose, runner.seconds, self.observe)
        self.lock = threading.RLock()
        self.changed = threading.Condition(self.lock)
        self.summary = Summary()
        self.turns: list[Turn] = []
        self.queue: deque[Turn] = deque()
        self.under_examination = 0
        self.examined = 0
        self.mutants = 0
        self.ended = threading.Event()
        self.seen = {(finding.rule, finding.kind) for finding in store.findings}
        self.folder = Path()

    @property
    def subjects(self) -> list[Subject]:
        """The modules that are tried, in their order."""
        return [turn.subject for turn in self.turns if turn.subject]

    def run(self, modules: list[Path]) -> Summary:
        """Tries the modules, until all is done or the runner ends."""
        began = time.monotonic()
        self.turns = [Turn(path, iter(self.settings.seeds)) for path in modules]
        self.queue.extend(self.turns)
        with tempfile.TemporaryDirectory(prefix="teddertempo-diff-") as folder:
            self.folder = Path(folder)
            with ThreadPoolExecutor(self.settings.jobs) as pool:
                for worker in [pool.submit(self.work) for _ in range(self.settings.jobs)]:
                    worker.result()
        subjects = self.subjects
        self.summary.modules = len(subjects)
        self.summary.failing = sum(subject.fails() for subject in subjects)
        self.summary.unexamined = len(modules) - self.examined
        self.summary.stopped = self.runner.stopped_by is not None
        if self.runner.is_late() and self.mutants == 0 and len(self.summary.skipped) < len(modules):
            self.summary.trouble = "the time was over before a mutant was tried"
        self.summary.seconds = time.monotonic() - began
        return self.summary

    # ---- turns

    def work(self) -> None:
        """Examines modules and tries mutants until there are no more. An error that isn't expected ends the work of all."""
        try:
            while task := self.next_task():
                turn, seed = task
                if turn.subject and seed is not None:
                    self.try_mutant(turn.subject, seed)
                else:
                    self.examine(turn)
        except Ended:
            pass
        except EngineGone as gone:
            self.summary.trouble = str(gone)
            self.ended.set()
        except BaseException:
            self.ended.set()
            raise

    def next_task(self) -> tuple[Turn, int | None] | None:
        """The next module in the queue, to be examined or with the seed of its next mutant; all others come before the mutant after that
        one. If the queue is empty, modules that are under examination are waited for."""
        with self.changed:
            while self.changed.wait_for(lambda: self.queue or not self.under_examination) and self.queue:
                self.check()
                turn = self.queue.popleft()
                if turn.subject is None:
                    self.under_examination += 1
                    return turn, None
                seed = self.next_seed(turn.subject, turn.seeds)
                if seed is not None:
                    self.queue.append(turn)
                    return turn, seed
        return None

    def next_seed(self, subject: Subject, seeds: Iterator[int]) -> int | None:
        """The next seed whose mutant wasn't tried yet."""
        for seed in seeds:
            if not self.store.was_tried(subject.digest, seed):
                return seed
            self.mutants += 1
        return None

    def check(self) -> None:
        """Raises `Ended` if the run has ended."""
        self.runner.check()
        if self.ended.is_set():
            raise Ended

    def examine(self, turn: Turn) -> None:
        """Examines a module. If it can be tried, it is the first one in the queue."""
        reason = None
        try:
            with folder_with(turn.path, None, self.folder) as folder:
                turn.subject = self.examiner.subject(turn.path, folder)
        except (Skipped, EngineGone, MutatorFailure, OSError, Unreadable) as error:
            reason = str(error)
        finally:
            with self.changed:
                self.under_examination -= 1
                if turn.subject:
                    self.queue.appendleft(turn)
                self.changed.notify_all()
        with self.lock:
            if reason is not None:
                self.summary.skipped[str(turn.path)] = reason
            self.examined += 1
            self.tell()

    def try_mutant(self, subject: Subject, seed: int) -> None:
        """Tries a mutant, and notes the outcome."""
        outcome = self.outcome(subject, seed)
        self.store.note(subject.digest, str(subject.path), seed, outcome)
        with self.lock:
            self.mutants += 1
            self.summary.outcomes[outcome.split(":")[0]] += 1
            self.tell()

    def tell(self) -> None:
        mutants = (self.examined - len(self.summary.skipped)) * len(self.settings.seeds)
        self.listener.tell(Progress(self.examined, len(self.turns), self.mutants, mutants, len(self.summary.findings)))

    def observe(self, folder: Path, module: str, plan: Plan, seconds: float | None = None) -> Observation:
        """Runs a module of a task's folder, always under the same name, which an engine may print."""
        self.check()
        shutil.copyfile(folder / module, folder / "run" / "module.wasm")
        with self.lock:
            self.summary.runs += 1
        try:
            return self.engine.observe(self.runner, folder / "run", "module.wasm", plan, seconds)
        except OSError as error:
            raise EngineGone(f"{error.filename or self.engine.command[0]}: {error.strerror}") from error

    # ---- mutants

    def outcome(self, subject: Subject, seed: int) -> str:
        """What a mutant comes to, in a word, and more after a colon."""
        try:
            with folder_with(subject.path, subject.digest, self.folder) as folder:
                return self.attempt(folder, subject, seed)
        except (Skipped, MutatorFailure) as error:
            return f"not made: {error}"

    def attempt(self, folder: Path, subject: Subject, seed: int) -> str:
        """Makes a mutant and runs it. A difference that isn't traced when the run ends is counted, and its mutant isn't noted as tried."""
        if not self.mutator.rewrite(folder / "original.wasm", seed, subject.count, folder / "bad.wasm"):
            return "nothing to rewrite"
        observation = self.observe(folder, "bad.wasm", subject.plan)
        if self.difference(subject, observation) is None:
            return "bounded" if is_bounded(observation) else "same"
        try:
            return self.trace(folder, subject, seed)
        except Ended:
            with self.lock:
                self.summary.untraced += 1
            raise

    def difference(self, subject: Subject, observation: Observation) -> Difference | None:
        return difference_of(subject.answers, observation.answers, self.settings.strict)

    def is_unsteady(self, folder: Path, subject: Subject) -> bool:
        return self.observe(folder, "original.wasm", subject.plan).answers != subject.answers

    def differs(self, folder: Path, subject: Subject, seed: int, count: int) -> tuple[Difference, Observation] | None:
        """How the mutant with that many rewrites differs from the module."""
        if not self.mutator.rewrite(folder / "original.wasm", seed, count, folder / "bad.wasm"):
            return None
        observation = self.observe(folder, "bad.wasm", subject.plan)
        difference = self.difference(subject, observation)
        return (difference, observation) if difference else None

    def trace(self, folder: Path, subject: Subject, seed: int) -> str:
        """Runs a mutant that differs and its module once more, and finds the rewrite with which the mutant begins to differ."""
        if self.differs(folder, subject, seed, subject.count) is None or self.is_unsteady(folder, subject):
            return "unsteady"
        good, bad = 0, subject.count
        while bad - good > 1:
            middle = (good + bad) // 2
            if self.differs(folder, subject, seed, middle):
                bad = middle
            else:
                good = middle
        found = self.differs(folder, subject, seed, bad)
        if found is None:
            return "unsteady"
        return self.reported(folder, subject, seed, bad, *found)

    def reported(self, folder: Path, subject: Subject, seed: int, count: int, difference: Difference, observation: Observation) -> str:
        """Keeps a finding if it is the first one of its rule and class."""
        rewrite = self.rewrite_shown(folder, seed, count)
        key = rewrite.rule, difference.kind
        with self.reserved(*key) as is_first:
            if not is_first:
                return "different: found before"
            account = self.account(folder, subject, seed, count, rewrite, observation)
            with self.store.numbered() as number:
                finding = Finding(number, *key, str(subject.path), subject.digest, seed, count, str(difference.original),
                                  str(difference.rewrite))
                final = account.keep(finding, self.store)
        with self.lock:
            self.summary.findings.append((finding, final))
            self.listener.found(finding, final)
        if self.settings.first:
            self.ended.set()
        return f"different: {finding.name()}"

    @contextmanager
    def reserved(self, rule: str, kind: str) -> Iterator[bool]:
        """Whether the block may keep a finding of a rule and class; no other one of them is kept, unless the block fails."""
        key = rule, kind
        with self.lock:
            is_first = self.settings.every or key not in self.seen
            self.seen.add(key)
            if not is_first:
                self.summary.again[key] += 1
        try:
            yield is_first
        except BaseException:
            with self.lock:
                self.seen.discard(key)
            raise

    def rewrite_shown(self, folder: Path, seed: int, count: int) -> Rewrite:
        try:
            return self.mutator.shown(folder / "original.wasm", seed, count)
        except MutatorFailure as failure:
            return Rewrite("unknown", f"It can't be shown: {failure}\n")

    def account(self, folder: Path, subject: Subject, seed: int, count: int, rewrite: Rewrite, bad: Observation) -> Account:
        """Gathers what is kept of a finding: nothing is run after this."""
        made = modules_of(folder, self.mutator, seed, count)
        texts = {"bad.txt": bad.text}
        for name, module in (("original.txt", "original.wasm"), ("good.txt", "finding/good.wasm")):
            texts[name] = self.observe(folder, module, subject.plan).text
        words = self.mutator.words_by(made / "original.wasm", seed)
        return Account(self.engine, subject.plan, rewrite, self.mutator.version(), words, made, texts)


def find_modules(names: list[str]) -> list[Path]:
    """The modules that are named, and those in folders that are named."""
    found: list[Path] = []
    for name in names:
        path = Path(name)
        if path.is_dir():
            found += sorted(Path(folder) / file for folder, _, files in os.walk(path) for file in files if file.endswith(".wasm"))
        else:
            found.append(path)
    return found
