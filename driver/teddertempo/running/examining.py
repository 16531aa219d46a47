"""Examines modules before they have mutants: what an engine returns for each, and for which calls."""

from __future__ import annotations

import hashlib
import shutil
import tempfile
import time
from contextlib import contextmanager
from dataclasses import dataclass, replace
from pathlib import Path
from typing import Iterator, Protocol

from ..engines.calls import Call
from ..engines.engine import Engine, Observation, Plan
from ..engines.outcomes import BOUNDS, ENDS, Answer, Kind
from .mutator import Dose, Mutator

# The calls on a module have to end in this part of the time of an engine's run, so that its mutants have time to spare.
OWN_SHARE = 0.25

# If they don't, each part of them has to end in this part of that time, or in this multiple of what the module takes without a call.
PART_SHARE, PART_TIMES = 0.125, 4.0


class Skipped(Exception):
    """A module isn't tried, and why."""


@dataclass(frozen=True)
class Subject:
    """A module that is tried: its calls, the answers to them, and how many rewrites its mutants have."""

    path: Path
    digest: str
    plan: Plan
    answers: tuple[Answer, ...]
    count: int

    def fails(self) -> bool:
        """Whether the module ends with a failure of its own."""
        return any(answer.place == "status" and answer.kind is Kind.TRAP for answer in self.answers)


class Observe(Protocol):
    """Runs a module of a task's folder."""

    def __call__(self, folder: Path, module: str, plan: Plan, seconds: float | None = None) -> Observation:
        ...


@dataclass(frozen=True)
class Examiner:
    """Examines modules for an engine."""

    engine: Engine
    mutator: Mutator
    dose: Dose
    seconds: float
    observe: Observe

    def subject(self, path: Path, folder: Path) -> Subject:
        """A module, with a copy in a task's folder; `Skipped` if it can't be tried."""
        data = (folder / "original.wasm").read_bytes()
        interface = self.engine.interface_of(data)
        plan, observation = self.settled(folder, Plan(interface, self.engine.calls(interface)))
        end = next((answer for answer in observation.answers if answer.kind in ENDS), None)
        if end:
            raise Skipped(str(end))
        if self.observe(folder, "original.wasm", plan).answers != observation.answers:
            raise Skipped("its answers change from one run to the next")
        rewritable = self.mutator.rewritable(folder / "original.wasm")
        if rewritable == 0:
            raise Skipped("no rule applies")
        return Subject(path, hashlib.sha256(data).hexdigest(), plan, observation.answers, self.dose.count(rewritable))

    def settled(self, folder: Path, plan: Plan) -> tuple[Plan, Observation]:
        """The plan with the calls that meet no bound, all together in the module's share of the time, and the answers to them."""
        seconds = self.seconds * (OWN_SHARE if plan.calls else 1)
        observation = self.observe(folder, "original.wasm", plan, seconds)
        if plan.calls and is_bounded(observation):
            began = time.monotonic()
            alone = self.observe(folder, "original.wasm", replace(plan, calls=[]), seconds)
            if is_bounded(alone):
                return plan, alone
            part = min(seconds, max(seconds * PART_SHARE, (time.monotonic() - began) * PART_TIMES))
            plan = replace(plan, calls=self.unbounded(folder, plan, plan.calls, part))
            observation = self.observe(folder, "original.wasm", plan, seconds)
        while is_bounded(observation) and plan.calls:
            plan = replace(plan, calls=plan.calls[1::2])
            observation = self.observe(folder, "original.wasm", plan, seconds)
        return plan, observation

    def unbounded(self, folder: Path, plan: Plan, calls: list[Call], seconds: float) -> list[Call]:
        """The calls that meet no bound of the run. A call that meets one may leave any state, so that no other call can follow it."""
        kept: list[Call] = []
        parts = [calls]
        while parts:
            part = parts.pop()
            observation = self.observe(folder, "original.wasm", replace(plan, calls=part), seconds)
            if not is_bounded(observation):
                kept += part
            elif len(part) > 1:
                parts += reversed(self.parted(part, observation))
        return kept

    def parted(self, calls: list[Call], observation: Observation) -> list[list[Call]]:
        """The calls in parts without one that met a bound, if it is known, else in halves."""
        exhausted = {answer.place for answer in observation.answers if answer.kind is Kind.EXHAUSTED}
        left = [call for call in calls if str(call) not in exhausted]
        if len(left) < len(calls):
            return [left] if left else []
        if self.engine.answers_at_once:
            place = sum(answer.kind in (Kind.VALUE, Kind.TRAP) and answer.place != "instance" for answer in observation.answers)
            return [part for part in (calls[:place], calls[place + 1 :]) if part]
        half = len(calls) // 2
        return [calls[:half], calls[half:]]


def is_bounded(observation: Observation) -> bool:
    return any(answer.kind in BOUNDS for answer in observation.answers)


@contextmanager
def folder_with(module: Path, digest: str | None, parent: Path) -> Iterator[Path]:
    """A task's own folder for the time of the block, with a copy of the module, which must still have the digest."""
    folder = Path(tempfile.mkdtemp(dir=parent))
    try:
        data = module.read_bytes()
        if digest and hashlib.sha256(data).hexdigest() != digest:
            raise Skipped("the module has changed since the run began")
        (folder / "original.wasm").write_bytes(data)
        (folder / "run").mkdir()
        yield folder
    finally:
        shutil.rmtree(folder, ignore_errors=True)
