"""The search: each pass proposes simpler parts of the module, for ranges of its positions by delta debugging. The first proposal that is
accepted is the best module from then on.

A module is smaller than another one if it has fewer bytes; or as many, and fewer operators; or as many of both, and fewer operators
that name a local, a function or something else; or all that alike, and its bytes come earlier in the dictionary. A module that isn't
smaller than the best isn't tried, so that each search ends.

With several jobs proposals are tried in parallel, each as if those before it weren't accepted. The first accepted one in order is taken,
whatever the result of later ones, so that the number of jobs doesn't change what is left."""

from __future__ import annotations

import time
from collections import deque
from concurrent.futures import Future, ThreadPoolExecutor
from dataclasses import dataclass, field
from functools import partial
from typing import Callable, Generic, Iterator, Optional, Sequence, TypeVar

from ..wasm.module import Module
from .commands import Commands
from .judge import Judge, Verdict


@dataclass(frozen=True)
class Candidate:
    """A module, and how large it is: its bytes, its operators, those of them that name something, and the bytes themselves."""

    module: Module
    size: tuple[int, int, int, bytes]

    def data(self) -> bytes:
        return self.size[-1]


def candidate_of(module: Module, data: bytes) -> Candidate:
    return Candidate(module, (len(data), module.operators, module.naming, data))


@dataclass(frozen=True)
class Cursor:
    """How many positions are chosen at once, and how many positions after them were tried already."""

    size: int
    after: int


Proposal = tuple[Cursor, Callable[[], Optional[Module]]]
Position = TypeVar("Position")


class Pass:
    """One way to make a module smaller, at a number of positions."""

    name = ""
    needs_whole = False  # whether each place that names an index has to be known
    commands: Commands | None = None

    def check_time(self) -> None:
        """Raises an exception if the search has to end; for use between parts of long work."""
        if self.commands is not None:
            self.commands.check_time()

    def count(self, module: Module) -> int:
        """How many positions there are."""
        raise NotImplementedError

    def proposals(self, module: Module, cursor: Cursor) -> Iterator[Proposal]:
        """Modules from a place on: ranges of positions of one size, from the last ones to the first, then of half that size."""
        raise NotImplementedError


class PositionPass(Pass, Generic[Position]):
    """A pass by its positions, and by what the module becomes if some are chosen, if anything."""

    def positions(self, module: Module) -> Sequence[Position]:
        raise NotImplementedError

    def smallest(self, count: int) -> int:
        """The least number of positions, of `count`, that are chosen at once."""
        return 1

    def apply(self, module: Module, chosen: Sequence[Position]) -> Module | None:
        raise NotImplementedError

    def count(self, module: Module) -> int:
        return len(self.positions(module))

    def proposals(self, module: Module, cursor: Cursor) -> Iterator[Proposal]:
        positions = self.positions(module)
        size, after = min(cursor.size, max(1, len(positions))), cursor.after
        while True:
            for end in range(len(positions) - after, 0, -size):
                yield Cursor(size, len(positions) - end), partial(self.apply, module, positions[max(0, end - size) : end])
            if size <= self.smallest(len(positions)):
                return
            size, after = (size + 1) // 2, 0


@dataclass
class PassReport:
    """The results of a pass."""

    name: str
    accepted: int = 0
    bytes: int = 0
    seconds: float = 0.0
    verdicts: dict[Verdict, int] = field(default_factory=lambda: dict.fromkeys(Verdict, 0))


class Listener:
    """Learns of the progress of a search; this one ignores it."""

    def improved(self, best: Candidate) -> None:
        """There is a smaller module."""

    def tried(self, report: PassReport, best: Candidate) -> None:
        """One more candidate was judged."""

    def passed(self, report: PassReport, best: Candidate) -> None:
        """A pass has ended."""


class Search:
    """A search that begins with a module, which is accepted."""

    def __init__(self, module: Module, data: bytes, judge: Judge, jobs: int, listener: Listener):
        self.best = candidate_of(module, data)
        self.judge = judge
        self.jobs = jobs
        self.listener = listener
        self.reports: dict[str, PassReport] = {}
        self.pool = ThreadPoolExecutor(jobs)
        self.rounds = 0

    def run(self, passes: Sequence[Pass]) -> None:
        """Runs the passes in rounds, until a whole round changes nothing."""
        try:
            before = None
            while before is not self.best:
                before = self.best
                self.rounds += 1
                for each in passes:
                    if self.best.module.is_whole() or not each.needs_whole:
                        self.run_pass(each)
        finally:
            self.pool.shutdown(cancel_futures=True)

    def run_pass(self, each: Pass) -> None:
        report = self.reports.setdefault(each.name, PassReport(each.name))
        each.commands = self.judge.commands
        began, before = time.monotonic(), self.best.size[0]
        try:
            cursor: Cursor | None = Cursor(max(1, each.count(self.best.module)), 0)
            while cursor is not None:
                cursor = self.advance(each, cursor, report)
        finally:
            report.seconds += time.monotonic() - began
            report.bytes += before - self.best.size[0]
        self.listener.passed(report, self.best)

    def advance(self, each: Pass, cursor: Cursor, report: PassReport) -> Cursor | None:
        """Takes the first proposal after the cursor that is accepted; returns its cursor."""
        self.judge.commands.check_time()
        found = self.first(each.proposals(self.best.module, cursor), report)
        if found is None:
            return None
        taken, self.best = found
        report.accepted += 1
        self.listener.improved(self.best)
        return taken

    def first(self, proposed: Iterator[Proposal], report: PassReport) -> tuple[Cursor, Candidate] | None:
        """The first proposal in order that is accepted."""
        pending: deque[tuple[Cursor, Future[tuple[Candidate | None, Verdict]]]] = deque()
        try:
            while True:
                while len(pending) < self.jobs and (proposal := next(proposed, None)):
                    pending.append((proposal[0], self.pool.submit(self.attempt, proposal[1], self.best)))
                if not pending:
                    return None
                cursor, future = pending.popleft()
                candidate, verdict = future.result()
                report.verdicts[verdict] += 1
                self.listener.tried(report, self.best)
                if candidate:
                    return cursor, candidate
        finally:
            for _, future in pending:
                future.cancel()

    def attempt(self, make: Callable[[], Module | None], best: Candidate) -> tuple[Candidate | None, Verdict]:
        """Makes what is proposed, and has it judged."""
        self.judge.commands.check_time()
        module = make()
        if module is None:
            return None, Verdict.NOT_MADE
        candidate = candidate_of(module, module.encoded)
        if candidate.size >= best.size:
            return None, Verdict.NOT_MADE
        accepted, verdict = self.judge.judge(candidate.data())
        return (candidate if accepted else None), verdict
