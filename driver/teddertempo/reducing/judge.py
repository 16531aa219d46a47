"""Judges candidates: by a validator, if there is one, and then by the predicate; no candidate of equal bytes twice."""

from __future__ import annotations

import hashlib
import queue
import shutil
import threading
from concurrent.futures import Future
from contextlib import contextmanager
from dataclasses import dataclass
from enum import Enum
from pathlib import Path
from typing import Iterator

from .commands import Commands, Exhausted
from .state import State

# The time limit of a validator.
VALIDATOR_SECONDS = 60.0

VALIDATORS = (("wasm-validate", "--enable-all"), ("wasm-tools", "validate"))


class Verdict(Enum):
    """The result of trying a candidate."""

    NOT_MADE = "not made"
    KNOWN = "tried before"
    INVALID = "not valid"
    REFUSED = "not interesting"
    ACCEPTED = "interesting"


@dataclass(frozen=True)
class Command:
    """A command on a file, which replaces `@@` in its words, or is its last word."""

    words: tuple[str, ...]

    def on(self, file: Path) -> list[str]:
        if any("@@" in word for word in self.words):
            return [word.replace("@@", str(file)) for word in self.words]
        return [*self.words, str(file)]


@dataclass(frozen=True)
class Bounds:
    """How often the predicate may run, and for how many seconds each time."""

    seconds: float
    runs: int | None = None


class Judge:
    """Judges candidates, from several threads at once."""

    def __init__(self, predicate: Command, commands: Commands, state: State, bounds: Bounds, folder: Path, jobs: int):
        self.predicate = predicate
        self.validator: Command | None = None
        self.commands = commands
        self.state = state
        self.bounds = bounds
        self.lock = threading.Lock()
        self.under_way: dict[str, Future[bool]] = {}
        self.runs = 0
        self.known = 0
        self.files: queue.SimpleQueue[Path] = queue.SimpleQueue()
        for place in range(jobs):
            own = folder / f"candidate-{place}"
            own.mkdir()
            self.files.put(own / "module.wasm")

    def judge(self, data: bytes) -> tuple[bool, Verdict]:
        """Whether a candidate is accepted, and how that is known. If an equal one is being judged, waits for its result."""
        self.commands.check_time()
        digest = hashlib.sha256(data).hexdigest()
        with self.lock:
            known = self.state.outcome(digest)
            waited_for = self.under_way.get(digest)
            if known is None and waited_for is None:
                own: Future[bool] = Future()
                self.under_way[digest] = own
            else:
                self.known += 1
        if known is not None:
            return known, Verdict.KNOWN
        if waited_for is not None:
            return waited_for.result(), Verdict.KNOWN
        return self.judge_anew(data, digest, own)

    def judge_anew(self, data: bytes, digest: str, own: Future[bool]) -> tuple[bool, Verdict]:
        try:
            verdict = self.verdict(data)
        except BaseException as error:
            own.set_exception(error)
            raise
        finally:
            with self.lock:
                del self.under_way[digest]
        accepted = verdict is Verdict.ACCEPTED
        self.state.note(digest, accepted)
        own.set_result(accepted)
        return accepted, verdict

    def verdict(self, data: bytes) -> Verdict:
        with self.written(data) as file:
            if self.validator and not self.succeeds(self.validator, file, VALIDATOR_SECONDS):
                return Verdict.INVALID
            with self.lock:
                if self.bounds.runs is not None and self.runs >= self.bounds.runs:
                    raise Exhausted("--max-runs")
                self.runs += 1
            return Verdict.ACCEPTED if self.succeeds(self.predicate, file, self.bounds.seconds) else Verdict.REFUSED

    @contextmanager
    def written(self, data: bytes) -> Iterator[Path]:
        """A file with the bytes, which no other thread uses meanwhile."""
        file = self.files.get()
        try:
            file.write_bytes(data)
            yield file
        finally:
            self.files.put(file)

    def succeeds(self, command: Command, file: Path, seconds: float) -> bool:
        """Whether a command ends with status 0; one that takes too long, or writes too much, is ended and doesn't succeed."""
        finished = self.commands.run(command.on(file), seconds)
        return finished.status == 0 and not finished.out_of_time and not finished.too_much_output

    def choose_validator(self, data: bytes, named: Command | None) -> str | None:
        """Takes the validator that is named, or the first one on the path, that accepts the module; returns why there is none."""
        found = [named] if named else [Command(words) for words in VALIDATORS if shutil.which(words[0])]
        if not found:
            return "no validator is on the path: the predicate judges alone"
        with self.written(data) as file:
            self.validator = next((each for each in found if self.succeeds(each, file, VALIDATOR_SECONDS)), None)
        names = ", ".join(each.words[0] for each in found)
        return None if self.validator else f"{names} doesn't accept the module itself: the predicate judges alone"
