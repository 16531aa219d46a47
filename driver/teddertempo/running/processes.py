"""Runs commands within bounds of time and output, and ends their processes with all in their groups."""

from __future__ import annotations

import math
import os
import selectors
import signal
import subprocess
import time
from contextlib import contextmanager
from dataclasses import dataclass
from typing import Iterator

MOST_OUTPUT = 16 << 20  # bytes of a run, unless another bound is given

# Signals that stop a run.
SIGNALS = (signal.SIGINT, signal.SIGTERM, signal.SIGHUP)

# How often a process is looked at, in seconds: while it runs, and once it has closed its output.
PACE, END_PACE = 0.05, 0.0005


class Ended(Exception):
    """The run ends; what is under way is given up."""


class Stopped(Ended):
    """A signal ends the run; `status` is that of the program then."""

    def __init__(self, number: int):
        super().__init__(signal.Signals(number).name)
        self.status = 128 + number


class OutOfTime(Ended):
    """The time of the run is over."""


@dataclass(frozen=True)
class Finished:
    """The result of a command: its status (below 0 for a signal), what it wrote, and which bound ended it."""

    status: int
    output: bytes
    errors: bytes
    out_of_time: bool = False
    too_much_output: bool = False


class Runner:
    """Runs commands, from several threads at once, until a signal stops it or its time is over."""

    def __init__(self, seconds: float):
        self.seconds = seconds
        self.deadline = math.inf
        self.stopped_by: int | None = None

    def stop_on_signals(self) -> None:
        """Lets signals stop the runner, except those that are ignored, as under nohup."""
        for number in SIGNALS:
            if signal.getsignal(number) is not signal.SIG_IGN:
                signal.signal(number, self.stop)

    def stop(self, number: int, _frame: object = None) -> None:
        """Lets `run` end its process, in each thread, and start no other one."""
        self.stopped_by = self.stopped_by or number

    @contextmanager
    def within(self, seconds: float | None) -> Iterator[None]:
        """Bounds the time of all runs in the block together, if there is a bound; a block inside it may have another one."""
        before = self.deadline
        if seconds is not None:
            self.deadline = time.monotonic() + seconds
        try:
            yield
        finally:
            self.deadline = before

    def is_late(self) -> bool:
        return time.monotonic() >= self.deadline

    def check(self) -> None:
        """Raises `Stopped` or `OutOfTime` if nothing may be run any more."""
        if self.stopped_by:
            raise Stopped(self.stopped_by)
        if self.is_late():
            raise OutOfTime

    def run(self, command: list[str], seconds: float | None = None, most: int = MOST_OUTPUT, grace: float = 0.0) -> Finished:
        """Runs a command; `OSError` if it can't be started, `Stopped` or `OutOfTime` if the runner ends it.

        What remains of its group is killed. With `grace`, a process that is ended early first gets SIGTERM, and that many seconds to end
        processes that it started in other groups.
        """
        self.check()
        limit = min(time.monotonic() + (seconds or self.seconds), self.deadline)
        process = subprocess.Popen(command, bufsize=0, stdin=subprocess.DEVNULL, stdout=subprocess.PIPE, stderr=subprocess.PIPE,
                                   start_new_session=True)
        output = Output(process, most)
        try:
            bound = self.bound_of(process, output, limit)
            if bound and grace:
                ask_to_end(process, output, grace)
        finally:
            signal_group(process, signal.SIGKILL)
            process.wait()
            output.close()
        if self.stopped_by or bound == "time":
            self.check()
        return Finished(process.returncode, *output.texts(), bound == "time", bound == "output")

    def bound_of(self, process: subprocess.Popen[bytes], output: Output, limit: float) -> str | None:
        """Reads what a process writes until it ends; which bound it meets before, `time` or `output`. Its children may hold its pipes for
        longer."""
        while True:
            has_finished = has_ended(process)
            was_read = output.read(0 if has_finished else min(PACE, max(0.0, limit - time.monotonic())))
            if output.size() > output.most:
                return "output"
            if has_finished and not was_read:
                return None
            if self.stopped_by or time.monotonic() >= limit:
                return "time"


class Output:
    """What a process writes, as far as it was read; what comes after `most` bytes is dropped."""

    def __init__(self, process: subprocess.Popen[bytes], most: int):
        assert process.stdout is not None and process.stderr is not None
        self.pipes = (process.stdout, process.stderr)
        self.most = most
        self.read_so_far = {pipe.fileno(): bytearray() for pipe in self.pipes}
        self.selector = selectors.DefaultSelector()
        for number in self.read_so_far:
            os.set_blocking(number, False)
            self.selector.register(number, selectors.EVENT_READ)

    def is_open(self) -> bool:
        return bool(self.selector.get_map())

    def size(self) -> int:
        return sum(map(len, self.read_so_far.values()))

    def read(self, seconds: float) -> bool:
        """Waits at most that long until something is written or a pipe is closed, and reads it; returns whether there was something."""
        if not self.is_open():
            time.sleep(min(seconds, END_PACE))
            return False
        ready = self.selector.select(seconds)
        for key, _ in ready:
            piece = os.read(key.fd, 1 << 16)
            if not piece:
                self.selector.unregister(key.fd)
            elif self.size() <= self.most:
                self.read_so_far[key.fd] += piece
        return bool(ready)

    def texts(self) -> tuple[bytes, bytes]:
        output, errors = map(bytes, self.read_so_far.values())
        return output, errors

    def close(self) -> None:
        self.selector.close()
        for pipe in self.pipes:
            pipe.close()


def ask_to_end(process: subprocess.Popen[bytes], output: Output, seconds: float) -> None:
    """Sends SIGTERM to a process and its group, and waits at most that long until it has ended and nothing holds its pipes any more."""
    signal_group(process, signal.SIGTERM)
    limit = time.monotonic() + seconds
    while time.monotonic() < limit and not (has_ended(process) and not output.is_open()):
        output.read(PACE)


def signal_group(process: subprocess.Popen[bytes], number: signal.Signals) -> None:
    """Sends a signal to the group of a process, if there is one any more."""
    try:
        os.killpg(process.pid, number)
    except (ProcessLookupError, PermissionError):
        pass


def has_ended(process: subprocess.Popen[bytes]) -> bool:
    """Whether a process has ended. It isn't waited for, so that its number stays its own, except on systems without `waitid`."""
    if hasattr(os, "waitid"):
        return os.waitid(os.P_PID, process.pid, os.WEXITED | os.WNOHANG | os.WNOWAIT) is not None
    return process.poll() is not None
