"""Runs of other programs in a reduction."""

from __future__ import annotations

from ..running.processes import MOST_OUTPUT, Finished, Runner

# The seconds that a command has to end processes in other groups, if it is ended early.
GRACE = 1.5


class Failure(Exception):
    """The reduction can't continue, and why."""


class Exhausted(Exception):
    """A limit of the reduction is reached: the option that sets it."""


class Commands:
    """Runs commands, from several threads at once, until a signal stops the runner or its time is over."""

    def __init__(self, runner: Runner):
        self.runner = runner

    def check_time(self) -> None:
        """Raises an exception if nothing may be run any more."""
        self.runner.check()

    def run(self, words: list[str], seconds: float, most: int = MOST_OUTPUT) -> Finished:
        """Runs a command for some seconds at most; `Failure` if it can't be started."""
        try:
            return self.runner.run(words, seconds, most, GRACE)
        except OSError as error:
            raise Failure(f"{words[0]}: {error.strerror}") from error
