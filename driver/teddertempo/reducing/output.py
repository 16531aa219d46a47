"""The file that has the best module so far."""

from __future__ import annotations

from pathlib import Path

from ..files import write_whole
from .commands import Failure
from .state import State


class Output:
    """The file, and the state beside it; each is there whole, or as it was."""

    def __init__(self, file: Path, state: State):
        self.file = file.resolve()
        self.state = state
        if self.file.exists() and not self.file.is_file():
            raise Failure(f"{file} is no plain file")

    def keep(self, data: bytes) -> None:
        try:
            write_whole(self.file, data)
            self.state.keep_best(data)
        except OSError as error:
            raise Failure(f"{error.filename2 or error.filename}: {error.strerror}") from error
