"""What was tried, and the best module so far: in memory, and in a folder where one is named, so that a second start goes on."""

from __future__ import annotations

import json
import threading
from pathlib import Path
from typing import TextIO

from ..files import differing, lock_folder, write_whole


class StateRefusal(Exception):
    """The folder can't be that of this reduction."""


class State:
    """What came of the candidates, by the digests of their bytes."""

    def __init__(self) -> None:
        self.outcomes: dict[str, bool] = {}

    def outcome(self, digest: str) -> bool | None:
        return self.outcomes.get(digest)

    def note(self, digest: str, accepted: bool) -> None:
        self.outcomes[digest] = accepted

    def best(self) -> bytes | None:
        """The best module of an earlier start."""
        return None

    def keep_best(self, data: bytes) -> None:
        """Keeps the best module so far."""

    def close(self) -> None:
        """Ends what is open."""


class StateFolder(State):
    """The same in a folder, which one reduction at a time has."""

    def __init__(self, folder: Path, settings: dict[str, object]):
        super().__init__()
        self.folder = folder
        self.lock = threading.Lock()
        folder.mkdir(parents=True, exist_ok=True)
        settings_file = folder / "settings.json"
        if not settings_file.exists() and any(entry.name not in ("lock", ".settings.json.new") for entry in folder.iterdir()):
            raise StateRefusal(f"{folder} isn't empty, and no reduction wrote it")
        self.taken = self.take()
        if settings_file.exists():
            self.compare(json.loads(settings_file.read_text(encoding="utf-8")), settings)
        else:
            write_whole(settings_file, (json.dumps(settings, indent=1) + "\n").encode())
        self.load()
        self.tried = open(folder / "tried.txt", "a", encoding="ascii")

    def take(self) -> TextIO:
        lock = lock_folder(self.folder)
        if lock is None:
            raise StateRefusal(f"another reduction has {self.folder}")
        return lock

    def compare(self, before: dict[str, object], now: dict[str, object]) -> None:
        changed = differing(before, now)
        if changed:
            raise StateRefusal(f"the reduction in {self.folder} has another {', '.join(changed)}: --state names another folder")

    def load(self) -> None:
        """Reads what was tried; a last line that was cut short doesn't count."""
        file = self.folder / "tried.txt"
        text = file.read_text(encoding="ascii") if file.exists() else ""
        whole = text[: text.rfind("\n") + 1]
        for line in whole.splitlines():
            digest, _, outcome = line.partition(" ")
            self.outcomes[digest] = outcome == "1"
        if whole != text:
            write_whole(file, whole.encode())

    def note(self, digest: str, accepted: bool) -> None:
        with self.lock:
            super().note(digest, accepted)
            self.tried.write(f"{digest} {int(accepted)}\n")
            self.tried.flush()

    def best(self) -> bytes | None:
        file = self.folder / "best.wasm"
        return file.read_bytes() if file.exists() else None

    def keep_best(self, data: bytes) -> None:
        write_whole(self.folder / "best.wasm", data)

    def close(self) -> None:
        self.tried.close()
        self.taken.close()
