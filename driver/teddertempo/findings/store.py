"""The folder of a run: which mutants were tried, so that a stopped run can be continued, and a folder for each finding."""

from __future__ import annotations

import json
import os
import shutil
import threading
from contextlib import contextmanager
from dataclasses import asdict, dataclass
from pathlib import Path
from typing import Iterator, TextIO

from ..files import differing, lock_folder, write_whole


class StoreRefusal(Exception):
    """The folder doesn't belong to this run."""


@dataclass(frozen=True)
class Finding:
    """A difference that begins with one rewrite."""

    number: int
    rule: str
    kind: str
    module: str
    digest: str
    seed: int
    count: int
    before: str
    after: str

    def name(self) -> str:
        return f"{self.number:04}-{self.rule}-{self.kind.replace(' ', '-')}"


class Store:
    """The folder, which one run at a time has. Its methods are called from several threads."""

    def __init__(self, folder: Path, settings: dict[str, object], goes_on: bool):
        self.folder = folder
        self.lock = threading.Lock()
        self.numbering = threading.Lock()
        self.tried: set[tuple[str, int]] = set()
        self.findings: list[Finding] = []
        folder.mkdir(parents=True, exist_ok=True)
        settings_file = folder / "settings.json"
        if not settings_file.exists() and any(entry.name[0] != "." and entry.name != "lock" for entry in folder.iterdir()):
            raise StoreRefusal(f"{folder} isn't empty, and no run of teddertempo-diff wrote it: --output names another folder")
        self.taken = self.take()
        if settings_file.exists():
            if not goes_on:
                raise StoreRefusal(f"{folder} has a run already: --continue continues it, --output names another folder")
            self.compare(json.loads(settings_file.read_text(encoding="utf-8")), settings)
            self.load()
        else:
            write_whole(settings_file, (json.dumps(settings, indent=1) + "\n").encode())
        self.progress = open(folder / "tried.jsonl", "a", encoding="utf-8")

    def take(self) -> TextIO:
        lock = lock_folder(self.folder)
        if lock is None:
            raise StoreRefusal(f"another run uses {self.folder}: --output names another folder")
        return lock

    def compare(self, before: dict[str, object], now: dict[str, object]) -> None:
        changed = differing(before, now)
        if changed:
            raise StoreRefusal(f"the run in {self.folder} has another {', '.join(changed)}: --output names another folder")

    def load(self) -> None:
        """Reads the results of an earlier run. A last line that was cut short is dropped, and an unfinished folder is removed."""
        tried = self.folder / "tried.jsonl"
        if tried.exists():
            for line in tried.read_text(encoding="utf-8").splitlines(keepends=True):
                if line.endswith("\n"):
                    entry = json.loads(line)
                    self.tried.add((entry["digest"], entry["seed"]))
            cut = tried.read_text(encoding="utf-8")
            write_whole(tried, cut[: cut.rfind("\n") + 1].encode())
        for entry in sorted(self.folder.iterdir()):
            if entry.name.startswith(".new-"):
                shutil.rmtree(entry)
            elif (entry / "finding.json").exists():
                report = json.loads((entry / "finding.json").read_text(encoding="utf-8"))
                self.findings.append(Finding(**report["finding"]))

    @contextmanager
    def numbered(self) -> Iterator[int]:
        """The number of the finding that the block adds. Blocks follow one another, so that no number is left without a folder."""
        with self.numbering:
            yield max((finding.number for finding in self.findings), default=0) + 1

    def was_tried(self, digest: str, seed: int) -> bool:
        return (digest, seed) in self.tried

    def note(self, digest: str, module: str, seed: int, outcome: str) -> None:
        """Notes that a mutant was tried."""
        line = json.dumps({"digest": digest, "module": module, "seed": seed, "outcome": outcome})
        with self.lock:
            self.progress.write(line + "\n")
            self.progress.flush()
            self.tried.add((digest, seed))

    def add(self, finding: Finding, report: dict[str, object], made: Path) -> Path:
        """Keeps a finding, with a copy of the folder that was made for it: the new folder appears when it is complete."""
        (made / "finding.json").write_text(json.dumps({"finding": asdict(finding), **report}, indent=1) + "\n", encoding="utf-8")
        beside = self.folder / f".new-{finding.name()}"
        shutil.copytree(made, beside)
        final = self.folder / finding.name()
        os.rename(beside, final)
        self.findings.append(finding)
        return final

    def close(self) -> None:
        self.progress.close()
        self.taken.close()
