"""The order of a run's work, and the numbers of its findings."""

from __future__ import annotations

import hashlib
import shutil
import sys
import threading
from pathlib import Path

import pytest
from support import TOP, Driver, Json, lines_of

from teddertempo.engines.engine import Engine
from teddertempo.findings.report import line_of
from teddertempo.findings.store import Finding, Store
from teddertempo.running.campaign import Campaign, Listener, Progress, Settings
from teddertempo.running.mutator import Choice, Dose, Mutator
from teddertempo.running.processes import Runner

# An engine that notes the digest of each module that it runs.
NOTING = """
import hashlib, sys
with open(sys.argv[1], "a") as log: log.write(hashlib.sha256(open(sys.argv[2], "rb").read()).hexdigest() + "\\n")
"""


def test_modules_and_mutants_alternate(driver: Driver) -> None:
    """After each module is examined by two runs, its first mutant is run; later mutants follow seed by seed."""
    folder, engine, log = driver.folder / "modules", driver.folder / "noting.py", driver.folder / "log"
    folder.mkdir()
    engine.write_text(NOTING)
    modules = [folder / f"{name}.wasm" for name in ("forms", "mixes", "numbers")]
    for module in modules:
        shutil.copyfile(TOP / "tests/modules" / module.name, module)
    digests = [hashlib.sha256(module.read_bytes()).hexdigest() for module in modules]
    done, output = driver.run([folder], [sys.executable, str(engine), str(log)], "--jobs", "1", "--seeds", "2", "--dose", "5")
    assert done.returncode == 0, done.stderr
    ran = [str(digests.index(line)) if line in digests else "m" for line in log.read_text().split()]
    assert "".join(ran) == "00m11m22mmmm"
    tried = [(digests.index(entry["digest"]), entry["seed"]) for entry in lines_of((output / "tried.jsonl").read_text())]
    assert tried == [(0, 0), (1, 0), (2, 0), (0, 1), (1, 1), (2, 1)]


def test_progress() -> None:
    assert line_of(Progress(3, 10, 2, 12, 1)) == "3 of 10 modules examined, 2 mutants, 1 found"
    assert line_of(Progress(10, 10, 1234, 5000, 0)) == "1,234 of 5,000 mutants, 0 found"


@pytest.fixture
def store(folder: Path) -> Store:
    return Store(folder / "found", {}, False)


def finding_of(number: int) -> Finding:
    return Finding(number, "commute", "value", "m.wasm", "00", 0, 1, "", "")


def add(store: Store, number: int, folder: Path) -> Path:
    made = folder / f"made {number}"
    made.mkdir()
    return store.add(finding_of(number), {}, made)


def test_numbers_are_consecutive(store: Store, folder: Path) -> None:
    """A number whose block fails is free again, and another thread waits for its own until the block has ended."""
    with pytest.raises(KeyError):
        with store.numbered() as number:
            raise KeyError
    numbers = []

    def add_another() -> None:
        with store.numbered() as number:
            numbers.append(number)
            add(store, number, folder)

    thread = threading.Thread(target=add_another)
    with store.numbered() as number:
        thread.start()
        numbers.append(number)
        add(store, number, folder)
    thread.join()
    assert numbers == [1, 2] and sorted(path.name for path in store.folder.glob("0*")) == ["0001-commute-value", "0002-commute-value"]


def test_a_half_written_finding_is_removed(store: Store, folder: Path) -> None:
    add(store, 1, folder)
    (store.folder / ".new-0002-commute-value").mkdir()
    store.close()
    again = Store(store.folder, {}, True)
    assert not list(again.folder.glob(".new-*")) and again.findings == [finding_of(1)]
    with again.numbered() as number:
        assert number == 2


def test_a_finding_is_kept_outside_the_lock(store: Store) -> None:
    """While one worker keeps a finding, others work, and keep none of its rule and class; they may if that fails."""
    runner = Runner(1)
    settings = Settings(range(1), Dose(1, False), 1)
    campaign = Campaign(settings, Engine(["true"], 1), Mutator("true", Choice(), [], runner), runner, store, Listener())
    answers: list[Json] = []

    def look() -> None:
        with campaign.reserved("commute", "value") as same, campaign.reserved("commute", "trap") as other:
            answers.append({"same": same, "other": other})

    def look_elsewhere() -> None:
        thread = threading.Thread(target=look)
        thread.start()
        thread.join(60)

    with pytest.raises(OSError):
        with campaign.reserved("commute", "value") as is_first:
            assert is_first
            look_elsewhere()
            raise OSError
    look_elsewhere()
    assert answers == [{"same": False, "other": True}, {"same": True, "other": False}]
