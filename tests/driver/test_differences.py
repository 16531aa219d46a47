"""What the driver makes of engines that hang, crash, reject, print without end or leave children; and what it keeps of a finding."""

from __future__ import annotations

import shlex
import shutil
import subprocess
from dataclasses import dataclass

import pytest
from support import RULES, Driver, as_json, findings_in, globals_in, lines_of, running, sleep_of_test, startup

FILES = ["README.txt", "bad.txt", "bad.wasm", "finding.json", "good.txt", "good.wasm", "original.txt", "original.wasm", "rewrite.txt"]


@dataclass(frozen=True)
class Row:
    """What a run with a mode of the engine comes to: its status, and the class of the finding, if there is one."""

    mode: str
    status: int
    kind: str | None = None
    options: tuple[str, ...] = ()

    def __str__(self) -> str:
        return " ".join((self.mode, *self.options))


ROWS = (
    Row("same", 0),
    Row("value", 1, "value"),
    Row("crash", 1, "crash"),
    Row("trap", 1, "trap"),
    Row("refusal", 1, "refused"),
    Row("limit", 0),
    Row("limit", 1, "refused for a limit", ("--strict",)),
    Row("exhaustion", 0),
    Row("exhaustion", 1, "exhausted", ("--strict",)),
    Row("hang", 0, None, ("--timeout", "3")),
    Row("hang", 1, "out of time", ("--timeout", "3", "--strict", "--first")),
    Row("flood", 0),
    Row("child", 0),
    Row("unsteady", 2),
    Row("memory", 0),
    Row("status", 0),
    Row("value", 0, None, ("--not-rule", "through_global")),
    Row("value", 64, None, ("--rule", "no_such_rule")),
    Row("value", 1, "value", (*RULES, "--swarm", "3")),
    Row("value", 1, "value", (*RULES, "--swarm", "50")),
    Row("value", 64, None, ("--rule", "no_such_rule", "--swarm", "2")),
)


@pytest.mark.parametrize("row", ROWS, ids=str)
def test_row(driver: Driver, row: Row, request: pytest.FixtureRequest) -> None:
    rules = () if any(option in ("--rule", "--not-rule") for option in row.options) else RULES
    done, output = driver.run_mode(row.mode, *rules, *row.options)
    assert done.returncode == row.status, (done.stdout, done.stderr)
    kinds = {(finding["rule"], finding["kind"]) for finding in findings_in(output)}
    assert kinds == ({("through_global", row.kind)} if row.kind else set())
    assert not running(sleep_of_test(request.node.name)), "a child is left"


def test_finding(driver: Driver) -> None:
    """The rewrite before and after which the engine differs is the one that is named."""
    _, output = driver.run_mode("value", *RULES)
    folder = next(output.glob("0001-*"))
    assert globals_in(folder / "bad.wasm") - globals_in(folder / "good.wasm") == 1
    shown = (folder / "rewrite.txt").read_text()
    assert shown.startswith("function ") and "rule through_global" in shown.split("\n")[0]
    assert sorted(entry.name for entry in folder.iterdir()) == FILES
    report = as_json(folder / "finding.json")
    seed, count = str(report["finding"]["seed"]), str(report["finding"]["count"])
    again = driver.rewrite(*RULES, "--seed", seed, "--count", count, str(folder / "original.wasm"))
    assert again.stdout == (folder / "bad.wasm").read_bytes()
    said = [subprocess.run(command, shell=True, capture_output=True, text=True).stdout for command in report["run"]]
    assert said == ["one\n", "other\n"]
    assert not list(output.glob(".*")), "a finding is half written"


def test_a_fault_is_kept_once(driver: Driver) -> None:
    _, output = driver.run_mode("value", *RULES)
    assert len(findings_in(output)) == 1


def test_all_keeps_each(driver: Driver) -> None:
    _, output = driver.run_mode("value", *RULES, "--all")
    assert len(findings_in(output)) > 1


def test_command_of_a_swarm_finding(driver: Driver) -> None:
    """The command of a finding has the rules of its mutant."""
    _, output = driver.run_mode("value", *RULES, "--swarm", "3")
    folder = next(output.glob("0001-*"))
    mutate = shlex.split(as_json(folder / "finding.json")["mutate"])
    assert [word for before, word in zip(mutate, mutate[1:]) if before == "--rule"] == ["through_global"]
    driver.rewrite(*mutate[1:])
    assert (driver.folder / "bad.wasm").read_bytes() == (folder / "bad.wasm").read_bytes()


def test_json(driver: Driver) -> None:
    done, _ = driver.run_mode("value", *RULES, "--json")
    assert [list(line)[0] for line in lines_of(done.stdout)] == ["finding", "summary"]


def test_quiet(driver: Driver) -> None:
    done, _ = driver.run_mode("same", "--quiet")
    assert (done.stdout, done.stderr) == ("", "")


def test_reduced_finding(driver: Driver) -> None:
    """A finding gets smaller, and stays one; the predicate rejects other modules."""
    seconds = 20 + 60 * startup("teddertempo-diff")  # many predicates and engines start in it
    done, output = driver.run_mode("value", *RULES, "--reduce", f"{seconds:.0f}s", "--json")
    lines = lines_of(done.stdout)
    assert [list(line)[0] for line in lines] == ["finding", "reduced", "summary"], done.stderr
    folder = next(output.glob("0001-*"))
    reduced, mutant = folder / "reduced.wasm", folder / "reduced_bad.wasm"
    assert mutant.exists(), (done.stdout, done.stderr)
    size = reduced.stat().st_size
    assert 2 * size < (folder / "good.wasm").stat().st_size and lines[1]["after"] == size
    said = [subprocess.run([*driver.engine("value")[:-1], str(file)], capture_output=True, text=True).stdout for file in (reduced, mutant)]
    assert said == ["one\n", "other\n"]
    again = driver.rewrite(*shlex.split(lines[1]["command"])[1:-2])
    assert again.stdout == mutant.read_bytes()
    assert "through_global" in (folder / "reduced.txt").read_text()
    empty = driver.folder / "empty.wasm"
    empty.write_bytes(b"\0asm\1\0\0\0")
    assert [driver.differs(folder, module).returncode for module in (reduced, folder / "good.wasm", empty)] == [0, 0, 1]
    done = driver.differs(output, empty)
    assert done.returncode == 2 and "has no finding" in done.stderr


@pytest.mark.parametrize("words", (["./no such engine"], ["node", "--no-such-option"], ["spectest-interp", "--no-such-option"]),
                         ids=" ".join)
def test_wrong_engine(driver: Driver, words: list[str]) -> None:
    """An engine that isn't there, or doesn't do what it is asked for, is reported."""
    if words[0][0] != "." and not shutil.which(words[0]):
        pytest.skip(f"no {words[0]} on the path")
    done, _ = driver.run([driver.module], words, "--seeds", "2")
    assert done.returncode == 2 and "not tried" in done.stderr
