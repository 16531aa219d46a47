"""How runs of both tools end by time or by a signal, and how runs of the driver continue and share a machine."""

from __future__ import annotations

import json
import os
import signal
import subprocess
import sys
import time
from pathlib import Path

import pytest
from support import PROGRAM_THAT_HANGS, RULES, SECONDS, Driver, Json, Reducer, findings_in, lines_of, running, sleep_of_test, startup, wait_for

SIGNALS = ((signal.SIGINT, 130), (signal.SIGTERM, 143))

# An engine that is called as node is, and never ends in each third call that it makes.
CALLS_THAT_HANG = """
import json, subprocess, sys
from pathlib import Path
calls = json.loads(Path(sys.argv[1]).with_name("plan.json").read_text())["calls"]
print('["instance", ""]', flush=True)
for place, _ in enumerate(calls):
    if place % 3 == 2: subprocess.run(["sleep", {sleep!r}])
    print('["value", "", ""]', flush=True)
"""


@pytest.fixture
def sleep(request: pytest.FixtureRequest) -> str:
    """The seconds of the `sleep` that engines of this test start."""
    return sleep_of_test(request.node.name)


def tried_in(output: Path) -> list[Json]:
    return lines_of((output / "tried.jsonl").read_text())


def test_stop_and_continue(driver: Driver) -> None:
    output, engine = driver.folder / "stopped", driver.engine("slow")
    command = driver.command([driver.module], engine, output, "--seeds", "30", "--jobs", "1", "--dose", "5")
    slower = {**os.environ, "SLOW": "1"}  # so that it doesn't end before it is stopped, whatever else the machine does
    running = subprocess.Popen(command, stdout=subprocess.PIPE, stderr=subprocess.PIPE, text=True, env=slower)
    tried = output / "tried.jsonl"
    while running.poll() is None and not (tried.exists() and tried.stat().st_size):
        time.sleep(0.05)
    done, _ = driver.run([driver.module], engine, "--seeds", "30", "--dose", "5", output=output)
    assert done.returncode == 2 and "another run" in done.stderr, "a folder is one run's"
    running.send_signal(signal.SIGINT)
    _, errors = running.communicate(timeout=SECONDS)
    assert running.returncode == 130, errors
    before = len(tried.read_text().splitlines())
    with open(tried, "a") as file:
        file.write('{"digest": "cut sho')
    done, _ = driver.run([driver.module], engine, "--seeds", "30", "--dose", "5", output=output)
    assert done.returncode == 2 and "--continue" in done.stderr, "a run isn't written over"
    done, _ = driver.run([driver.module], engine, "--seeds", "30", "--dose", "6", "--continue", output=output)
    assert done.returncode == 2 and "dose" in done.stderr, "a run continues with the same options"
    done, _ = driver.run([driver.module], engine, "--seeds", "30", "--dose", "5", "--continue", output=output)
    assert done.returncode == 0 and 0 < before < 30, (before, done.stderr)
    seeds = [json.loads(line)["seed"] for line in tried.read_text().splitlines()]
    assert sorted(seeds) == list(range(30)), "each mutant is tried once"


def test_time_without_a_mutant(driver: Driver) -> None:
    done, _ = driver.run_mode("slow", "--time", "0.01s")
    assert done.returncode == 2, done.stderr
    assert "the time was over before a mutant was tried" in done.stdout + done.stderr


@pytest.mark.parametrize("hanging", ("each third run", "each third call", "the program"))
def test_time(driver: Driver, sleep: str, hanging: str) -> None:
    """A run ends at most five seconds late, whatever doesn't end: the engine, a call of the examination, the program that rewrites."""
    engine = driver.engine("third" if hanging == "each third run" else "same")
    if hanging == "each third call":
        driver.engine_file.write_text(CALLS_THAT_HANG.format(sleep=sleep))
        engine = [sys.executable, str(driver.engine_file)]
    if hanging == "the program":
        driver.hang(sleep)
    options = ("--as", "node") if hanging == "each third call" else ()
    own = startup("teddertempo-diff")
    began = time.monotonic()
    done, _ = driver.run([driver.module], engine, "--time", "5s", *options)
    seconds = time.monotonic() - began
    assert 5 <= seconds <= 10 + 2 * own, (seconds, own, done.stdout, done.stderr)
    assert not running(sleep), "a child is left"


def test_time_in_a_trace(driver: Driver, sleep: str) -> None:
    """A difference that isn't traced when the time is over is found by --continue."""
    options = (*RULES, "--jobs", "1", "--json")
    own = startup("teddertempo-diff")
    bound = 5 + 10 * own  # enough for the engine, which starts in Python too, to come to the first difference
    began = time.monotonic()
    done, output = driver.run_mode("traced", *options, "--time", f"{bound:.0f}s", "--timeout", "100")
    assert time.monotonic() - began <= bound + 5 + 2 * own, "ends late"
    assert lines_of(done.stdout)[-1]["summary"]["not traced"] == 1, (done.stdout, done.stderr)
    assert findings_in(output) == [] and "different" not in (output / "tried.jsonl").read_text()
    done, _ = driver.run_mode("traced", *options, "--first", "--continue", output=output)
    assert [finding["number"] for finding in findings_in(output)] == [1], (done.stdout, done.stderr)
    assert not running(sleep), "a child is left"


def test_time_of_a_reduction(driver: Driver, sleep: str) -> None:
    """A reduction ends at most five seconds late, with the predicate that runs and its engine."""
    command = driver.command([driver.module], driver.engine("kept"), driver.folder / "found", *RULES, "--dose", "20", "--jobs", "1", "--first",
                             "--json", "--reduce", "4s", "--timeout", "100")
    process = driver.start(command)
    assert process.stdout is not None
    line = process.stdout.readline()
    began = time.monotonic()
    assert "finding" in json.loads(line)
    output, errors = process.communicate(timeout=SECONDS)
    assert time.monotonic() - began <= 9, "ends late"
    assert process.returncode == 1 and lines_of(output)[0]["reduced"], (output, errors)
    assert not running(sleep), "a child is left"


@pytest.mark.parametrize("number, status", SIGNALS)
@pytest.mark.parametrize("place", ("engine", "program", "reduction"))
def test_signal(driver: Driver, sleep: str, place: str, number: signal.Signals, status: int) -> None:
    """A signal ends the run with all its children: the engine, the program that rewrites, or the reducer, its predicate and their engine."""
    output, mode = driver.folder / "found", {"engine": "always", "program": "same", "reduction": "kept"}[place]
    if place == "program":
        driver.hang(sleep)
    command = driver.command([driver.module], driver.engine(mode), output, *RULES, "--dose", "20", "--jobs", "1", "--first", "--reduce", "100s",
                             "--timeout", "100")
    process = driver.start(command)
    wait_for(process, sleep)
    process.send_signal(number)
    printed, errors = process.communicate(timeout=SECONDS)
    assert process.returncode == status and "Traceback" not in errors, (printed, errors)
    assert "stopped: --continue continues the run" in printed
    assert not running(sleep), "a child is left"
    assert len(findings_in(output)) == (1 if place == "reduction" else 0)
    assert len(tried_in(output)) == len(findings_in(output)), "a mutant that was under way isn't noted"


def test_two_at_once(driver: Driver) -> None:
    commands = [driver.command([driver.module], driver.engine("value"), driver.folder / f"two {place}", "--seeds", "6", "--dose", "20",
                               "--jobs", "1", *RULES) for place in range(2)]
    running = [subprocess.Popen(command, stdout=subprocess.PIPE, stderr=subprocess.PIPE) for command in commands]
    for process in running:
        process.communicate(timeout=SECONDS)
    assert [process.returncode for process in running] == [1, 1]


def test_time_of_the_reducer(reducer: Reducer, small: Path, sleep: str) -> None:
    """The reducer ends at most five seconds late, though its predicate takes longer, and keeps the best module."""
    log = reducer.folder / "log"
    predicate = reducer.predicate(f"echo run >> '{log}'; test $(wc -l < '{log}') -lt 4 || sleep {sleep}; grep -q letters $1")
    own = startup("teddertempo-reduce")
    began = time.monotonic()
    done = reducer.run(small, [str(predicate)], "--time", "6s", "--json", "-")
    assert time.monotonic() - began <= 11 + 2 * own, "ends late"
    assert done.returncode == 0 and json.loads(done.stdout)["stopped"] == "--time", done.stderr
    assert b"letters" in reducer.output.read_bytes()
    assert not running(sleep), "a child is left"


@pytest.mark.parametrize("number, status", SIGNALS)
@pytest.mark.parametrize("place", ("predicate", "program"))
def test_signal_to_the_reducer(reducer: Reducer, small: Path, sleep: str, place: str, number: signal.Signals, status: int) -> None:
    """A signal ends the reducer, the program that it runs, and a predicate that ends its own child, which is in another group."""
    state, program, log = reducer.folder / "state", reducer.folder / "program", reducer.folder / "log"
    program.write_text(f"#!/bin/bash\nsleep {sleep}\n")
    program.chmod(0o755)
    hanging = f"setsid sleep {sleep} & trap \"kill $!; exit 1\" TERM; wait"
    waits = f"test $(wc -l < '{log}') -lt 5 || {{ {hanging}; }}; " if place == "predicate" else ""
    predicate = reducer.predicate(f"echo run >> '{log}'; {waits}grep -q letters $1")
    options = ("--program", str(program)) if place == "program" else ()
    process = subprocess.Popen(reducer.command(small, [str(predicate)], "--state", str(state), *options), stdout=subprocess.PIPE,
                               stderr=subprocess.PIPE, text=True, env=reducer.environment,
                               preexec_fn=lambda: signal.signal(signal.SIGINT, signal.SIG_DFL))
    wait_for(process, sleep)
    process.send_signal(number)
    _, errors = process.communicate(timeout=SECONDS)
    assert process.returncode == status and "Traceback" not in errors, errors
    assert not running(sleep), "a child is left"
    assert reducer.output.read_bytes() == (state / "best.wasm").read_bytes()
    assert len((state / "tried.txt").read_text().splitlines()) == (4 if place == "predicate" else 1), "what was under way isn't noted"
