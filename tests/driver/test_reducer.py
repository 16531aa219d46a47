"""How the reducer runs: its report, jobs, bounds, state, signals, messages, and the program whose changes it uses."""

from __future__ import annotations

import json
import shlex
import signal
import subprocess
import sys
import time
from dataclasses import dataclass
from pathlib import Path

import pytest
from support import SECONDS, TOOLS, Reducer, as_json, running, sleep_of_test

from teddertempo.reducing.commands import Commands
from teddertempo.reducing.passes.trees import Deletions
from teddertempo.running.processes import OutOfTime, Runner
from teddertempo.wasm.reading import read_module

ROTATION = "wasm-objdump -d $1 | grep -q i32.rotl"
LETTERS = "grep -q letters $1"

# How long a start of the reducer takes on a machine that has much else to do too.
START = 10


def test_report(reducer: Reducer, small: Path) -> None:
    log = reducer.folder / "counted"
    done, left = reducer.reduced(small, f"echo run >> '{log}'; {ROTATION}", "--json", "-", "--quiet")
    report = json.loads(done.stdout)
    assert done.stderr == ""
    assert report["runs"] == len(log.read_text().splitlines()) and report["after"] == len(left)
    assert sum(each["bytes"] for each in report["passes"]) == report["before"] - report["after"]


def test_report_in_a_file(reducer: Reducer, small: Path) -> None:
    file = reducer.folder / "report.json"
    reducer.reduced(small, "true", "--json", str(file))
    assert as_json(file)["after"] == 8


def test_any_number_of_jobs_leaves_the_same(reducer: Reducer, small: Path) -> None:
    script = f"{ROTATION} && wasm-objdump -d $1 | grep -q br_if"
    answers = [reducer.reduced(small, script, "--jobs", jobs)[1] for jobs in ("1", "2", "7")]
    assert answers[0] and len(set(answers)) == 1, list(map(len, answers))


def test_none_of_equal_bytes_is_tried_twice(reducer: Reducer, small: Path) -> None:
    log = reducer.folder / "seen"
    reducer.reduced(small, f"md5sum < $1 >> '{log}'; {ROTATION} && wasm-objdump -d $1 | grep -q br_if", "--jobs", "5")
    seen = log.read_text().splitlines()
    assert seen and len(seen) == len(set(seen))


def test_a_run_that_takes_too_long(reducer: Reducer, request: pytest.FixtureRequest) -> None:
    """It doesn't accept the module, and is ended with its children."""
    seconds, slept = sleep_of_test(request.node.name), reducer.folder / "slept"
    module = reducer.compiled("bytes", '(module (memory 1) (data (i32.const 0) "letters and others"))')
    done, left = reducer.reduced(module, f"{LETTERS} || {{ test ! -e '{slept}' && touch '{slept}' && sleep {seconds}; }}", "--timeout", "5")
    assert done.returncode == 0 and b"letters" in left, done.stderr
    assert slept.exists()
    assert not running(seconds), "a child is left"


def test_max_runs(reducer: Reducer, small: Path) -> None:
    done, _ = reducer.reduced(small, LETTERS, "--max-runs", "5", "--json", "-")
    report = json.loads(done.stdout)
    assert done.returncode == 0 and report["runs"] == 5 and report["stopped"] == "--max-runs"


def test_time(reducer: Reducer, small: Path) -> None:
    done, left = reducer.reduced(small, f"sleep 0.2; {LETTERS}", "--time", "1s")
    assert done.returncode == 0 and b"letters" in left, done.stderr


@pytest.mark.parametrize("jobs", ("1", "3"))
def test_time_ends_a_run(reducer: Reducer, small: Path, request: pytest.FixtureRequest, jobs: str) -> None:
    """A predicate that hangs at the third candidate is ended when the time is over, with its children; the best module stays."""
    log, seconds = reducer.folder / "ran", sleep_of_test(request.node.name)
    script = f"echo run >> '{log}'; test $(wc -l < '{log}') -lt 3 || sleep {seconds}; {LETTERS}"
    options = ("--timeout", "500s", "--time", "15s", "--jobs", jobs, "--json", str(reducer.folder / "report"))
    began = time.monotonic()
    done, left = reducer.reduced(small, script, *options)
    assert 15 <= time.monotonic() - began < 20 + START, done.stderr
    assert done.returncode == 0 and b"letters" in left and "stopped: --time" in done.stderr, done.stderr
    assert as_json(reducer.folder / "report")["after"] == len(left)
    assert not running(seconds), "a child is left"


@pytest.mark.parametrize("what", ("validator", "program"))
def test_time_ends_other_commands(reducer: Reducer, small: Path, request: pytest.FixtureRequest, what: str) -> None:
    """A validator that hangs at the third candidate, and a program that hangs at once."""
    log, seconds = reducer.folder / "ran", sleep_of_test(request.node.name)
    hangs = reducer.predicate(f"echo run >> '{log}'; test $(wc -l < '{log}') -lt {3 if what == 'validator' else 1} || sleep {seconds}")
    began = time.monotonic()
    validator = shlex.quote(str(hangs))
    done, left = reducer.reduced(small, LETTERS, f"--{what}", validator if what == "validator" else str(hangs), "--time", "15s")
    assert 15 <= time.monotonic() - began < 20 + START, done.stderr
    assert done.returncode == 0 and b"letters" in left and not running(seconds), done.stderr


def test_time_ends_the_look_for_positions(small: Path) -> None:
    """A pass checks the time for each function, since a large module takes long."""
    deletions = Deletions()
    runner = Runner(1)
    deletions.commands = Commands(runner)
    with runner.within(0), pytest.raises(OutOfTime):
        deletions.positions(read_module(small.read_bytes()))


def test_time_is_over_at_first(reducer: Reducer, small: Path) -> None:
    """Nothing is known of the module, so that no OUTPUT is written."""
    done, left = reducer.reduced(small, "sleep 100", "--time", "1s")
    assert done.returncode == 1 and "the time was over" in done.stderr and not left, done.stderr


def test_state(reducer: Reducer, small: Path) -> None:
    folder, log = reducer.folder / "state", reducer.folder / "tried"
    predicate = [str(reducer.predicate(f"md5sum < $1 >> '{log}'; {LETTERS}"))]
    reducer.run(small, predicate, "--state", str(folder), "--max-runs", "10")
    first = (folder / "best.wasm").read_bytes()
    with open(folder / "tried.txt", "a") as file:
        file.write("cut sho")
    done = reducer.run(small, predicate, "--state", str(folder))
    assert done.returncode == 0 and reducer.output.stat().st_size < len(first), done.stderr
    seen = log.read_text().splitlines()
    assert len(seen) == len(set(seen)), "what was tried is tried again"
    reducer.run(small, predicate, "--state", str(folder))
    assert len(log.read_text().splitlines()) == len(seen), "a third run has nothing to try"
    assert (folder / "best.wasm").read_bytes() == reducer.reduced(small, LETTERS)[1]
    done = reducer.run(small, ["true"], "--state", str(folder))
    assert done.returncode == 1 and "predicate" in done.stderr, "a state is one predicate's"
    done = reducer.run(small, ["true"], "--state", str(reducer.folder))
    assert done.returncode == 1 and "isn't empty" in done.stderr


@pytest.mark.parametrize("number, status", ((signal.SIGINT, 130), (signal.SIGTERM, 143)))
def test_signal(reducer: Reducer, small: Path, request: pytest.FixtureRequest, number: signal.Signals, status: int) -> None:
    log, seconds = reducer.folder / "ran", sleep_of_test(request.node.name)
    predicate = reducer.predicate(f"echo run >> '{log}'; test $(wc -l < '{log}') -lt 10 || sleep {seconds}; {LETTERS}")
    command = reducer.command(small, [str(predicate)], "--jobs", "2")
    process = subprocess.Popen(command, stdout=subprocess.PIPE, stderr=subprocess.PIPE, text=True, env=reducer.environment,
                               preexec_fn=lambda: signal.signal(signal.SIGINT, signal.SIG_DFL))
    while process.poll() is None and not (log.exists() and len(log.read_text().splitlines()) >= 10):
        time.sleep(0.05)
    process.send_signal(number)
    errors = process.communicate(timeout=SECONDS)[1]
    assert process.returncode == status and "Traceback" not in errors, errors
    assert not running(seconds), "a child is left"
    left = reducer.output.read_bytes()
    assert b"letters" in left and len(left) < small.stat().st_size


TRUE = ("true",)
REFUSALS = (
    ("small", ("false",), (), 1, "doesn't accept it"),
    ("none", TRUE, (), 1, "No such file"),
    ("text", TRUE, (), 1, "doesn't begin as a module does"),
    ("cut", TRUE, (), 1, "ends too early"),
    ("small", ("./no such program",), (), 1, "No such file"),
    ("small", (), (), 64, "no PREDICATE"),
    ("small", TRUE, ("--jobs", "0"), 64, "above 0"),
    ("small", TRUE, ("--no-such-option",), 64, "no-such-option"),
    ("small", TRUE, ("--validator", "x", "--no-validator"), 64, "exclude"),
    ("small", TRUE, ("--validator", "./no validator"), 1, "No such file"),
    ("small", TRUE, ("--program", "./no program"), 1, "No such file"),
)


@pytest.mark.parametrize("module, predicate, options, status, said", REFUSALS)
def test_refusal(reducer: Reducer, small: Path, module: str, predicate: tuple[str, ...], options: tuple[str, ...], status: int,
                 said: str) -> None:
    """A message of one line states what is wrong."""
    files = {name: reducer.folder / f"{name} module" for name in ("none", "text", "cut")}
    files["text"].write_text("(module)")
    files["cut"].write_bytes(small.read_bytes()[:-3])
    done = reducer.run(files.get(module, small), list(predicate), *options)
    assert done.returncode == status and said in done.stderr, done.stderr
    assert len(done.stderr.strip().splitlines()) <= (2 if status == 64 else 3) and "Traceback" not in done.stderr
    assert "--program" in options or not reducer.output.exists()


def test_refusal_without_output(small: Path) -> None:
    command = [sys.executable, str(TOOLS / "teddertempo-reduce"), str(small), "--", "true"]
    done = subprocess.run(command, capture_output=True, text=True)
    assert done.returncode == 64 and "no OUTPUT" in done.stderr


@dataclass(frozen=True)
class Wrapper:
    """The program, which refuses options as an older one does, and notes the status and the words of each call."""

    file: Path
    log: Path

    def calls(self) -> list[str]:
        return self.log.read_text().splitlines()


def wrapper_of(reducer: Reducer, program: Path, refused: str) -> Wrapper:
    made = Wrapper(reducer.folder / "a program", reducer.folder / "calls")
    made.file.write_text(f"""#!/bin/bash
case "$*" in {refused}) status=64;; *) '{program}' "$@"; status=$?;; esac
echo "$status $*" >> '{made.log}'
exit $status
""")
    made.file.chmod(0o755)
    return made


def test_changes(reducer: Reducer, small: Path, program: Path) -> None:
    """The program lists the places of its changes: each change that it is asked for is made. Functions are counted with imported ones."""
    wrapper = wrapper_of(reducer, program, "nothing")
    done, left = reducer.reduced(small, ROTATION, "--program", str(wrapper.file), "--json", "-")
    passes = {each["name"]: each for each in json.loads(done.stdout)["passes"] if each["name"].startswith("change ")}
    assert len(passes) == 4 and sum(each["accepted"] for each in passes.values()) > 1
    probe, *calls = wrapper.calls()
    assert "--from 0" in probe and all(call.startswith("0 --change=") for call in calls), calls
    assert any(" --list --json " in call for call in calls) and any(" --from " in call for call in calls), calls
    assert len(left) <= 35


def test_changes_by_a_program_without_lists(reducer: Reducer, small: Path, program: Path) -> None:
    """It is asked for a list once, and leaves as little."""
    wrapper = wrapper_of(reducer, program, '*" --list "*')
    done, left = reducer.reduced(small, ROTATION, "--program", str(wrapper.file))
    assert len([call for call in wrapper.calls() if " --list " in call]) == 1
    assert done.returncode == 0 and len(left) <= 35, done.stderr


def test_changes_by_an_old_program(reducer: Reducer, small: Path, program: Path) -> None:
    wrapper = wrapper_of(reducer, program, "*")
    done, _ = reducer.reduced(small, ROTATION, "--program", str(wrapper.file), "--json", "-")
    assert "doesn't know --from" in done.stderr
    assert not [each for each in json.loads(done.stdout)["passes"] if each["name"].startswith("change ")]
    assert len(wrapper.calls()) == 1
