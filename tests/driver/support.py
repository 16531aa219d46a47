"""What the tests of the driver and the reducer share: modules, engines and predicates, and runs of both tools."""

from __future__ import annotations

import json
import os
import signal
import subprocess
import sys
import time
from dataclasses import dataclass
from pathlib import Path
from typing import Any

from teddertempo.engines.shim import section, text, type_of
from teddertempo.wasm.binary import number, signed, sized
from teddertempo.wasm.module import CODE, EXPORTS, FUNCTIONS, HEAD, TYPES
from teddertempo.wasm.reading import read_declarations

TOP = Path(__file__).resolve().parents[2]
TOOLS = TOP / "driver"
MODULES = sorted((TOP / "tests/modules").glob("**/*.wasm"))

# The rules that the driver's tests use. `through_global` alone adds a global, so that an engine can be wrong on its rewrites.
RULES = ("--rule", "through_global", "--rule", "commute", "--rule", "with_nop")

# How long a run may take, on a machine that has much else to do too.
SECONDS = 900

# The engine of the tests: ENGINE MODE MODULE. It is wrong on a module with more globals than `first`, and notes its runs in `runs`:
# `+` for such a module, else `-`.
ENGINE = """
import os, subprocess, sys, time
from pathlib import Path
sys.path.insert(0, {tools!r})
sys.dont_write_bytecode = True
from teddertempo.wasm.reading import read_declarations
mode, file = sys.argv[1:]
own = Path(__file__).parent
falls = len(read_declarations(open(file, "rb").read()).globals) > {first}
with open(own / "runs", "a") as runs: runs.write("+" if falls else "-")
noted = (own / "runs").read_text()
hangs = {{
    "always": True,
    "third": len(noted) % 3 == 0,
    "traced": noted.endswith("+") and noted.count("+") == 2,
    "kept": list(own.glob("*/0001-*/finding.json")),
}}
if hangs.get(mode): subprocess.run(["sleep", {sleep!r}])
if mode == "slow": time.sleep(float(os.environ.get("SLOW", "0.1")))
if mode == "unsteady": print(time.time_ns())
if mode == "child":
    subprocess.Popen(["sleep", {sleep!r}])
if falls:
    if mode in ("value", "traced", "kept"): print("other"); sys.exit()
    if mode == "crash": os.abort()
    if mode == "trap": sys.exit("RuntimeError: unreachable")
    if mode == "refusal": sys.exit("CompileError: type mismatch")
    if mode == "limit": sys.exit("error: too many globals")
    if mode == "exhaustion": sys.exit("call stack exhausted")
    if mode == "memory": sys.stderr.write("out of memory"); sys.stderr.flush(); os.abort()
    if mode == "hang": time.sleep(1000)
    if mode == "flood":
        while True: sys.stdout.write("x" * 65536)
print("one")
if mode == "status": sys.exit("RuntimeError: unreachable")
"""

# A program that does what teddertempo does, but never ends if it is asked for a mutant.
PROGRAM_THAT_HANGS = """#!/bin/bash
for word; do if [ "$word" = --seed ]; then sleep {sleep}; fi; done
exec '{program}' "$@"
"""

Json = dict[str, Any]
Process = subprocess.CompletedProcess[str]
Function = tuple[str, tuple[str, ...], tuple[str, ...], bytes]


def module_of(functions: list[Function], are_exported: bool = True) -> bytes:
    """A module of functions without locals, each a name, its parameters, its results and its code."""
    types = [type_of(parameters, results) for _, parameters, results, _ in functions]
    bodies = [sized(b"\x00" + code + b"\x0b") for _, _, _, code in functions]
    exports = [text(name) + b"\x00" + number(place) for place, (name, *_) in enumerate(functions)]
    sections = [(TYPES, types), (FUNCTIONS, [number(place) for place in range(len(functions))])]
    sections += [(EXPORTS, exports)] if are_exported else []
    return HEAD + b"".join(section(code, parts) for code, parts in [*sections, (CODE, bodies)])


def sum_with(addend: int) -> Function:
    """The function `sum`, which adds a number to its parameter."""
    return "sum", ("i32",), ("i32",), b"\x20\x00\x41" + signed(addend) + b"\x6a"


def globals_in(module: Path) -> int:
    return len(read_declarations(module.read_bytes()).globals)


def sleep_of_test(name: str) -> str:
    """Seconds by which a `sleep` of this test is known among the processes of the machine."""
    return f"1000.{os.getpid()}{sum(name.encode()):05}"


def running(word: str) -> list[str]:
    """The processes with a word on their command line."""
    found = []
    for process in Path("/proc").iterdir():
        try:
            if process.name.isdigit() and word.encode() in (process / "cmdline").read_bytes().split(b"\0"):
                found.append(process.name)
        except OSError:
            pass
    return found


def wait_for(process: subprocess.Popen[str], word: str) -> None:
    """Waits until a process with a word on its command line runs, or the given one has ended."""
    while process.poll() is None and not running(word):
        time.sleep(0.05)


def startup(tool: str) -> float:
    """How many seconds a tool takes to start, with what else the machine does now."""
    began = time.monotonic()
    subprocess.run([sys.executable, str(TOOLS / tool), "--version"], check=True, capture_output=True)
    return time.monotonic() - began


def as_json(file: Path) -> Json:
    read: Json = json.loads(file.read_text())
    return read


def lines_of(output: str) -> list[Json]:
    return [json.loads(line) for line in output.splitlines()]


@dataclass
class Driver:
    """Runs teddertempo-diff in a folder of the test."""

    program: Path
    folder: Path
    module: Path
    engine_file: Path
    runs: int = 0

    def engine(self, mode: str) -> list[str]:
        return [sys.executable, str(self.engine_file), mode, "@@"]

    def command(self, modules: list[Path], engine: list[str], output: Path, *options: str) -> list[str]:
        jobs = () if "--jobs" in options else ("--jobs", "2")
        return [sys.executable, str(TOOLS / "teddertempo-diff"), "--teddertempo", str(self.program), "-o", str(output), *jobs, *options,
                *map(str, modules), "--", *engine]

    def run(self, modules: list[Path], engine: list[str], *options: str, output: Path | None = None) -> tuple[Process, Path]:
        """Runs it; returns what it printed, and the folder of its findings."""
        self.runs += 1
        output = output or self.folder / f"found {self.runs}"
        command = self.command(modules, engine, output, *options)
        return subprocess.run(command, capture_output=True, text=True, timeout=SECONDS), output

    def run_mode(self, mode: str, *options: str, output: Path | None = None) -> tuple[Process, Path]:
        timeout = () if "--timeout" in options else ("--timeout", "20")
        return self.run([self.module], self.engine(mode), *timeout, "--dose", "20", "--seeds", "4", *options, output=output)

    def start(self, command: list[str]) -> subprocess.Popen[str]:
        """Starts a command that a signal may end, also if the tests ignore SIGINT."""
        return subprocess.Popen(command, stdout=subprocess.PIPE, stderr=subprocess.PIPE, text=True,
                                preexec_fn=lambda: signal.signal(signal.SIGINT, signal.SIG_DFL))

    def hang(self, sleep: str) -> None:
        """Lets the program that rewrites hang: it starts a `sleep`."""
        file = self.folder / "program"
        file.write_text(PROGRAM_THAT_HANGS.format(sleep=sleep, program=self.program))
        file.chmod(0o755)
        self.program = file

    def rewrite(self, *words: str) -> subprocess.CompletedProcess[bytes]:
        return subprocess.run([str(self.program), *words], capture_output=True, cwd=self.folder)

    def differs(self, finding: Path, module: Path) -> Process:
        words = [sys.executable, str(TOOLS / "teddertempo-diff"), "--teddertempo", str(self.program), "--differs", str(finding), str(module)]
        return subprocess.run(words, capture_output=True, text=True, timeout=SECONDS)


def findings_in(output: Path) -> list[Json]:
    return [as_json(file)["finding"] for file in sorted(output.glob("*/finding.json"))]


@dataclass
class Reducer:
    """Runs teddertempo-reduce in a folder of the test."""

    folder: Path
    runs: int = 0

    def __post_init__(self) -> None:
        self.environment = {**os.environ, "TEDDERTEMPO": ""}

    def compiled(self, name: str, source: str) -> Path:
        """A module in the text format, as a file."""
        file, module = self.folder / f"{name}.wat", self.folder / f"a {name}.wasm"
        file.write_text(source)
        subprocess.run(["wat2wasm", "--enable-all", "--debug-names", str(file), "-o", str(module)], check=True)
        return module

    def predicate(self, script: str) -> Path:
        """A predicate in the shell's words, on `$1`."""
        self.runs += 1
        file = self.folder / f"predicate {self.runs}"
        file.write_text(f"#!/bin/bash\n{script.replace('$1', chr(34) + '$1' + chr(34))}\n")
        file.chmod(0o755)
        return file

    def command(self, module: Path, predicate: list[str], *options: str) -> list[str]:
        self.runs += 1
        self.output = self.folder / f"out {self.runs}.wasm"
        return [sys.executable, str(TOOLS / "teddertempo-reduce"), str(module), "-o", str(self.output), *options, "--", *predicate]

    def run(self, module: Path, predicate: list[str], *options: str) -> Process:
        command = self.command(module, predicate, *options)
        return subprocess.run(command, capture_output=True, text=True, timeout=SECONDS, env=self.environment)

    def reduced(self, module: Path, script: str, *options: str) -> tuple[Process, bytes]:
        """What it printed, and the bytes that are left."""
        done = self.run(module, [str(self.predicate(script))], *options)
        return done, self.output.read_bytes() if self.output.exists() else b""
