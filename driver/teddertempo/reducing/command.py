"""The command line of teddertempo-reduce."""

from __future__ import annotations

import argparse
import hashlib
import shlex
import sys
import tempfile
import traceback
from pathlib import Path

from ..options import FAILED, Parser, duration, positive, split_command
from ..running.processes import OutOfTime, Runner, Stopped
from ..wasm.binary import Unreadable
from ..wasm.module import Module
from ..wasm.reading import read_module
from .changes import Changer, program_of
from .commands import Commands, Exhausted, Failure
from .judge import Bounds, Command, Judge
from .output import Output
from .passes import all_passes
from .report import Reporter, write_report
from .search import Search
from .state import State, StateFolder, StateRefusal

REFUSED = 1

DESCRIPTION = "Makes a WebAssembly module smaller, as long as a predicate accepts it: a command that exits with status 0."

EPILOG = """\
In the words of PREDICATE, @@ is replaced by the candidate's file; without @@ the file is the last word. Status 0: done, also if --time or
--max-runs ended it; 1: the module isn't accepted, or a file can't be read or written; 64: the options are wrong; 70: this program
failed; 130, 143: stopped by a signal. OUTPUT has the smallest module so far at any time.
"""


def parser() -> Parser:
    made = Parser("teddertempo-reduce", "%(prog)s [OPTIONS] MODULE -o OUTPUT -- PREDICATE ARGS..", DESCRIPTION, EPILOG)
    made.add_argument("modules", metavar="MODULE", nargs="*", help="a module that the predicate accepts")
    made.add_argument("-o", "--output", type=Path, metavar="OUTPUT", help="the file for the smallest module")
    made.add_argument("--jobs", type=positive, default=1, metavar="N", help="tries N candidates in parallel (1)")
    made.add_argument("--timeout", type=duration, default=60.0, metavar="TIME", help="ends a run of the predicate after that time (60s)")
    made.add_argument("--time", type=duration, metavar="TIME", help="ends after that time, as 30m or 8h")
    made.add_argument("--max-runs", type=positive, metavar="N", help="ends after N runs of the predicate")
    made.add_argument("--state", type=Path, metavar="FOLDER", help="keeps results there, and continues from them")
    made.add_argument("--validator", metavar="COMMAND", help="judges candidates before the predicate does (wasm-validate or wasm-tools)")
    made.add_argument("--no-validator", action="store_true", help="lets the predicate judge alone")
    made.add_argument("--keep-names", action="store_true", help="keeps the custom section of names")
    made.add_argument("--program", metavar="PROGRAM", help="the program teddertempo, which makes changes")
    made.add_argument("--json", metavar="FILE", help="writes a report as JSON there; - is standard output")
    made.add_argument("--quiet", action="store_true", help="prints errors only")
    return made


def read_file(file: Path) -> bytes:
    try:
        return file.read_bytes()
    except OSError as error:
        raise Failure(f"{file}: {error.strerror}") from error


def lasting(options: argparse.Namespace, predicate: list[str], data: bytes) -> dict[str, object]:
    """The settings that have to be the same for a reduction to continue."""
    validator = "none" if options.no_validator else options.validator or "usual"
    return {"module": hashlib.sha256(data).hexdigest(), "predicate": predicate, "validator": validator, "names": options.keep_names}


class Reduction:
    """A reduction with the settings that the options name."""

    def __init__(self, options: argparse.Namespace, predicate: list[str], runner: Runner):
        self.options = options
        self.predicate = predicate
        self.runner = runner
        self.name = options.modules[0]
        self.data = read_file(Path(self.name))

    def run(self) -> None:
        """Reduces the module. If that is stopped, OUTPUT has the best module already."""
        wanted = lasting(self.options, self.predicate, self.data)
        state = StateFolder(self.options.state, wanted) if self.options.state else State()
        try:
            with tempfile.TemporaryDirectory(prefix="teddertempo-reduce-") as folder, self.runner.within(self.options.time):
                self.run_in(Path(folder), state)
        finally:
            state.close()

    def run_in(self, folder: Path, state: State) -> None:
        options = self.options
        commands = Commands(self.runner)
        bounds = Bounds(self.runner.seconds, options.max_runs)
        judge = Judge(Command(tuple(self.predicate)), commands, state, bounds, folder, options.jobs)
        output = Output(options.output, state)
        reporter = Reporter(output, judge, options.quiet)
        best = state.best() or self.data
        module = self.decoded(best, reporter)
        self.accept(best, judge, reporter)
        output.keep(best)
        search = Search(module, best, judge, options.jobs, reporter)
        stopped = None
        try:
            search.run(all_passes(self.changer(commands, folder, reporter), options.keep_names))
        except Exhausted as limit:
            stopped = str(limit)
        except OutOfTime:
            stopped = "--time"
        reporter.end(len(self.data), search, stopped)
        if options.json:
            write_report(reporter.report(len(self.data), search, stopped), options.json)

    def accept(self, best: bytes, judge: Judge, reporter: Reporter) -> None:
        """Makes sure that the predicate accepts the module with which the search begins."""
        self.choose_validator(judge, reporter)
        if not judge.judge(best)[0]:
            raise Failure(f"{self.name}: the predicate doesn't accept it")

    def decoded(self, data: bytes, reporter: Reporter) -> Module:
        try:
            module = read_module(data)
        except Unreadable as reason:
            raise Failure(f"{self.name}: {reason}") from reason
        if not module.is_whole():
            reporter.note("not all of the module can be decoded as WebAssembly 3.0: what has an index stays; if its references are in the "
                          "encoding of 2022, convert it with a current tool")
        return module

    def choose_validator(self, judge: Judge, reporter: Reporter) -> None:
        if not self.options.no_validator:
            named = self.options.validator
            reason = judge.choose_validator(self.data, Command(tuple(shlex.split(named))) if named else None)
            if reason:
                reporter.note(reason)

    def changer(self, commands: Commands, folder: Path, reporter: Reporter) -> Changer | None:
        """The program, if there is one and it can change operators that are named."""
        program = program_of(self.options.program)
        if program is None:
            reporter.note("no program teddertempo is found: its changes aren't tried; --program names it")
            return None
        changer = Changer(program, commands, folder)
        if changer.knows_places(self.data):
            return changer
        reporter.note(f"{program} doesn't know --from: its changes aren't tried")
        return None


def check(options: argparse.Namespace, predicate: list[str], made: Parser) -> None:
    """Refuses options that are missing, or exclude each other."""
    if len(options.modules) != 1:
        made.error("no MODULE" if not options.modules else "more than one MODULE")
    if options.output is None:
        made.error("no OUTPUT: -o names it")
    if not predicate:
        made.error("no PREDICATE: it follows --")
    if options.validator is not None and options.no_validator:
        made.error("--validator and --no-validator exclude each other")
    try:
        is_empty = options.validator is not None and not shlex.split(options.validator)
    except ValueError as reason:
        made.error(f"--validator: {reason}")
    if is_empty:
        made.error("--validator names no command")


def main() -> int:
    own, predicate = split_command(sys.argv[1:])
    made = parser()
    options = made.parse_intermixed_args(own)
    check(options, predicate, made)
    runner = Runner(options.timeout)
    runner.stop_on_signals()
    try:
        Reduction(options, predicate, runner).run()
        return 0
    except Stopped as stopped:
        return stopped.status
    except OutOfTime:
        print(f"teddertempo-reduce: {options.modules[0]}: the time was over before the predicate accepted it", file=sys.stderr)
        return REFUSED
    except (Failure, StateRefusal, OSError) as reason:
        print(f"teddertempo-reduce: {reason}", file=sys.stderr)
        return REFUSED
    except Exception:
        traceback.print_exc()
        return FAILED
