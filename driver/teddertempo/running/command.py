"""The command line of teddertempo-diff."""

from __future__ import annotations

import argparse
import io
import re
import sys
import traceback
from contextlib import closing
from pathlib import Path

from ..engines.engine import ENGINES, engine_of
from ..findings.reduction import NoFinding, Reducer, differs
from ..findings.report import Reporter
from ..findings.store import Store, StoreRefusal
from ..options import FAILED, MISUSED, Parser, duration, positive, processors, split_command
from .campaign import Campaign, Settings, Summary, find_modules
from .mutator import Choice, Dose, Mutator, MutatorFailure, MutatorMisuse, program_of
from .processes import OutOfTime, Runner, Stopped

FOUND, NOTHING_RUN = 1, 2

# Of --differs: whether the module differs.
DIFFERS, SAME = 0, 1

# The default of --dose (docs/TESTED.md has the reason).
USUAL_DOSE = "400"

DESCRIPTION = "Runs an engine on WebAssembly modules and on their rewrites by teddertempo, and names the rewrite that changes its answers."

EPILOG = """\
In the words of ENGINE, @@ is the file that it runs; without @@ the file is the last word. node and spectest-interp call each exported
function; so do wasmtime and wasmer, by their documentation, untested; of any other engine the output is compared. Status 0: nothing
found; 1: something found; 2: nothing could be run; 64: wrong options; 70: this program failed; 130, 143: stopped by a signal.
"""


def dose(text: str) -> Dose:
    match = re.fullmatch(r"(\d+(?:\.\d+)?)(%?)", text)
    if not match or float(match.group(1)) == 0 or (not match.group(2) and "." in text):
        raise argparse.ArgumentTypeError("a number of rewrites, or a share as 20%")
    return Dose(float(match.group(1)), bool(match.group(2)))


def seeds(text: str) -> range:
    match = re.fullmatch(r"(?:(\d+)\.\.)?(\d+)", text)
    found = range(int(match.group(1) or 0), int(match.group(2))) if match else range(0)
    if not found:
        raise argparse.ArgumentTypeError("how many, or as 100..200: from 100 on, below 200")
    return found


def parser() -> Parser:
    made = Parser("teddertempo-diff", "%(prog)s [OPTIONS] MODULE.. -- ENGINE ARGS..", DESCRIPTION, EPILOG)
    made.add_argument("modules", metavar="MODULE", nargs="*", help="a module, or a folder of modules")
    made.add_argument("--seeds", type=seeds, default=range(50), metavar="N",
                      help="the seeds below N, or A..B: a mutant of each module by each (50)")
    made.add_argument("--dose", type=dose, default=dose(USUAL_DOSE), metavar="N",
                      help=f"rewrites of a mutant: a number, or a share as 20%% of the operators that a rule can rewrite ({USUAL_DOSE})")
    made.add_argument("--calls", type=positive, default=12, metavar="N", help="calls of each exported function (12)")
    made.add_argument("--as", dest="engine", choices=sorted(ENGINES), help="the kind of engine, if the name of its program doesn't show it")
    made.add_argument("--timeout", type=duration, default=10.0, metavar="TIME", help="ends each run of the engine after that time (10s)")
    made.add_argument("--time", type=duration, metavar="TIME",
                      help="ends after that time, as 30m or 8h; the time for --reduce is in addition")
    made.add_argument("--jobs", type=positive, default=processors(), metavar="N",
                      help="how many runs at the same time (one for each core)")
    made.add_argument("--first", action="store_true", help="ends after the first finding")
    made.add_argument("--all", action="store_true", help="keeps each difference, not only the first of a rule and class")
    made.add_argument("--strict", action="store_true", help="counts exhaustion, time and limits as differences too")
    made.add_argument("-o", "--output", type=Path, default=Path("teddertempo-findings"), metavar="FOLDER",
                      help="the folder for findings (teddertempo-findings)")
    made.add_argument("--continue", dest="goes_on", action="store_true", help="continues the run in FOLDER")
    made.add_argument("--reduce", type=duration, metavar="TIME",
                      help="reduces the module of each finding by teddertempo-reduce, each for at most that time")
    made.add_argument("--differs", type=Path, metavar="FINDING",
                      help="only reports whether rewrites of MODULE differ as those of the finding in that folder do: status 0 if so, else 1")
    made.add_argument("--rule", action="append", default=[], metavar="NAME", help="uses only this rule (again for more)")
    made.add_argument("--not-rule", action="append", default=[], metavar="NAME", help="uses all rules except this (again for more)")
    made.add_argument("--swarm", type=positive, default=1, metavar="N",
                      help="makes each mutant by an Nth of the rules, for each of N seeds by another Nth (1: by all)")
    made.add_argument("--max-size", type=positive, metavar="BYTES", help="makes no mutant that is larger")
    made.add_argument("--teddertempo", metavar="PROGRAM", help="the program that rewrites")
    made.add_argument("--json", action="store_true", help="reports findings and summary as JSON, one object a line")
    made.add_argument("--quiet", action="store_true", help="reports only findings")
    return made


def choice_of(options: argparse.Namespace) -> Choice:
    return Choice(tuple(options.rule), tuple(options.not_rule), options.swarm)


def options_of(options: argparse.Namespace) -> list[str]:
    """Further options for teddertempo itself."""
    return ["--max-size", str(options.max_size)] if options.max_size else []


def settings_of(options: argparse.Namespace) -> Settings:
    return Settings(options.seeds, options.dose, options.jobs, options.strict, options.all, options.first)


def lasting(options: argparse.Namespace, engine: list[str], version: str) -> dict[str, object]:
    """The settings that have to be the same if a run is continued."""
    return {"version": version, "engine": engine, "as": options.engine, "dose": str(options.dose), "calls": options.calls,
            "options": [*choice_of(options).words(), *options_of(options)], "swarm": options.swarm, "strict": options.strict, "all": options.all}


def status_of(summary: Summary, store: Store) -> int:
    if store.findings:
        return FOUND
    return 0 if summary.modules and not summary.trouble else NOTHING_RUN


def run(options: argparse.Namespace, engine: list[str], runner: Runner) -> int:
    """Does what the options ask for, and returns the status. `Stopped` after the report if a signal ends the run."""
    mutator = Mutator(program_of(options.teddertempo), choice_of(options), options_of(options), runner)
    reporter = Reporter(options.json, options.quiet)
    with runner.within(options.time):
        settings = lasting(options, engine, mutator.version())
        with closing(Store(options.output, settings, options.goes_on)) as store:
            campaign = Campaign(settings_of(options), engine_of(engine, options.engine, options.calls), mutator, runner, store, reporter)
            summary = campaign.run(find_modules(options.modules))
            if options.reduce:
                reduce(options, runner, mutator.program, summary, reporter)
    reporter.end(summary)
    runner.check()
    return status_of(summary, store)


def reduce(options: argparse.Namespace, runner: Runner, program: str, summary: Summary, reporter: Reporter) -> None:
    """Reduces the findings, until a signal stops the runner."""
    reducer = Reducer(runner, program, options.reduce, options.jobs)
    try:
        for finding, folder in summary.findings:
            reporter.reduced(finding, reducer.reduce(folder))
    except Stopped:
        summary.stopped = True


def report_difference(options: argparse.Namespace, runner: Runner) -> int:
    """Whether the module differs as the finding does, as the status of a predicate."""
    found = differs(options.differs, Path(options.modules[0]), program_of(options.teddertempo), runner)
    return DIFFERS if found else SAME


def check(options: argparse.Namespace, engine: list[str], made: Parser) -> None:
    """Rejects options that exclude each other or are incomplete."""
    if not options.modules:
        made.error("no MODULE")
    if options.differs and len(options.modules) > 1:
        made.error("more than one MODULE")
    if options.differs and engine:
        made.error("an ENGINE beside --differs, which runs the engine of the finding")
    if not options.differs and not engine:
        made.error("no ENGINE: it comes after --")


def main() -> int:
    if isinstance(sys.stdout, io.TextIOWrapper):
        sys.stdout.reconfigure(errors="backslashreplace")
    own, engine = split_command(sys.argv[1:])
    made = parser()
    options = made.parse_intermixed_args(own)
    check(options, engine, made)
    runner = Runner(options.timeout)
    runner.stop_on_signals()
    try:
        return report_difference(options, runner) if options.differs else run(options, engine, runner)
    except MutatorMisuse as misuse:
        print(misuse, file=sys.stderr)
        return MISUSED
    except Stopped as stopped:
        return stopped.status
    except OutOfTime:
        print("teddertempo-diff: the time was over before a mutant was tried", file=sys.stderr)
        return NOTHING_RUN
    except (MutatorFailure, StoreRefusal, NoFinding) as refusal:
        print(f"teddertempo-diff: {refusal}", file=sys.stderr)
        return NOTHING_RUN
    except Exception:
        traceback.print_exc()
        return FAILED
