"""Reports of a run: its progress, each finding, and a summary by rule; for people, or as JSON, one object a line."""

from __future__ import annotations

import json
import sys
import time
from collections import Counter
from dataclasses import asdict
from pathlib import Path

from ..running.campaign import Listener, Progress, Summary
from ..terminal import print_text
from .reduction import Reduced
from .store import Finding

# The line on a terminal is updated at most once in that many seconds.
PACE = 0.2


class Reporter(Listener):
    """Reports a run on standard output, and its progress on a terminal."""

    def __init__(self, as_json: bool, quiet: bool):
        self.as_json = as_json
        self.quiet = quiet
        self.shows_progress = not quiet and sys.stderr.isatty()
        self.told = 0.0
        self.began = time.monotonic()

    def tell(self, progress: Progress) -> None:
        """Writes the progress over the line that was written before."""
        now = time.monotonic()
        if self.shows_progress and now - self.told >= PACE:
            self.told = now
            sys.stderr.write(f"\r{line_of(progress)}, {now - self.began:.0f} s\033[K")
            sys.stderr.flush()

    def clear(self) -> None:
        if self.shows_progress:
            sys.stderr.write("\r\033[K")
            sys.stderr.flush()

    def found(self, finding: Finding, folder: Path) -> None:
        self.clear()
        if self.as_json:
            self.say(json.dumps({"finding": asdict(finding), "folder": str(folder)}))
        else:
            self.say(f"{finding.rule} ({finding.kind}): {finding.module}, seed {finding.seed}, rewrite {finding.count}",
                     f"  before  {finding.before}", f"  after   {finding.after}", f"  in {folder}")

    def reduced(self, finding: Finding, reduced: Reduced) -> None:
        """Reports the reduction of a finding."""
        self.clear()
        if self.as_json:
            self.say(json.dumps({"reduced": finding.name(), **asdict(reduced)}))
        elif reduced.trouble:
            self.say(f"{finding.name()} isn't reduced: {reduced.trouble}")
        else:
            self.say(f"{finding.name()} reduced from {reduced.before:,} bytes to {reduced.after:,}", f"  {reduced.command}")

    def say(self, *lines: str) -> None:
        print_text("".join(line + "\n" for line in lines))

    def end(self, summary: Summary) -> None:
        """Reports the result of the run."""
        self.clear()
        if self.as_json:
            self.say(json.dumps({"summary": summary_of(summary)}))
            return
        for module, reason in summary.skipped.items():
            print(f"{module}: not tried: {reason}", file=sys.stderr)
        if not self.quiet:
            self.say(*lines_of(summary))


def line_of(progress: Progress) -> str:
    """The progress in a line. How many mutants there are is known once all modules were examined."""
    if progress.modules < progress.all_modules:
        parts = [f"{progress.modules:,} of {progress.all_modules:,} modules examined", f"{progress.mutants:,} mutants"]
    else:
        parts = [f"{progress.mutants:,} of {progress.all_mutants:,} mutants"]
    return ", ".join([*parts, f"{progress.findings} found"])


def summary_of(summary: Summary) -> dict[str, object]:
    """The summary for JSON."""
    return {
        "modules": summary.modules,
        "not tried": summary.skipped,
        "not examined": summary.unexamined,
        "mutants": dict(summary.outcomes),
        "by rule": [{"rule": rule, "class": kind, "mutants": number} for (rule, kind), number in counts_of(summary).items()],
        "not traced": summary.untraced,
        "runs": summary.runs,
        "seconds": round(summary.seconds, 1),
        "stopped": summary.stopped,
        "trouble": summary.trouble,
    }


def counts_of(summary: Summary) -> Counter[tuple[str, str]]:
    """How many mutants differ by each rule, by class."""
    counts = Counter((finding.rule, finding.kind) for finding, _ in summary.findings)
    counts.update(summary.again)
    return counts


def lines_of(summary: Summary) -> list[str]:
    mutants = sum(summary.outcomes.values())
    kinds = ", ".join(f"{number:,} {outcome}" for outcome, number in sorted(summary.outcomes.items()))
    lines = [f"{counted(summary.modules, 'module')}, {counted(mutants, 'mutant')}" + (f": {kinds}" if kinds else "")]
    if summary.failing:
        lines.append(f"  {counted(summary.failing, 'module')} with a failure of its own, which its mutants must have too")
    if summary.unexamined:
        lines.append(f"  {counted(summary.unexamined, 'module')} not examined before the run ended")
    lines += [f"  {rule} ({kind}): {counted(number, 'mutant')}" for (rule, kind), number in sorted(counts_of(summary).items())]
    if summary.untraced:
        lines.append(f"  {counted(summary.untraced, 'difference')} not traced before the run ended: --continue tries the mutant again")
    lines.append(f"{counted(summary.runs, 'run')} in {summary.seconds:.0f} s")
    if summary.trouble:
        lines.append(f"ended early: {summary.trouble}")
    return lines + (["stopped: --continue continues the run"] if summary.stopped else [])


def counted(number: int, thing: str) -> str:
    return f"{number:,} {thing}" + ("" if number == 1 else "s")
