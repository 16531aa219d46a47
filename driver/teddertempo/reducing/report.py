"""What is told of a reduction: on a terminal how far it is, else a line a pass that changed something; and a report as JSON."""

from __future__ import annotations

import json
import sys
import time
from pathlib import Path

from ..terminal import print_text
from .judge import Judge, Verdict
from .output import Output
from .search import Candidate, Listener, PassReport, Search

# A line on a terminal is written anew once in so many seconds.
PACE = 1.0


class Reporter(Listener):
    """Tells of a reduction on standard error, and keeps the best module."""

    def __init__(self, output: Output, judge: Judge, quiet: bool):
        self.output = output
        self.judge = judge
        self.quiet = quiet
        self.is_terminal = sys.stderr.isatty()
        self.began = self.told = time.monotonic()
        self.accepted: dict[str, int] = {}

    def note(self, text: str) -> None:
        """Says something that is to be known."""
        if not self.quiet:
            self.clear()
            print(f"teddertempo-reduce: {text}", file=sys.stderr)

    def improved(self, best: Candidate) -> None:
        self.output.keep(best.data())

    def tried(self, report: PassReport, best: Candidate) -> None:
        now = time.monotonic()
        if self.is_terminal and not self.quiet and now - self.told >= PACE:
            self.told = now
            sys.stderr.write(f"\r{self.line(report, best)}\033[K")
            sys.stderr.flush()

    def passed(self, report: PassReport, best: Candidate) -> None:
        if report.accepted > self.accepted.get(report.name, 0) and not self.is_terminal and not self.quiet:
            print(self.line(report, best), file=sys.stderr)
        self.accepted[report.name] = report.accepted

    def line(self, report: PassReport, best: Candidate) -> str:
        seconds = time.monotonic() - self.began
        return f"{report.name}: {best.size[0]:,} bytes, {self.judge.runs:,} runs, {seconds:.0f} s"

    def clear(self) -> None:
        if self.is_terminal and not self.quiet:
            sys.stderr.write("\r\033[K")
            sys.stderr.flush()

    def end(self, before: int, search: Search, stopped: str | None) -> None:
        """Tells what the reduction came to."""
        if not self.quiet:
            self.clear()
            told = f" (stopped: {stopped})" if stopped else ""
            print(f"{before:,} bytes became {search.best.size[0]:,} in {self.judge.runs:,} runs{told}", file=sys.stderr)

    def report(self, before: int, search: Search, stopped: str | None) -> dict[str, object]:
        """The same as JSON has it."""
        return {
            "before": before,
            "after": search.best.size[0],
            "operators": search.best.size[1],
            "runs": self.judge.runs,
            "known": self.judge.known,
            "rounds": search.rounds,
            "seconds": round(time.monotonic() - self.began, 3),
            "stopped": stopped,
            "passes": [passed(report) for report in search.reports.values()],
        }


def passed(report: PassReport) -> dict[str, object]:
    verdicts = {verdict.value: report.verdicts[verdict] for verdict in Verdict}
    return {"name": report.name, "accepted": report.accepted, "bytes": report.bytes, "seconds": round(report.seconds, 3), **verdicts}


def write_report(report: dict[str, object], file: str) -> None:
    text = json.dumps(report, indent=1) + "\n"
    if file == "-":
        print_text(text)
    else:
        Path(file).write_text(text, encoding="utf-8")
