"""The answers of a run of an engine, in classes, and the first difference between those of a module and of its rewrite."""

from __future__ import annotations

import enum
import re
import signal
from dataclasses import dataclass, replace
from itertools import zip_longest

from ..running.processes import Finished


class Kind(enum.Enum):
    """The class of an answer, or of the end of a run."""

    VALUE = "value"
    TRAP = "trap"
    MEMORY = "memory"
    GLOBAL = "global"
    HOST = "calls of imports"
    EXHAUSTED = "exhausted"
    TIME = "out of time"
    OUTPUT = "too much output"
    LIMIT = "refused for a limit"
    CRASH = "crash"
    REFUSED = "refused"
    UNLINKED = "not linked"
    FAILED = "engine failed"
    DONE = "done"


# The results of bounds of an engine or of a run: a rewritten module may use more or less of what is bounded.
BOUNDS = frozenset((Kind.EXHAUSTED, Kind.TIME, Kind.OUTPUT, Kind.LIMIT))

# The results that end a run, so that no answer follows.
ENDS = BOUNDS | frozenset((Kind.CRASH, Kind.REFUSED, Kind.UNLINKED, Kind.FAILED))

CRASH_SIGNALS = frozenset((signal.SIGSEGV, signal.SIGABRT, signal.SIGBUS, signal.SIGILL, signal.SIGFPE, signal.SIGTRAP, signal.SIGSYS))

CRASH_TEXT = re.compile(rb"(Address|Memory|Thread|UndefinedBehavior)Sanitizer|# Fatal error in|Assertion .* failed")

# A panic of a program in Rust; with another status it may be the module's own.
PANIC_TEXT, PANIC_STATUS = re.compile(rb"panicked at"), 101

MEMORY_TEXT = re.compile(rb"out of memory|bad_alloc|memory allocation of \d+ bytes failed", re.I)

EXHAUSTED_TEXT = re.compile(
    r"call stack exhausted|stack overflow|maximum call stack|too much recursion|fuel consumed|out of (fuel|gas)", re.I)

LIMIT_TEXT = re.compile(
    r"\bexceed|too (many|large|deep|big|long)|\blimit|nesting|out of memory|cannot allocate|could not allocate|allocation failed", re.I)

REFUSED_TEXT = re.compile(
    r"CompileError|failed to (compile|parse|validate)|validation (error|failed)|invalid module|malformed|(?<!call )type mismatch"
    r"|translation error", re.I)

UNLINKED_TEXT = re.compile(r"unknown import|LinkError|failed to instantiate", re.I)

# The causes of traps, as the engines name them.
CAUSES = (
    ("unreachable", r"unreachable"),
    ("division by zero", r"(divi\w*|remainder|modulo) by zero"),
    ("integer overflow", r"integer overflow|divide result unrepresentable"),
    ("conversion to an integer", r"unrepresentable in integer|invalid conversion to integer"),
    ("memory out of bounds", r"memory access out of bounds|out of bounds memory|memory\.\w+ out of bounds|unaligned|data segment"),
    ("indirect call", r"signature mismatch|indirect call type|uninitialized element|uninitialized table|undefined element|null function"),
    ("table out of bounds", r"table.*out of bounds|out of bounds table|undefined table|element segment"),
    ("null reference", r"null (reference|pointer|struct|array|i31)"),
    ("cast", r"illegal cast|cast failure"),
    ("array out of bounds", r"array.*out of bounds|out of bounds array"),
    ("exception", r"exception|uncaught"),
)


@dataclass(frozen=True)
class Answer:
    """The result of a call, or the value of a memory or a global after the calls; `place` names it."""

    place: str
    kind: Kind
    text: str = ""

    def __str__(self) -> str:
        return f"{self.place}: {self.kind.value if self.kind is not Kind.VALUE else ''} {self.text}".replace(":  ", ": ").rstrip()


@dataclass(frozen=True)
class Difference:
    """The first difference of two runs: the answer of the original, the answer of the rewrite, and the class of the difference."""

    original: Answer
    rewrite: Answer
    kind: str


def known_cause(message: str) -> Answer | None:
    """The answer of a call that ended with a known message: a trap by its cause, or an exhaustion."""
    if EXHAUSTED_TEXT.search(message):
        return Answer("", Kind.EXHAUSTED)
    return next((Answer("", Kind.TRAP, cause) for cause, pattern in CAUSES if re.search(pattern, message, re.I)), None)


def cause_of(message: str) -> Answer:
    """As `known_cause`, for any message; an unknown one is the cause itself, without its numbers."""
    return known_cause(message) or Answer("", Kind.TRAP, re.sub(r"0x[0-9a-f]+|\d+", "N", message.strip()[:200], flags=re.I))


def refusal_of(message: str) -> Answer:
    """The end of a run whose module was rejected with a message."""
    kind = Kind.LIMIT if LIMIT_TEXT.search(message) else Kind.REFUSED
    return Answer("module", kind, message.strip()[:200])


def bound_or_crash(finished: Finished, tells_signals: bool) -> Answer | None:
    """The end of a run by a bound or a crash, if there is one. Statuses above 128 may mean signals, as in shells."""
    if finished.out_of_time:
        return Answer("run", Kind.TIME)
    if finished.too_much_output:
        return Answer("run", Kind.OUTPUT)
    number = -finished.status if finished.status < 0 else finished.status - 128 if tells_signals else 0
    ended = number in CRASH_SIGNALS and b"wasm trap:" not in finished.errors
    if number == signal.SIGKILL or (ended and MEMORY_TEXT.search(finished.errors)):
        return Answer("run", Kind.LIMIT, "out of memory, or ended by the system")
    if ended:
        return Answer("run", Kind.CRASH, signal.Signals(number).name)
    if CRASH_TEXT.search(finished.errors) or (finished.status == PANIC_STATUS and PANIC_TEXT.search(finished.errors)):
        return Answer("run", Kind.CRASH, "reported by the engine")
    return None


def failure_of(finished: Finished) -> Answer:
    """The meaning of a status other than 0, by the output: a refusal, an exhaustion, a trap, or a module that isn't linked."""
    errors = finished.errors.decode("utf-8", "replace")
    if REFUSED_TEXT.search(errors):
        return refusal_of(errors)
    if UNLINKED_TEXT.search(errors):
        return Answer("module", Kind.UNLINKED, errors.strip()[:200])
    cause = known_cause(errors + finished.output.decode("utf-8", "replace"))
    if cause is None and LIMIT_TEXT.search(errors):
        return refusal_of(errors)
    cause = cause or cause_of(errors)
    return Answer("status", cause.kind, f"{finished.status}, {cause.text}" if cause.text else str(finished.status))


def class_of(original: Answer, rewrite: Answer) -> str:
    """The class of a difference between two answers."""
    for answer in (rewrite, original):
        if answer.kind in ENDS or answer.kind is Kind.HOST:
            return answer.kind.value
    if original.kind is not rewrite.kind and Kind.TRAP in (original.kind, rewrite.kind):
        return "trap"
    return "cause of a trap" if original.kind is Kind.TRAP else str(original.kind.value)


def difference_of(original: tuple[Answer, ...], rewrite: tuple[Answer, ...], strict: bool) -> Difference | None:
    """The first difference, if there is one. Unless `strict`, nothing after a bound of either run is compared."""
    missing = Answer("run", Kind.DONE)
    for before, after in zip_longest(original, rewrite, fillvalue=missing):
        if before == after and before.kind not in BOUNDS:
            continue
        if not strict and (before.kind in BOUNDS or after.kind in BOUNDS):
            return None
        if before != after:
            return Difference(brief(before, after), brief(after, before), class_of(before, after))
    return None


def brief(answer: Answer, other: Answer) -> Answer:
    """An answer by the first line in which it differs from another one, in printable characters."""
    pairs = zip_longest(answer.text.split("\n"), other.text.split("\n"), fillvalue="")
    line = next((str(own) for own, others in pairs if own != others), answer.text)
    return replace(answer, text="".join(c if c.isprintable() else "?" for c in line[:200]))
