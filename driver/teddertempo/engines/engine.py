"""The engines: how each is run to make the calls on a module, and how its output is read."""

from __future__ import annotations

import json
import re
import struct
from dataclasses import dataclass, replace
from pathlib import Path

from ..running.processes import Finished, Runner
from ..wasm.types import Limits
from .calls import Call, calls_of
from .interface import FunctionType, GlobalType, Import, Interface, TableType, read_interface
from .outcomes import Answer, Kind, bound_or_crash, cause_of, failure_of, refusal_of
from .shim import OWNER, Shim

FILE = "@@"


@dataclass(frozen=True)
class Observation:
    """The answers of a run of a module, and what the engine wrote."""

    answers: tuple[Answer, ...]
    text: str


@dataclass(frozen=True)
class Plan:
    """The interface of a module and of its rewrites, and the calls that are made on them."""

    interface: Interface
    calls: list[Call]


def text_of(data: bytes) -> str:
    return data.decode("utf-8", "replace")


def without(finished: Finished, folder: str) -> Finished:
    """The result of a command, without the folder's name in its output."""
    name = folder.encode()
    return replace(finished, output=finished.output.replace(name, b""), errors=finished.errors.replace(name, b""))


def transcript(command: list[str], finished: Finished) -> str:
    """The output of a command, as it is kept in the folder of a finding."""
    lines = [f"$ {' '.join(command)}", text_of(finished.output), text_of(finished.errors)]
    return "\n".join(line.rstrip("\n") for line in lines if line) + f"\n[status {finished.status}]\n"


def with_host(answer: Answer, host: list[str]) -> list[Answer]:
    """The answer of a call, after the text about its calls of imports. The number of these depends on the stack if the call exhausts it:
    then they aren't compared."""
    return [answer] if answer.kind is Kind.EXHAUSTED else [*(Answer(answer.place, Kind.HOST, text) for text in host), answer]


class Engine:
    """An engine whose output and status are compared.

    `takes`: the types of values of the functions that it calls. `tells_signals`: whether a status above 128 means a signal, as in shells.
    `answers_at_once`: whether it prints each answer before it makes the next call.
    """

    name = "plain"
    takes: frozenset[str] = frozenset()
    tells_signals = True
    answers_at_once = False

    def __init__(self, command: list[str], calls_of_each: int):
        self.command = command
        self.calls_of_each = calls_of_each

    def commanded(self, file: str) -> list[str]:
        """The command for a file."""
        if any(FILE in word for word in self.command):
            return [word.replace(FILE, file) for word in self.command]
        return [*self.command, file]

    def interface_of(self, module: bytes) -> Interface:
        """The imports and exports of a module, if the engine makes calls; `Unreadable` if the module can't be read."""
        return read_interface(module) if self.takes else Interface()

    def calls(self, interface: Interface) -> list[Call]:
        return calls_of(interface, self.calls_of_each, self.takes)

    def lay_out(self, folder: Path, named: Path, module: str, plan: Plan) -> list[list[str]]:
        """Writes the files of a run, beside the module, into a folder; returns the commands, which name the folder `named`."""
        return [self.commanded(str(named / module))]

    def read(self, plan: Plan, finished: list[Finished]) -> list[Answer]:
        """The answers of a run that no bound and no crash ended."""
        last = finished[-1]
        return [failure_of(last) if last.status else Answer("status", Kind.VALUE, "0"), Answer("output", Kind.VALUE, text_of(last.output))]

    def read_cut(self, plan: Plan, finished: list[Finished]) -> list[Answer]:
        """The answers of a run that was cut short."""
        return []

    def observe(self, runner: Runner, folder: Path, module: str, plan: Plan, seconds: float | None = None) -> Observation:
        """Runs a module in a folder of its own, whose name is removed from the output."""
        done: list[Finished] = []
        texts = []
        for command in self.lay_out(folder, folder, module, plan):
            finished = without(runner.run(command, seconds), str(folder) + "/")
            texts.append(transcript(command, finished).replace(str(folder) + "/", ""))
            end = bound_or_crash(finished, self.tells_signals)
            if end:
                return Observation((*self.read_cut(plan, [*done, finished]), end), "".join(texts))
            done.append(finished)
        return Observation(tuple(self.read(plan, done)), "".join(texts))


class Node(Engine):
    """Node, which runs a script that makes the calls on one instance."""

    name = "node"
    answers_at_once = True
    takes = frozenset(("i32", "i64", "f32", "f64", "funcref", "externref"))

    def lay_out(self, folder: Path, named: Path, module: str, plan: Plan) -> list[list[str]]:
        (folder / "run.cjs").write_bytes(Path(__file__).with_name("node.cjs").read_bytes())
        (folder / "plan.json").write_text(json.dumps(self.script(plan), indent=1), encoding="utf-8")
        return [[*self.commanded(str(named / "run.cjs")), str(named / module)]]

    def script(self, plan: Plan) -> dict[str, object]:
        """The input of the script that makes the calls."""
        results = {export.name: export.type.results for export in plan.interface.functions}
        return {
            "imports": [self.import_of(item) for item in plan.interface.imports],
            "calls": [
                {"function": call.function, "results": results[call.function],
                 "arguments": [[kind, str(bits)] for kind, bits in call.arguments]} for call in plan.calls
            ],
            "looks": self.looks(plan.interface),
        }

    @staticmethod
    def import_of(item: Import) -> dict[str, object]:
        made: dict[str, object] = {"module": item.module, "name": item.name, "kind": item.kind}
        if isinstance(item.type, FunctionType):
            made.update(parameters=item.type.parameters, results=item.type.results)
        elif isinstance(item.type, GlobalType):
            made.update(value=item.type.value, mutable=item.type.mutable)
        elif isinstance(item.type, TableType):
            made.update(limits=Node.limits_of(item.type.limits), element=item.type.element)
        else:
            made.update(limits=Node.limits_of(item.type))
        return made

    @staticmethod
    def limits_of(limits: Limits) -> dict[str, object]:
        return {"least": limits.least, "most": limits.most, "shared": limits.is_shared(), "wide": limits.is_wide()}

    @staticmethod
    def looks(interface: Interface) -> list[dict[str, str]]:
        """The memories and globals that are read after the calls."""
        memories = [{"kind": "memory", "name": export.name} for export in interface.memories]
        values = [{"kind": "global", "name": export.name, "value": export.type.value} for export in interface.globals
                  if export.type.value in Node.takes]
        return memories + values

    def read(self, plan: Plan, finished: list[Finished]) -> list[Answer]:
        answers = self.read_cut(plan, finished)
        if finished[-1].status != 0 or not answers:
            return [*answers, engine_failed(finished[-1])]
        return [*answers, Answer("run", Kind.DONE)]

    def read_cut(self, plan: Plan, finished: list[Finished]) -> list[Answer]:
        looks = self.looks(plan.interface)
        places = ["instance", *map(str, plan.calls), *(f"{look['kind']} {look['name']}" for look in looks)]
        lines = [line for line in text_of(finished[-1].output).split("\n")[:-1] if line.startswith('["')]
        answers = []
        for place, line in zip(places, lines):
            word, text, *host = json.loads(line)
            answers += self.answers_of(place, word, text, host)
        return answers

    @staticmethod
    def answers_of(place: str, word: str, text: str, host: list[str]) -> list[Answer]:
        if word == "refused":
            return [refusal_of(text)]
        if word == "unlinked":
            return [Answer("module", Kind.UNLINKED, text)]
        if word == "instance":
            return [Answer(place, Kind.HOST, text)]
        if word in ("trap", "exhausted"):
            cause = cause_of(text) if word == "trap" else Answer("", Kind.EXHAUSTED)
            return with_host(Answer(place, cause.kind, cause.text), host)
        return with_host(Answer(place, Kind(word), text), host)


class Spectest(Engine):
    """wabt's spectest-interp, which runs a script in JSON. A second module returns floats by their bits, and a digest of the memory."""

    name = "spectest-interp"
    tells_signals = False
    takes = frozenset(("i32", "i64", "f32", "f64", "v128", "funcref", "externref"))

    def calls(self, interface: Interface) -> list[Call]:
        return [call for call in super().calls(interface) if self.is_plain(call.function)]

    @staticmethod
    def is_plain(name: str) -> bool:
        """Whether the script can contain a name."""
        return bool(re.fullmatch(r'[ !#-\[\]-~]+', name))

    def lay_out(self, folder: Path, named: Path, module: str, plan: Plan) -> list[list[str]]:
        shim = Shim(plan.interface)
        (folder / "shim.wasm").write_bytes(shim.module())
        script = Path(module).stem + ".json"
        commands: list[dict[str, object]] = [
            {"type": "module", "line": 0, "name": "$module", "filename": module},
            {"type": "register", "line": 0, "name": "$module", "as": OWNER},
            {"type": "module", "line": 0, "name": "$shim", "filename": "shim.wasm"},
        ]
        commands += [self.action(line, shim, call) for line, call in enumerate(plan.calls, 1)]
        commands += [self.look(name) for _, name in self.looks(shim)]
        (folder / script).write_text(json.dumps({"source_filename": "calls", "commands": commands}, indent=0), encoding="utf-8")
        return [self.commanded(str(named / script))]

    @staticmethod
    def looks(shim: Shim) -> list[tuple[tuple[str, str], str]]:
        return [(place, name) for place, name in shim.names.items() if place[0] != "function"]

    @staticmethod
    def look(name: str) -> dict[str, object]:
        return {"type": "action", "line": 0, "action": {"type": "invoke", "module": "$shim", "field": name, "args": []}, "expected": []}

    def action(self, line: int, shim: Shim, call: Call) -> dict[str, object]:
        own = shim.names.get(("function", call.function))
        action = {"type": "invoke", "module": "$shim" if own else "$module", "field": own or call.function,
                  "args": [self.argument(kind, bits) for kind, bits in call.arguments]}
        return {"type": "action", "line": line, "action": action, "expected": []}

    @staticmethod
    def argument(kind: str, bits: int) -> dict[str, object]:
        if kind == "v128":
            return {"type": kind, "lane_type": "i32", "value": [str(bits >> 32 * lane & 0xFFFFFFFF) for lane in range(4)]}
        return {"type": kind, "value": str(bits) if kind in ("i32", "i64", "f32", "f64") else "null"}

    def read(self, plan: Plan, finished: list[Finished]) -> list[Answer]:
        whole = re.search(r"^\d+/\d+ tests passed\.$", text_of(finished[-1].output), re.M)
        return [*self.read_cut(plan, finished), Answer("run", Kind.DONE) if whole else engine_failed(finished[-1])]

    def read_cut(self, plan: Plan, finished: list[Finished]) -> list[Answer]:
        output = text_of(finished[-1].output)
        failed = re.search(r"error (reading|instantiating) module: \"(.*)\"", output)
        if failed:
            return [self.refusal(failed.group(1), failed.group(2), text_of(finished[-1].errors))]
        asked = iter(self.asked(plan))
        answers: list[Answer] = []
        host: list[str] = []
        for line in output.split("\n")[:-1]:
            if line.startswith("called host "):
                host.append(line[len("called host "):].replace("-nan", "nan"))
            elif " =>" in line and (question := next(asked, None)):
                place, kind, kinds = question
                answer = self.answer_of(place, kind, kinds, line.split(" =>", 1)[1].strip())
                answers += with_host(answer, ["; ".join(host)] if host else [])
                host = []
        return answers

    def asked(self, plan: Plan) -> list[tuple[str, Kind, tuple[str, ...]]]:
        """The questions of the script, in their order: the place, the kind of the answer, and its types."""
        results = {export.name: export.type.results for export in plan.interface.functions}
        asked = [(str(call), Kind.VALUE, results[call.function]) for call in plan.calls]
        values = {export.name: export.type.value for export in plan.interface.globals}
        looks = [place for place, _ in self.looks(Shim(plan.interface))]
        return asked + [(f"{kind} {name}", Kind(kind), (values[name] if kind == "global" else "i64",)) for kind, name in looks]

    @staticmethod
    def refusal(what: str, message: str, errors: str) -> Answer:
        """The answer if there is no instance: the module can't be read or linked, or its start function traps."""
        if what == "reading":
            return refusal_of(errors or message)
        if re.search(r"\bimport\b", message):
            return Answer("module", Kind.UNLINKED, message)
        cause = cause_of(message)
        return Answer("instance", cause.kind, cause.text)

    @staticmethod
    def answer_of(place: str, kind: Kind, kinds: tuple[str, ...], text: str) -> Answer:
        if text.startswith("error: "):
            cause = cause_of(text)
            return Answer(place, cause.kind, cause.text)
        text = re.sub(r"\b(funcref|externref):[1-9]\d*", r"\1:some", text)
        return Answer(place, kind, " ".join(exact(kind, word) for kind, word in zip(kinds, text.split(", "))))


def engine_failed(finished: Finished) -> Answer:
    """The end of a run in which the engine itself failed."""
    lines = text_of(finished.errors or finished.output).strip().split("\n")
    return Answer("run", Kind.FAILED, f"status {finished.status}: {lines[0][:200]}")


def exact(kind: str, word: str) -> str:
    """A value as it was printed. A float was printed by its bits; all NaNs are written the same."""
    if kind not in ("f32", "f64"):
        return word
    bits = int(word.split(":")[1])
    value = struct.unpack("<f" if kind == "f32" else "<d", bits.to_bytes(4 if kind == "f32" else 8, "little"))[0]
    return f"{kind}:nan" if value != value else f"{kind}:{bits:#x}"


class Invoking(Engine):
    """An engine that makes one call on a new instance: one run for each call."""

    takes = frozenset(("i32", "i64", "f32", "f64"))

    def calls(self, interface: Interface) -> list[Call]:
        """The calls of functions whose names can be on a command line."""
        return [call for call in super().calls(interface) if "\0" not in call.function and not call.function.startswith("-")]

    def words(self, call: Call) -> tuple[list[str], list[str]]:
        """The words before the file, and those after it."""
        raise NotImplementedError

    def lay_out(self, folder: Path, named: Path, module: str, plan: Plan) -> list[list[str]]:
        command = self.commanded(str(named / module))
        place = next((place for place, word in enumerate(self.command) if FILE in word), len(self.command))
        commands = []
        for before, after in map(self.words, plan.calls):
            commands.append([*command[:place], *before, command[place], *after, *command[place + 1 :]])
        return commands

    def read(self, plan: Plan, finished: list[Finished]) -> list[Answer]:
        return [*self.read_cut(plan, finished), Answer("run", Kind.DONE)]

    def read_cut(self, plan: Plan, finished: list[Finished]) -> list[Answer]:
        return [self.answer_of(str(call), run) for call, run in zip(plan.calls, finished) if not bound_or_crash(run, self.tells_signals)]

    @staticmethod
    def answer_of(place: str, finished: Finished) -> Answer:
        if finished.status == 0:
            return Answer(place, Kind.VALUE, re.sub(r"-?\bnan\b", "nan", text_of(finished.output).strip(), flags=re.I))
        failure = failure_of(finished)
        return failure if failure.place == "module" else replace(failure, place=place)


def decimal(kind: str, bits: int) -> str:
    """An argument for a command line: integers with a sign, floats with all their digits."""
    if kind in ("i32", "i64"):
        width = 32 if kind == "i32" else 64
        return str(bits - (1 << width) if bits >> (width - 1) else bits)
    value = struct.unpack("<f" if kind == "f32" else "<d", bits.to_bytes(4 if kind == "f32" else 8, "little"))[0]
    return repr(value)


class Wasmtime(Invoking):
    """wasmtime, by its documentation: `wasmtime run --invoke NAME FILE ARGUMENTS`."""

    name = "wasmtime"

    def words(self, call: Call) -> tuple[list[str], list[str]]:
        return ["--invoke", call.function], [decimal(kind, bits) for kind, bits in call.arguments]


class Wasmer(Invoking):
    """wasmer, by its documentation: `wasmer run FILE --invoke NAME ARGUMENTS`."""

    name = "wasmer"

    def words(self, call: Call) -> tuple[list[str], list[str]]:
        return [], ["--invoke", call.function, "--", *(decimal(kind, bits) for kind, bits in call.arguments)]


ENGINES = {engine.name: engine for engine in (Node, Spectest, Wasmtime, Wasmer, Engine)}


def engine_of(command: list[str], name: str | None, calls_of_each: int) -> Engine:
    """The engine of a command: the one that is named, else the one of the program's name, else one whose output is compared."""
    program = re.sub(r"(\.exe|[-\d.]+)$", "", Path(command[0]).name)
    return ENGINES.get(name or ("node" if program == "nodejs" else program), Engine)(command, calls_of_each)
