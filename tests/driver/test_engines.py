"""Engines that are asked to make calls: node and spectest-interp, if they are on the path."""

from __future__ import annotations

import json
import shutil
import subprocess
from pathlib import Path

import pytest
from support import TOP, Driver, lines_of, module_of, sum_with

from teddertempo.engines.calls import Call
from teddertempo.engines.engine import Node, Plan, Spectest, engine_of
from teddertempo.engines.interface import FunctionExport, FunctionType, Interface, read_interface
from teddertempo.engines.outcomes import Answer, Kind, difference_of
from teddertempo.running.processes import Finished, Runner

NOT_A_NUMBER = b"\x43" + (0x7FC00001).to_bytes(4, "little") + b"\x43\0\0\0\0\x92"

# Modules that meet bounds: one has a function that never ends and one that calls itself for ever; one exports nothing.
OWN_MODULES = {
    "bounds": module_of([("for_ever", (), (), b"\x03\x40\x0c\x00\x0b"), ("deeper", ("i32",), ("i32",), b"\x20\x00\x10\x01"), sum_with(5)]),
    "no number": module_of([("no_number", (), ("f32",), NOT_A_NUMBER), sum_with(7)]),
    "silent": module_of([sum_with(9)], are_exported=False),
}


@pytest.fixture(params=("node", "spectest-interp"))
def engine(request: pytest.FixtureRequest) -> str:
    name = str(request.param)
    if not shutil.which(name):
        pytest.skip(f"no {name} on the path")
    return name


def answers_to(engine: str, folder: Path, module: bytes) -> tuple[Answer, ...]:
    """What an engine answers to the calls on a module."""
    asked = engine_of([engine], None, 14)
    folder.mkdir()
    (folder / "m.wasm").write_bytes(module)
    interface = read_interface(module)
    return asked.observe(Runner(60), folder, "m.wasm", Plan(interface, asked.calls(interface))).answers


def test_calls_are_made(engine: str, folder: Path) -> None:
    """Another result is found at its call, and floats are compared by their bits."""
    identity = "first", ("f64",), ("f64",), b"\x20\x00"
    five, six = (answers_to(engine, folder / str(own), module_of([identity, sum_with(own)])) for own in (5, 6))
    found = difference_of(five, six, False)
    assert found
    assert (found.kind, found.original.place, found.original.text, found.rewrite.text) == ("value", "sum(i32:1)", "i32:6", "i32:7")
    values = {answer.place: answer.text for answer in five if answer.kind is Kind.VALUE}
    assert values["first(f64:0x3ff0000000000000)"] == "f64:0x3ff0000000000000"
    assert values["first(f64:0x7ff8000000000000)"] == "f64:nan"


def test_no_difference(driver: Driver, engine: str) -> None:
    folder = driver.folder / "modules"
    folder.mkdir()
    for name, data in OWN_MODULES.items():
        (folder / f"{name}.wasm").write_bytes(data)
    for name in ("numbers", "mixes", "hashes"):
        shutil.copyfile(TOP / f"tests/modules/{name}.wasm", folder / f"{name}.wasm")
    done, output = driver.run([folder], [engine], "--seeds", "4", "--dose", "30%", "--timeout", "30", "--json")
    assert done.returncode == 0, (done.stdout, done.stderr)
    assert lines_of(done.stdout)[-1]["summary"]["modules"] == 6
    tried = [json.loads(line) for line in (output / "tried.jsonl").read_text().splitlines()]
    assert [entry for entry in tried if entry["outcome"] != "same"] == []
    assert len(tried) == 24


def test_many_traps(driver: Driver) -> None:
    """A status that counts calls that trap isn't that of a signal: 134 of them."""
    if not shutil.which("spectest-interp"):
        pytest.skip("no spectest-interp on the path")
    traps = [(f"trap_{place}", (), (), b"\x00") for place in range(67)]
    module = driver.folder / "m.wasm"
    module.write_bytes(module_of([*traps, sum_with(3)]))
    done, _ = driver.run([module], ["spectest-interp"], "--seeds", "2", "--json")
    assert lines_of(done.stdout)[-1]["summary"]["mutants"] == {"same": 2}


# A recursion whose calls call an import, and the same with larger frames and twice as many: deeper than the stack of either engine.
DEEP = """(module
  (import "spectest" "print_i32" (func $log (param i32)))
  (func $deeper (param i32) {locals}
    (call $log (local.get 0))
    (if (local.get 0) (then (call ${next} (i32.sub (local.get 0) (i32.const 1))))))
  (func $between (param i32) (call $deeper (local.get 0)))
  (func (export "deep") (call $deeper (i32.const 1500))))
"""


def test_an_exhausted_stack_is_no_difference(engine: str, folder: Path) -> None:
    """How often an import was called before the stack was exhausted isn't compared."""
    answers = []
    for name, place, locals in (("shallow", "deeper", ""), ("deep", "between", f"(local{' i64' * 5000})")):
        source, module = folder / f"{name}.wat", folder / f"{name}.wasm"
        source.write_text(DEEP.format(next=place, locals=locals))
        subprocess.run(["wat2wasm", str(source), "-o", str(module)], check=True)
        answers.append(answers_to(engine, folder / name, module.read_bytes()))
    shallow, deep = answers
    assert [answer.kind for answer in shallow if answer.place == "deep()"] == [Kind.HOST, Kind.VALUE] * 2
    assert [answer.kind for answer in deep if answer.place == "deep()"] == [Kind.EXHAUSTED] * 2
    assert difference_of(shallow, deep, False) is None and difference_of(deep, shallow, False) is None


def test_calls_of_imports_are_noted_unless_the_stack_is_exhausted() -> None:
    assert Node.answers_of("f()", "value", "i32:1", ["2 ab"]) == [Answer("f()", Kind.HOST, "2 ab"), Answer("f()", Kind.VALUE, "i32:1")]
    assert Node.answers_of("f()", "trap", "unreachable", ["2 ab"]) == [Answer("f()", Kind.HOST, "2 ab"), Answer("f()", Kind.TRAP, "unreachable")]
    for word, text in (("exhausted", ""), ("trap", "RuntimeError: stack overflow")):
        assert Node.answers_of("f()", word, text, ["2 ab"]) == [Answer("f()", Kind.EXHAUSTED)]
    call = Call("f", ())
    plan = Plan(Interface(functions=(FunctionExport("f", FunctionType((), ())),)), [call, call])
    printed = b"called host spectest.print() =>\nf() =>\ncalled host spectest.print() =>\nf() => error: call stack exhausted\n"
    answers = Spectest(["spectest-interp"], 1).read_cut(plan, [Finished(0, printed, b"")])
    assert answers == [Answer("f()", Kind.HOST, "spectest.print() =>"), Answer("f()", Kind.VALUE), Answer("f()", Kind.EXHAUSTED)]
