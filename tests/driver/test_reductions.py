"""What the reducer leaves of modules, for predicates on operators, exports and bytes."""

from __future__ import annotations

import json
import subprocess
from dataclasses import dataclass
from pathlib import Path

import pytest
from support import Reducer
from test_modules import OF_2022

from teddertempo.wasm.reading import read_module


@dataclass(frozen=True)
class Row:
    """A predicate in the shell's words, on `$1`, and how many bytes are left at most."""

    what: str
    predicate: str
    most: int
    options: tuple[str, ...] = ()

    def __str__(self) -> str:
        return self.what


ROWS = (
    Row("anything", "true", 8),
    Row("an operator", "wasm-objdump -d $1 | grep -q i32.rotl", 35),
    Row("an export", "wasm-objdump -x $1 | grep -q '<wanted>'", 40),
    Row("bytes of a valid module", "wasm-validate $1 && xxd -p $1 | tr -d '\\n' | grep -q 412a", 31),
    Row("a call", "wasm-objdump -d $1 | grep -q 'call'", 40),
    Row("a memory", "wasm-objdump -x $1 | grep -q '^Memory'", 13),
    Row("data", "grep -q letters $1", 38),
    Row("a constant in a loop", "wasm-objdump -d $1 | sed -n '/loop/,/end/p' | grep -q 'i32.const 42'", 35),
    Row("an operator without a validator", "wasm-objdump -d $1 | grep -q i32.rotl", 34, ("--no-validator",)),
    Row("names", "grep -q helper $1", 60, ("--keep-names",)),
)


@pytest.mark.parametrize("row", ROWS, ids=str)
def test_row(reducer: Reducer, small: Path, row: Row) -> None:
    predicate = str(reducer.predicate(row.predicate))
    done = reducer.run(small, [predicate], *row.options)
    assert done.returncode == 0, done.stderr
    assert reducer.output.stat().st_size <= row.most, done.stderr
    assert subprocess.run([predicate, str(reducer.output)], capture_output=True).returncode == 0


GLOBAL = "(global $g (mut i32) (i32.const 0))"
ROTATION = "(i32.rotl (local.get 0) (i32.const 3))"
HEAD = "0061736d01000000"
NO_RESULT, ONE_RESULT = "01040160000003020100", "0105016000017f03020100"  # a function's type and its index


@dataclass(frozen=True)
class Exact:
    """A module, operators that are looked for, and what is left: its first sections, and its code, which were written by hand."""

    what: str
    source: str
    operators: tuple[str, ...]
    sections: str
    code: str

    def __str__(self) -> str:
        return self.what


EXACT = (
    Exact("a store becomes a drop", f'(memory 1) (func (export "e") (param i32) (i32.store offset=4 (i32.const 8) {ROTATION}))',
          ("i32.rotl",), NO_RESULT, "0a0a01080041004100771a0b"),
    Exact("a value takes the place of a constant below it",
          f'{GLOBAL} (func (export "e") (param i32) (result i32) i32.const 5 (global.set $g {ROTATION}))',
          ("i32.rotl",), ONE_RESULT, "0a0901070041004100770b"),
    Exact("a value takes the place of a later constant",
          f'{GLOBAL} (func (export "e") (param i32) (result i32) (global.set $g {ROTATION}) nop (i32.const 5))',
          ("i32.rotl", "nop"), ONE_RESULT, "0a0a0108004100410077010b"),
    Exact("a constant and a distant global.set go", f'{GLOBAL} (func (export "e") i32.const 5 nop global.set $g)',
          ("nop",), NO_RESULT, "0a05010300010b"),
)


@pytest.mark.parametrize("row", EXACT, ids=str)
def test_operators_on_the_stack(reducer: Reducer, row: Exact) -> None:
    module = reducer.compiled("stack", f"(module {row.source})")
    operators = " && ".join(f"grep -q ' {operator}' <<< $text" for operator in row.operators)
    done, left = reducer.reduced(module, f"text=$(wasm-objdump -d $1) && {operators}")
    assert done.returncode == 0 and left.hex() == HEAD + row.sections + row.code, (left.hex(), done.stderr)


@pytest.mark.parametrize("seed", range(2))
def test_all_sections(reducer: Reducer, all_sections: Path, seed: int) -> None:
    """A module with all sections: what is left of it is valid whatever the predicate accepts, here by the bytes' digest."""
    script = f"""[ {all_sections.stat().st_size} -eq $(stat -c %s $1) ] && exit
wasm-validate --enable-all $1 || exit 1; test $(( 0x$(cat $1 - <<< {seed} | md5sum | cut -c 1-4) % 3 )) -ne 0"""
    done, _ = reducer.reduced(all_sections, script, "--json", "-")
    assert done.returncode == 0, done.stderr
    report = json.loads(done.stdout)
    assert subprocess.run(["wasm-validate", "--enable-all", str(reducer.output)], capture_output=True).returncode == 0
    assert report["after"] < report["before"] / 2


def test_names_stay(reducer: Reducer, small: Path) -> None:
    done, left = reducer.reduced(small, "wasm-objdump -x $1 | grep -q 'func.*<wanted>' && grep -q letters $1", "--keep-names")
    assert done.returncode == 0 and b"\x04name" in left, done.stderr


def test_names_are_of_what_is_left(reducer: Reducer) -> None:
    """With --keep-names each function that is left keeps its name."""
    named = reducer.compiled("named", '(module (func $gone) (func $kept (export "e") (drop (i32.const 42))) (func $called (call $kept)))')
    done, left = reducer.reduced(named, "wasm-objdump -d $1 | grep -q 'i32.const 42'", "--keep-names")
    assert b"kept" in left and b"gone" not in left, done.stderr


def test_unknown_operator(reducer: Reducer, small: Path) -> None:
    """What can't be decoded is left unchanged, and so is what has an index."""
    data = read_module(small.read_bytes()).encoded
    broken = reducer.folder / "broken.wasm"
    broken.write_bytes(data.replace(b"\xa0\x0b", b"\xff\x0b"))
    done, left = reducer.reduced(broken, "xxd -p $1 | tr -d '\\n' | grep -q ff0b")
    assert done.returncode == 0 and len(left) < len(data), done.stderr
    assert "can be decoded" in done.stderr and "doesn't accept the module itself" in done.stderr


def test_unknown_section(reducer: Reducer, small: Path) -> None:
    section = reducer.folder / "section.wasm"
    section.write_bytes(read_module(small.read_bytes()).encoded + b"\x7e\x02hi")
    done, left = reducer.reduced(section, "grep -q hi $1")
    assert done.returncode == 0 and left.endswith(b"\x7e\x02hi"), done.stderr


def test_encoding_of_2022(reducer: Reducer) -> None:
    """What 3.0 reads otherwise stays as it is, with a note; the rest becomes smaller."""
    module = reducer.folder / "2022.wasm"
    module.write_bytes(OF_2022)
    done, left = reducer.reduced(module, "xxd -p $1 | tr -d '\\n' | grep -q 0701016c0141050b", "--no-validator")
    assert done.returncode == 0 and bytes.fromhex("0701016c0141050b") in left and len(left) < len(OF_2022), done.stderr
    assert "encoding of 2022" in done.stderr
