"""The decoder and the encoder of modules, and what is computed from a decoded module."""

from __future__ import annotations

import shutil
import subprocess
from pathlib import Path

import pytest
from sources import ALL, SMALL
from support import MODULES, TOP, Reducer

from teddertempo.engines.interface import FunctionType, GlobalType, TableType, read_interface
from teddertempo.reducing.indices import Reach, Visitor, counts_of, renumbered
from teddertempo.reducing.units import units_of
from teddertempo.wasm.binary import Reader, Unreadable
from teddertempo.wasm.immediates import Space
from teddertempo.wasm.module import Module
from teddertempo.wasm.operators import FORMS, read_body
from teddertempo.wasm.reading import read_module
from teddertempo.wasm.types import Limits

NAMES = [str(file.relative_to(TOP / "tests/modules")) for file in MODULES]


@pytest.fixture(params=(*NAMES, "all", "small"))
def file(request: pytest.FixtureRequest, folder: Path) -> Path:
    """A module of tests/modules, or one of these tests."""
    if request.param in NAMES:
        return TOP / "tests/modules" / str(request.param)
    return Reducer(folder).compiled(request.param, {"all": ALL, "small": SMALL}[request.param])


def text_of(file: Path) -> str:
    return subprocess.run(["wasm2wat", "--enable-all", "--no-check", str(file)], capture_output=True, text=True).stdout


def test_round_trip(file: Path, folder: Path) -> None:
    """A module is the same after decoding and encoding: by its bytes if these are the least, else by its text."""
    data = file.read_bytes()
    module = read_module(data)
    assert module.is_whole()
    assert read_module(module.encoded).encoded == module.encoded
    assert len(module.encoded) <= len(data)
    if module.encoded != data:
        made = folder / "made.wasm"
        made.write_bytes(module.encoded)
        assert shutil.which("wasm2wat") and text_of(file)
        assert text_of(made) == text_of(file)


def test_units_nest(file: Path) -> None:
    module = read_module(file.read_bytes())
    assert all(unit.first <= unit.last for function in module.functions for unit in units_of(module.context, function))


def test_renumbering(file: Path) -> None:
    """Indices in reverse order, reversed once more, are the old ones; what is used exists."""
    module = read_module(file.read_bytes())
    assert Visitor(lambda space, index: index).module(module).encoded == module.encoded
    assert reversed_indices(reversed_indices(module)).encoded == module.encoded
    counts = counts_of(module)
    assert all(index < counts[space] for space, index in Reach(module).used)


def reversed_indices(module: Module) -> Module:
    """The module with the indices of its own functions and globals reversed; the functions and globals keep their places."""
    numbering = {}
    for space, count in counts_of(module).items():
        if space in (Space.FUNCTION, Space.GLOBAL):
            first = module.imported(space)
            numbering[space] = {index: index if index < first else count - 1 - (index - first) for index in range(count)}
    return renumbered(module, numbering)


def test_operators_are_known() -> None:
    assert len(FORMS) > 550


def test_body_ends_at_its_end() -> None:
    assert len(read_body(Reader(b"\x05\x0b\xff"))) == 2


@pytest.mark.parametrize("broken", (b"", b"\x41", b"\xff\x0b", b"\x41\xff\xff\xff\xff\xff\xff\x0b"), ids=bytes.hex)
def test_broken_body_is_rejected(broken: bytes) -> None:
    with pytest.raises(Unreadable):
        read_body(Reader(broken))


# What `wasm-as -all` of binaryen 108 writes, and node 20 accepts with --experimental-wasm-gc, of a module in the encoding of 2022:
# (module (type $p (struct (field i32) (field (mut i64))))
#   (func (export "s") (result i32) (struct.get $p 0 (struct.new $p (i32.const 7) (i64.const 9))))
#   (func (export "n") (result i32) (local (ref null $p)) (i32.const 5))
#   (func (export "c") (result i32) (i32.const 3)))
DECLARED = "0061736d01000000010b026000017f5f027f007e01030403000000070d0301730000016e000101630002"
OF_2022 = bytes.fromhex(DECLARED + "0a1c03" "0d0041074209fb0701fb0301000b" "0701016c0141050b" "040041030b")
OF_3_0 = bytes.fromhex(DECLARED + "0a1c03" "0d0041074209fb0001fb0201000b" "070101630141050b" "040041030b")


def test_encodings() -> None:
    """Code that the encodings of 2022 and 3.0 read differently is kept as it is, in a module that can't be of 3.0."""
    older, newer = read_module(OF_2022), read_module(OF_3_0)
    assert older.encoded == OF_2022 and newer.encoded == OF_3_0
    assert [function.unread is None for function in older.functions] == [False, False, True]
    assert newer.is_whole() and not older.is_whole()


def test_interface(all_sections: Path) -> None:
    """The imports and exports of a module that was written by hand."""
    interface = read_interface(all_sections.read_bytes())
    assert [(item.module, item.name, item.kind, item.type) for item in interface.imports] == [
        ("env", "first", "function", FunctionType(("i32", "i64"), ("i32",))),
        ("env", "memory", "memory", Limits(1, 1, 2)),
        ("env", "global", "global", GlobalType("i32", False)),
        ("env", "tag", "tag", FunctionType(("i32",), ())),
    ]
    assert [(export.name, export.type) for export in interface.functions] == [("third", FunctionType((), ("i32",)))]
    assert [(export.name, export.limits) for export in interface.memories] == [("memory", Limits(0, 1))]
    assert [(export.name, export.type) for export in interface.globals] == [("counter", GlobalType("i64", True))]
    assert interface.tables == ()


def test_interface_of_tables(reducer: Reducer) -> None:
    module = reducer.compiled("tables", '(module (import "m" "t" (table 2 externref)) (table (export "own") 4 8 funcref))')
    interface = read_interface(module.read_bytes())
    assert [item.type for item in interface.imports] == [TableType("externref", Limits(0, 2))]
    assert [(export.name, export.type) for export in interface.tables] == [("own", TableType("funcref", Limits(1, 4, 8)))]


def test_export_of_nothing_is_rejected(reducer: Reducer) -> None:
    module = reducer.compiled("one", '(module (func (export "f")))').read_bytes()
    with pytest.raises(Unreadable, match="it exports something that it doesn't have, 'f'"):
        read_interface(module.replace(b"\x01f\x00\x00", b"\x01f\x00\x01"))
