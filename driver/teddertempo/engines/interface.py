"""What a WebAssembly module asks for and offers: its imports and exports, whose types have the names that engines use."""

from __future__ import annotations

from dataclasses import dataclass
from typing import Iterator, TypeVar, Union

from ..wasm import module as modules
from ..wasm import types
from ..wasm.binary import Unreadable
from ..wasm.immediates import Space
from ..wasm.module import Context, Module
from ..wasm.reading import read_declarations
from ..wasm.types import EXTERNREF, F32, F64, FUNCREF, I32, I64, V128, Limits, ValueType

Item = TypeVar("Item")

NAMES = {I32: "i32", I64: "i64", F32: "f32", F64: "f64", V128: "v128", FUNCREF: "funcref", EXTERNREF: "externref"}


@dataclass(frozen=True)
class FunctionType:
    """The types of the parameters and results of a function or a tag."""

    parameters: tuple[str, ...]
    results: tuple[str, ...]


@dataclass(frozen=True)
class TableType:
    element: str
    limits: Limits


@dataclass(frozen=True)
class GlobalType:
    value: str
    mutable: bool


ImportType = Union[FunctionType, TableType, Limits, GlobalType]


@dataclass(frozen=True)
class Import:
    module: str
    name: str
    kind: str
    type: ImportType


@dataclass(frozen=True)
class FunctionExport:
    name: str
    type: FunctionType


@dataclass(frozen=True)
class TableExport:
    name: str
    type: TableType


@dataclass(frozen=True)
class MemoryExport:
    name: str
    limits: Limits


@dataclass(frozen=True)
class GlobalExport:
    name: str
    type: GlobalType


@dataclass(frozen=True)
class Interface:
    """The imports, and the exports of each kind, in the module's order."""

    imports: tuple[Import, ...] = ()
    functions: tuple[FunctionExport, ...] = ()
    tables: tuple[TableExport, ...] = ()
    memories: tuple[MemoryExport, ...] = ()
    globals: tuple[GlobalExport, ...] = ()


def read_interface(data: bytes) -> Interface:
    """The interface of a module; `Unreadable` if it can't be decoded."""
    module = read_declarations(data)
    context = module.context
    return Interface(
        tuple(import_of(item, context) for item in module.imports),
        tuple(FunctionExport(name, function_type(index, context)) for name, index in exported(module, Space.FUNCTION, context.functions)),
        tuple(TableExport(name, table_type(type)) for name, type in exported(module, Space.TABLE, context.tables)),
        tuple(MemoryExport(name, limits) for name, limits in exported(module, Space.MEMORY, context.memories)),
        tuple(GlobalExport(name, global_type(type)) for name, type in exported(module, Space.GLOBAL, context.globals)),
    )


def exported(module: Module, kind: Space, defined: tuple[Item, ...]) -> Iterator[tuple[str, Item]]:
    """The exports of a kind, each a name and one of the types of what is defined."""
    for export in module.exports:
        if export.kind is kind:
            if export.index >= len(defined):
                raise Unreadable(f"it exports something that it doesn't have, {text_of(export.name)!r}")
            yield text_of(export.name), defined[export.index]


def import_of(item: modules.Import, context: Context) -> Import:
    return Import(text_of(item.module), text_of(item.name), item.kind.value, import_type(item.type, context))


def import_type(type: modules.ImportType, context: Context) -> ImportType:
    if isinstance(type, int):
        return function_type(type, context)
    if isinstance(type, types.TableType):
        return table_type(type)
    return global_type(type) if isinstance(type, types.GlobalType) else type


def function_type(index: int, context: Context) -> FunctionType:
    found = context.function_type(index)
    if found is None:
        raise Unreadable(f"it has no type of functions {index}")
    return FunctionType(tuple(map(name_of, found.parameters)), tuple(map(name_of, found.results)))


def table_type(type: types.TableType) -> TableType:
    return TableType(name_of(type.element), type.limits)


def global_type(type: types.GlobalType) -> GlobalType:
    return GlobalType(name_of(type.value), bool(type.mutable))


def name_of(type: ValueType) -> str:
    return NAMES.get(type, "reference")


def text_of(name: bytes) -> str:
    return name.decode("utf-8", "surrogateescape")
