"""Sections: exports, custom sections, and others that may go; limits that may be smaller; what is imported and may be the module's own."""

from __future__ import annotations

from dataclasses import replace
from typing import Sequence, Union

from ...wasm.immediates import Space
from ...wasm.module import CUSTOM, Export, Extra, Function, Global, Import, Module, Table
from ...wasm.operators import END, NAME_DATA, Body, Operator
from ...wasm.types import GlobalType, Limits, TableType
from ..indices import counts_of, renumbered
from ..names import is_names
from ..search import PositionPass
from .codes import UNREACHABLE_BODY, zeros_of


# What may replace an import: a tag by the index of its type.
Own = Union[Function, Table, Limits, Global, int]


class Encoding(PositionPass[None]):
    """Numbers that are written in more bytes than they need."""

    name = "encoding"

    def positions(self, module: Module) -> Sequence[None]:
        return [None]

    def apply(self, module: Module, chosen: Sequence[None]) -> Module:
        return module


class Exports(PositionPass[Export]):
    name = "exports"

    def positions(self, module: Module) -> Sequence[Export]:
        return module.exports

    def apply(self, module: Module, chosen: Sequence[Export]) -> Module:
        return replace(module, exports=tuple(each for each in module.exports if each not in chosen))


class CustomSections(PositionPass[Extra]):
    name = "custom sections"

    def __init__(self, keeps_names: bool):
        self.keeps_names = keeps_names

    def positions(self, module: Module) -> list[Extra]:
        return [each for each in module.extras if each.code == CUSTOM and not (self.keeps_names and is_names(each.content))]

    def apply(self, module: Module, chosen: Sequence[Extra]) -> Module:
        return replace(module, extras=tuple(each for each in module.extras if each not in chosen))


class Sections(PositionPass[str]):
    """The start section, and the count of data where no operator needs it."""

    name = "start"

    def positions(self, module: Module) -> list[str]:
        counts = module.counts_data and not any(operator.code in NAME_DATA for each in module.functions for operator in each.body)
        return (["start"] if module.start is not None else []) + (["count"] if counts else [])

    def apply(self, module: Module, chosen: Sequence[str]) -> Module:
        return replace(module, start=None if "start" in chosen else module.start,
                       counts_data=module.counts_data and "count" not in chosen)


class SmallerLimits(PositionPass[tuple[str, int, Limits]]):
    """Tables and memories of the module's own without a greatest size, or of the size 0."""

    name = "limits"

    def positions(self, module: Module) -> list[tuple[str, int, Limits]]:
        owned = [("tables", place, each.type.limits) for place, each in enumerate(module.tables)]
        owned += [("memories", place, each) for place, each in enumerate(module.memories)]
        return [(kind, place, new) for kind, place, old in owned for new in smaller_limits(old)]

    def apply(self, module: Module, chosen: Sequence[tuple[str, int, Limits]]) -> Module:
        tables, memories = list(module.tables), list(module.memories)
        for kind, place, limits in chosen:
            if kind == "memories":
                memories[place] = limits
            else:
                tables[place] = replace(tables[place], type=TableType(tables[place].type.element, limits))
        return replace(module, tables=tuple(tables), memories=tuple(memories))


def smaller_limits(limits: Limits) -> list[Limits]:
    """Limits that are smaller, the smallest one last."""
    without = replace(limits, flags=limits.flags & ~1, most=None)
    is_bounded = limits.most is not None and not limits.flags & 2
    wanted = [replace(limits, least=0)] + ([without, replace(without, least=0)] if is_bounded else [])
    return [each for each in wanted if each != limits]


class OwnImports(PositionPass[tuple[Import, Own]]):
    """What is imported becomes the module's own: a function that answers constants or is unreachable, or a global that is one."""

    name = "imports"
    needs_whole = True

    def positions(self, module: Module) -> list[tuple[Import, Own]]:
        return [(each, own) for each in module.imports for own in own_forms(module, each)]

    def apply(self, module: Module, chosen: Sequence[tuple[Import, Own]]) -> Module:
        owned = {id(each): own for each, own in chosen}
        for place in reversed(range(len(module.imports))):
            own = owned.get(id(module.imports[place]))
            if own is not None:
                module = with_own(module, place, own)
        return module


def own_forms(module: Module, item: Import) -> list[Own]:
    """What may stand for an import."""
    if isinstance(item.type, int):
        return [item.type] if item.kind is Space.TAG else [Function(item.type, (), body) for body in own_bodies(module, item.type)]
    if isinstance(item.type, GlobalType):
        zero = zeros_of((item.type.value,))
        return [] if zero is None else [Global(item.type, (*zero, Operator(END)))]
    return [Table(item.type) if isinstance(item.type, TableType) else item.type]


def own_bodies(module: Module, type: int) -> list[Body]:
    """The bodies of a function that is imported."""
    kind = module.context.function_type(type)
    zeros = None if kind is None else zeros_of(kind.results)
    return [UNREACHABLE_BODY] if zeros is None else [UNREACHABLE_BODY, (*zeros, Operator(END))]


def with_own(module: Module, place: int, own: Own) -> Module:
    """The module with something of its own, the first of its kind, in the place of an import."""
    kind = module.imports[place].kind
    count = module.imported(kind)
    index = sum(each.kind is kind for each in module.imports[:place])
    made = with_first(replace(module, imports=(*module.imports[:place], *module.imports[place + 1 :])), own)
    order = [*range(index), count - 1, *range(index, count - 1), *range(count, counts_of(made)[kind])]
    return renumbered(made, {kind: dict(enumerate(order))})


def with_first(module: Module, own: Own) -> Module:
    """The module with something before all else of its own of that kind."""
    if isinstance(own, Function):
        return replace(module, functions=(own, *module.functions))
    if isinstance(own, Table):
        return replace(module, tables=(own, *module.tables))
    if isinstance(own, Global):
        return replace(module, globals=(own, *module.globals))
    if isinstance(own, Limits):
        return replace(module, memories=(own, *module.memories))
    return replace(module, tags=(own, *module.tags))
