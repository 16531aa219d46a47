"""Immediates that become smaller: offsets and alignments, tables of branches, types of blocks, locals."""

from __future__ import annotations

from dataclasses import replace
from typing import Sequence

from ...wasm.immediates import Argument, Space, Targets, narrowed
from ...wasm.module import Context, Function, Module
from ...wasm.operators import BR_TABLE, OPENS, Operator, visit_body
from ...wasm.types import ValueType
from ..search import PositionPass
from .edits import Edit, EditPass, with_functions
from .unused import used_locals


class Immediates(EditPass):
    """Offsets and alignments become 0, tables of branches are empty, blocks have no type."""

    name = "immediates"

    def edits(self, context: Context, function: Function) -> list[Edit]:
        made = ((at, simpler(operator)) for at, operator in enumerate(function.body))
        return [Edit(at, at + 1, (operator,)) for at, operator in made if operator != function.body[at]]


def simpler(operator: Operator) -> Operator:
    """The operator with the least immediates of their kind."""
    if operator.code == BR_TABLE:
        return Operator(BR_TABLE, (Targets(narrowed(operator.values[0], Targets)[-1:]),))
    if operator.code in OPENS:
        return Operator(operator.code, (None, *operator.values[1:]))
    values = (Argument(0, value.memory, 0) if isinstance(value, Argument) else value for value in operator.values)
    return Operator(operator.code, tuple(values))


class MergedLocals(PositionPass[tuple[int, int, int]]):
    """A local becomes the first one of its type that is used."""

    name = "locals"

    def positions(self, module: Module) -> list[tuple[int, int, int]]:
        return [(place, old, new) for place, function in enumerate(module.functions) for old, new in merged(module, function)]

    def apply(self, module: Module, chosen: Sequence[tuple[int, int, int]]) -> Module:
        merges: dict[int, dict[int, int]] = {}
        for place, old, new in chosen:
            merges.setdefault(place, {})[old] = new
        return with_functions(module, {place: with_locals(module.functions[place], new) for place, new in merges.items()})


def merged(module: Module, function: Function) -> list[tuple[int, int]]:
    """The locals that are used and the first of their type, where that is another one."""
    own = module.context.function_type(function.type)
    if own is None:
        return []
    kinds = (*own.parameters, *function.locals)
    used = sorted(index for index in used_locals(function) if index < len(kinds))
    firsts: dict[ValueType, int] = {}
    for index in (*range(len(own.parameters)), *used):
        firsts.setdefault(kinds[index], index)
    return [(index, firsts[kinds[index]]) for index in used if firsts[kinds[index]] != index]


def with_locals(function: Function, new: dict[int, int]) -> Function:
    body = visit_body(function.body, lambda space, index: new.get(index, index) if space is Space.LOCAL else index)
    return replace(function, body=body)
