"""What nothing names goes, and what stands behind it gets another index."""

from __future__ import annotations

from dataclasses import replace
from typing import Sequence

from ...wasm.immediates import Space
from ...wasm.module import Function, Module
from ...wasm.operators import visit_body
from ..indices import Reach, Use, without
from ..search import PositionPass
from .edits import with_functions


class Unused(PositionPass[Use]):
    """Functions, globals, types and all else that has an index."""

    name = "unused"
    needs_whole = True

    def positions(self, module: Module) -> list[Use]:
        return Reach(module).unused()

    def apply(self, module: Module, chosen: Sequence[Use]) -> Module | None:
        """The module without those that are chosen and that none of the others uses."""
        others = {*self.positions(module)} - {*chosen}
        gone = {*Reach(module, others).unused()}
        return without(module, gone) if gone else None


class UnusedLocals(PositionPass[tuple[int, int]]):
    """Locals that aren't parameters."""

    name = "unused locals"

    def positions(self, module: Module) -> list[tuple[int, int]]:
        return [(place, index) for place, function in enumerate(module.functions) for index in unused_locals(module, function)]

    def apply(self, module: Module, chosen: Sequence[tuple[int, int]]) -> Module:
        gone: dict[int, set[int]] = {}
        for place, index in chosen:
            gone.setdefault(place, set()).add(index)
        return with_functions(module, {place: without_locals(module, module.functions[place], each) for place, each in gone.items()})


def parameters_of(module: Module, function: Function) -> int | None:
    kind = module.context.function_type(function.type)
    return None if kind is None else len(kind.parameters)


def unused_locals(module: Module, function: Function) -> list[int]:
    first = parameters_of(module, function)
    if first is None or not function.locals:
        return []
    used = used_locals(function)
    return [index for index in range(first, first + len(function.locals)) if index not in used]


def used_locals(function: Function) -> set[int]:
    used: set[int] = set()

    def note(space: Space, index: int) -> int:
        if space is Space.LOCAL:
            used.add(index)
        return index

    visit_body(function.body, note)
    return used


def without_locals(module: Module, function: Function, gone: set[int]) -> Function:
    first = parameters_of(module, function) or 0
    kept = [index for index in range(first + len(function.locals)) if index not in gone]
    new = {index: place for place, index in enumerate(kept)}
    body = visit_body(function.body, lambda space, index: new[index] if space is Space.LOCAL else index)
    return replace(function, locals=tuple(function.locals[index - first] for index in kept if index >= first), body=body)
