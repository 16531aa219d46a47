"""Parameters that a function doesn't use go, with the operands of its calls."""

from __future__ import annotations

from dataclasses import replace
from typing import Sequence

from ...wasm.immediates import Space
from ...wasm.module import Function, Module
from ...wasm.operators import CALL, RETURN_CALL, visit_body
from ...wasm.types import DefinedType, FunctionType, TypeGroup
from ..indices import Reach, Use, without
from ..search import PositionPass
from ..units import units_of
from .edits import Edit, edited, with_functions
from .unused import parameters_of, used_locals


class Unknown(Exception):
    """A call is where its operands aren't known."""


class Parameters(PositionPass[tuple[int, int]]):
    name = "parameters"
    needs_whole = True

    def positions(self, module: Module) -> list[tuple[int, int]]:
        return [(place, index) for place, function in enumerate(module.functions) for index in unused_parameters(module, function)]

    def apply(self, module: Module, chosen: Sequence[tuple[int, int]]) -> Module | None:
        gone: dict[int, set[int]] = {}
        for place, index in chosen:
            gone.setdefault(place, set()).add(index)
        first = module.imported(Space.FUNCTION)
        try:
            cut = {place: without_operands(module, function, {first + each: gone[each] for each in gone})
                   for place, function in enumerate(module.functions)}
        except Unknown:
            return None
        made = with_functions(module, cut)
        for place, indices in gone.items():
            made = without_parameters(made, place, indices)
        unused = {use for use in Reach(made, other_uses(module)).unused() if use[0] is Space.TYPE}
        return without(made, unused) if unused else made


def other_uses(module: Module) -> list[Use]:
    """What of a module isn't a type: all of it stays."""
    return [(Space.FUNCTION, index) for index in range(len(module.context.functions))] + [
        use for use in Reach(module).unused() if use[0] is not Space.TYPE]


def unused_parameters(module: Module, function: Function) -> list[int]:
    count = parameters_of(module, function)
    if not count or function.unread is not None:
        return []
    used = used_locals(function)
    return [index for index in range(count) if index not in used]


def without_operands(module: Module, function: Function, gone: dict[int, set[int]]) -> Function:
    """The function without operands of its calls, by the functions' indices."""
    calls = {at for at, operator in enumerate(function.body) if operator.code in (CALL, RETURN_CALL) and operator.number() in gone}
    if not calls:
        return function
    edits = []
    for unit in units_of(module.context, function):
        if unit.last in calls:
            calls.remove(unit.last)
            dropped = [unit.operands[index] for index in gone[function.body[unit.last].number()]]
            if any(each.first >= each.end for each in dropped):
                raise Unknown
            edits += [Edit(each.first, each.end, ()) for each in dropped]
    if calls:
        raise Unknown
    return replace(function, body=edited(function.body, edits))


def without_parameters(module: Module, place: int, gone: set[int]) -> Module:
    """The module with fewer parameters of a function, for which it has a type, a new one if need be."""
    function = module.functions[place]
    old = module.context.function_type(function.type)
    assert old is not None
    kept = [index for index in range(len(old.parameters) + len(function.locals)) if index not in gone]
    new = {index: at for at, index in enumerate(kept)}
    wanted = DefinedType(FunctionType(tuple(old.parameters[index] for index in kept if index < len(old.parameters)), old.results))
    known = module.context.types
    if wanted not in known:
        module = replace(module, types=(*module.types, TypeGroup((wanted,))))
    index = known.index(wanted) if wanted in known else len(known)
    body = visit_body(function.body, lambda space, each: new[each] if space is Space.LOCAL else each)
    return with_functions(module, {place: replace(function, type=index, body=body)})
