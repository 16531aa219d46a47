"""Functions that are called: exported in the place of their callers, or written where they are called."""

from __future__ import annotations

from dataclasses import replace
from itertools import groupby
from typing import Sequence

from ...wasm.immediates import Space
from ...wasm.module import Function, Module
from ...wasm.operators import (BLOCK, BR, CALL, CLOSES, LOCAL_SET, OPENS, RETURN, RETURN_CALL, RETURN_CALL_INDIRECT, RETURN_CALL_REF, Body,
                         Operator)
from ..indices import Reach, without
from ..search import PositionPass
from .edits import Edit, edited, with_functions
from .unused import parameters_of

LEAVES = frozenset((RETURN_CALL, RETURN_CALL_INDIRECT, RETURN_CALL_REF))


def tidied(module: Module, before: Module) -> Module:
    """The module without what isn't used any more, but was before."""
    kept = Reach(before).unused()
    gone = {use for use in Reach(module).unused() if use not in kept}
    return (without(module, gone) if gone else None) or module


class ExportedCallees(PositionPass[tuple[int, int]]):
    """An export names a function that the one calls which it named."""

    name = "callees"
    needs_whole = True

    def positions(self, module: Module) -> list[tuple[int, int]]:
        first = module.imported(Space.FUNCTION)
        return [(place, callee) for place, export in enumerate(module.exports) if export.kind is Space.FUNCTION
                for callee in own_callees(module, export.index - first)]

    def apply(self, module: Module, chosen: Sequence[tuple[int, int]]) -> Module:
        named = dict(chosen)
        exports = tuple(replace(each, index=named.get(place, each.index)) for place, each in enumerate(module.exports))
        return tidied(replace(module, exports=exports), module)


def own_callees(module: Module, place: int) -> list[int]:
    """The functions of the module's own, by their indices, that one of them calls."""
    first = module.imported(Space.FUNCTION)
    if not 0 <= place < len(module.functions):
        return []
    called = {operator.number() for operator in module.functions[place].body if operator.code == CALL}
    return sorted(index for index in called if index >= first and index != first + place)


class Inlining(PositionPass[tuple[int, int]]):
    """A call becomes a block with the body of the function, its parameters and locals among those of the caller."""

    name = "inlining"
    needs_whole = True

    def positions(self, module: Module) -> list[tuple[int, int]]:
        return [(place, at) for place, function in enumerate(module.functions) for at, operator in enumerate(function.body)
                if operator.code == CALL and is_inlined(module, place, operator.number())]

    def apply(self, module: Module, chosen: Sequence[tuple[int, int]]) -> Module:
        new = {}
        for place, group in groupby(chosen, key=lambda position: position[0]):
            new[place] = inlined(module, module.functions[place], [at for _, at in group])
        return tidied(with_functions(module, new), module)


def is_inlined(module: Module, caller: int, index: int) -> bool:
    """Whether a function can be written where it is called: it isn't the caller, has one result at most, and no call in its tail."""
    place = index - module.imported(Space.FUNCTION)
    if not 0 <= place < len(module.functions) or place == caller:
        return False
    own, kind = (module.context.function_type(module.functions[each].type) for each in (caller, place))
    is_simple = own is not None and kind is not None and len(kind.results) < 2
    return is_simple and all(operator.code not in LEAVES for operator in module.functions[place].body)


def inlined(module: Module, caller: Function, places: Sequence[int]) -> Function:
    """The function with calls in some places written out."""
    first = parameters_of(module, caller) or 0
    added = list(caller.locals)
    edits = []
    for at in places:
        callee = module.functions[caller.body[at].number() - module.imported(Space.FUNCTION)]
        kind = module.context.function_type(callee.type)
        assert kind is not None
        own = first + len(added)
        added += [*kind.parameters, *callee.locals]
        sets = tuple(Operator(LOCAL_SET, (own + index,)) for index in reversed(range(len(kind.parameters))))
        block = Operator(BLOCK, (kind.results[0] if kind.results else None,))
        edits.append(Edit(at, at + 1, (*sets, block, *as_block(callee.body, own))))
    return replace(caller, locals=tuple(added), body=edited(caller.body, edits))


def as_block(body: Body, first: int) -> Body:
    """A body as what is inside a block, up to its `end`: with its locals from an index on, and branches in the place of returns."""
    made = []
    depth = 0
    for operator in body:
        depth -= operator.code in CLOSES
        if operator.code == RETURN:
            operator = Operator(BR, (depth,))
        made.append(operator.visited(lambda space, index: first + index if space is Space.LOCAL else index))
        depth += operator.code in OPENS
    return tuple(made)
