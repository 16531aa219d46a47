"""Operators that take values from the stack: operands are dropped in their place, or they go with what pushes a value elsewhere."""

from __future__ import annotations

from collections import defaultdict
from typing import Iterator, Optional, Sequence

from ...wasm.module import Context, Function
from ...wasm.operators import CLOSES, DROP, Body, Operator
from ..units import ENDS_CODE, Operand, Unit, units_of
from .edits import Edit, EditPass


def takes_values(body: Body, unit: Unit) -> bool:
    """Whether a unit is an operator, after which code continues, that takes values and pushes none: a store, a `global.set`, a `drop`."""
    return bool(unit.operands) and not unit.results and body[unit.last].code not in CLOSES | ENDS_CODE


class Drops(EditPass):
    """An operator that takes values and pushes none becomes one of its operands, which is dropped, or drops all of them."""

    name = "drops"

    def edits(self, context: Context, function: Function) -> list[Edit]:
        body = function.body
        return [edit for unit in units_of(context, function) if takes_values(body, unit) and body[unit.last].code != DROP
                for edit in self.edits_of(body, unit)]

    def edits_of(self, body: Body, unit: Unit) -> Iterator[Edit]:
        drop = Operator(DROP)
        for operand in reversed(unit.operands):
            if operand.first < operand.end:
                yield Edit(unit.first, unit.last + 1, (*body[operand.first : operand.end], drop))
        if 1 < len(unit.operands) < len(body[unit.last].encoded()):
            yield Edit(unit.last, unit.last + 1, (drop,) * len(unit.operands))


class Pairs(EditPass):
    """An operator that takes one value goes together with code that pushes one, and the operators between them stay:

    - the code that pushes its operand, if statements are between them;
    - the code that pushes the value below its operand, which takes the place of that value;
    - the next constant, or the like, that is pushed in the same place of the stack as its operand, which takes its place."""

    name = "pairs"

    def edits(self, context: Context, function: Function) -> list[Edit]:
        body = function.body
        units = units_of(context, function)
        by_last = {unit.last: unit for unit in units}
        found = []
        for unit, later in zip(units, next_leaves(body, units)):
            if not takes_one_value(body, unit):
                continue
            operand = unit.operands[0]
            if operand.last + 1 < operand.end and pushes(by_last, operand.first, operand.last, operand):
                found.append(Edit(unit.first, unit.last + 1, body[operand.last + 1 : operand.end]))
            below = unit.below
            if below is not None and pushes(by_last, below.first, below.last, operand):
                found.append(Edit(below.first, unit.last + 1, body[below.last + 1 : unit.last]))
            if later is not None and pushes(by_last, later.first, later.last, operand):
                found.append(Edit(unit.last, later.last + 1, body[unit.last + 1 : later.first]))
        return sorted(found, key=lambda edit: edit.end)


def takes_one_value(body: Body, unit: Unit) -> bool:
    return takes_values(body, unit) and len(unit.operands) == 1 and unit.operands[0].first < unit.operands[0].end


def pushes(by_last: dict[int, Unit], first: int, last: int, operand: Operand) -> bool:
    """Whether the code from `first` to `last` is a unit that pushes one value, of the type of an operand as far as it is known."""
    unit = by_last.get(last)
    if unit is None or unit.first != first or len(unit.results) != 1:
        return False
    return operand.type in (None, unit.results[0]) or unit.results[0] is None


def next_leaves(body: Body, units: Sequence[Unit]) -> list[Optional[Unit]]:
    """For each unit that takes one value the next unit without operands that pushes a value in the same place of the stack, if nothing
    between them takes a value from below that place."""
    found: list[Optional[Unit]] = [None] * len(units)
    waiting: dict[int, list[int]] = defaultdict(list)  # by their blocks, each list by the height of the stack
    for place, unit in enumerate(units):
        own = waiting[unit.block]
        while own and units[own[-1]].height > unit.height:
            own.pop()
        if unit.results and not unit.operands:
            while own and units[own[-1]].height == unit.height:
                found[own.pop()] = unit
        if takes_one_value(body, unit):
            own.append(place)
    return found
