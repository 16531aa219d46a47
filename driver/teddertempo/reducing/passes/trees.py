"""Units of bodies that become smaller: statements are deleted, an operand replaces the whole, code becomes constants."""

from __future__ import annotations

from ...wasm.module import Context, Function
from ..units import Unit, units_of
from .codes import zeros_of
from .edits import Edit, EditPass


class Deletions(EditPass):
    """Statements, which push no value, are deleted."""

    name = "statements"

    def edits(self, context: Context, function: Function) -> list[Edit]:
        return [Edit(unit.first, unit.last + 1, ()) for unit in units_of(context, function) if not unit.results]


class Constants(EditPass):
    """Code that pushes values becomes constants."""

    name = "constants"

    def edits(self, context: Context, function: Function) -> list[Edit]:
        found = []
        for unit in units_of(context, function):
            zeros = zeros_of(unit.results) if unit.results else None
            code = function.body[unit.first : unit.last + 1]
            if zeros and code != zeros:
                found.append(Edit(unit.first, unit.last + 1, zeros))
        return found


class Operands(EditPass):
    """An operand of the same type replaces the whole: the first one, or the last."""

    def __init__(self, is_last: bool):
        super().__init__()
        self.is_last = is_last
        self.name = "last operands" if is_last else "first operands"

    def edits(self, context: Context, function: Function) -> list[Edit]:
        return [edit for unit in units_of(context, function) for edit in self.edit(function, unit)]

    def edit(self, function: Function, unit: Unit) -> list[Edit]:
        wanted = unit.results[0] if len(unit.results) == 1 else False
        fitting = [each for each in unit.operands if each.first < each.end and wanted is not False
                   and (each.type is None or wanted in (None, each.type))]
        if not fitting or (self.is_last and len(fitting) == 1):
            return []
        operand = fitting[-1 if self.is_last else 0]
        return [Edit(unit.first, unit.last + 1, function.body[operand.first : operand.end])]
