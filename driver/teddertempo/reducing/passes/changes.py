"""Changes that the program makes: it is proved that each keeps a valid module valid."""

from __future__ import annotations

from functools import lru_cache
from itertools import groupby
from typing import Sequence

from ...wasm.immediates import Space
from ...wasm.module import Function, Module
from ...wasm.reading import read_module
from ..changes import Changer, Place, Stretch
from ..search import PositionPass
from ..units import units_of


class Change(PositionPass[Place]):
    """One of the program's changes: `delete`, `first_operand`, `last_operand` or `draw`."""

    def __init__(self, change: str, changer: Changer):
        self.change = change
        self.changer = changer
        self.name = f"change {change}"
        self.positions_of = lru_cache(maxsize=1)(self.find)

    def positions(self, module: Module) -> Sequence[Place]:
        return self.positions_of(module)

    def find(self, module: Module) -> Sequence[Place]:
        """The places that the program lists, else all that may be among them."""
        listed = self.changer.places(module.encoded, self.change)
        if listed is not None:
            return listed
        first = module.imported(Space.FUNCTION)
        return [(index, at) for index, function in enumerate(module.functions, first) for at in self.likely(module, function)]

    def likely(self, module: Module, function: Function) -> Sequence[int]:
        """The operators to which the change may apply, by the units of the function; all operators after the last unit."""
        units = units_of(module.context, function)
        rest = units[-1].last + 1 if units else 0
        fitting = [unit.last for unit in units if bool(unit.results) != (self.change == "delete")]
        return [*fitting, *range(rest, len(function.body) - 1)]

    def apply(self, module: Module, chosen: Sequence[Place]) -> Module | None:
        stretches = []
        for index, group in groupby(chosen, key=lambda place: place[0]):
            operators = [at for _, at in group]
            stretches.append(Stretch(index, operators[0], operators[-1]))
        changed = self.changer.change(module.encoded, self.change, stretches)
        return None if changed is None else read_module(changed)
