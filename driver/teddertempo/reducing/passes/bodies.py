"""Bodies that become trivial: unreachable, or constants."""

from __future__ import annotations

from dataclasses import replace
from typing import Sequence

from ...wasm.module import Function, Module
from ...wasm.operators import END, Body, Operator
from ..search import PositionPass
from .codes import UNREACHABLE_BODY, zeros_of
from .edits import with_functions


class BodyPass(PositionPass[tuple[int, Body]]):
    """A pass that puts another body in the place of a function's, many functions at once."""

    def body(self, module: Module, function: Function) -> Body | None:
        raise NotImplementedError

    def positions(self, module: Module) -> list[tuple[int, Body]]:
        found = ((place, function, self.body(module, function)) for place, function in enumerate(module.functions))
        return [(place, body) for place, function, body in found
                if body is not None and (body != function.body or function.locals)]

    def apply(self, module: Module, chosen: Sequence[tuple[int, Body]]) -> Module:
        return with_functions(module, {place: replace(module.functions[place], locals=(), body=body, unread=None) for place, body in chosen})


class UnreachableBodies(BodyPass):
    name = "unreachable bodies"

    def body(self, module: Module, function: Function) -> Body | None:
        return UNREACHABLE_BODY


class ConstantBodies(BodyPass):
    name = "constant bodies"

    def body(self, module: Module, function: Function) -> Body | None:
        kind = module.context.function_type(function.type)
        zeros = None if kind is None else zeros_of(kind.results)
        return None if zeros is None else (*zeros, Operator(END))
