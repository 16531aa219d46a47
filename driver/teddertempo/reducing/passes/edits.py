"""Edits of bodies: passes that replace ranges of operators, each edit found in one function by itself."""

from __future__ import annotations

from dataclasses import dataclass, replace
from functools import lru_cache
from itertools import groupby
from typing import Iterable, Sequence

from ...wasm.module import Context, Function, Module
from ...wasm.operators import Body
from ..search import PositionPass


@dataclass(frozen=True, eq=False)
class Edit:
    """The operators from `first` to the one before `end` become others."""

    first: int
    end: int
    code: Body


Position = tuple[int, Edit]


def edited(body: Body, edits: Iterable[Edit]) -> Body:
    """The body with the edits, from the last to the first, except those in code that another edit has replaced."""
    pieces: list[Body] = []
    limit = len(body)
    for edit in sorted(edits, key=lambda edit: (-edit.end, edit.first)):
        if edit.end <= limit:
            pieces += [body[edit.end : limit], edit.code]
            limit = edit.first
    pieces.append(body[:limit])
    return tuple(operator for piece in reversed(pieces) for operator in piece)


def with_functions(module: Module, new: dict[int, Function]) -> Module:
    """The module with other functions in some places among its own."""
    return replace(module, functions=tuple(new.get(place, function) for place, function in enumerate(module.functions)))


class EditPass(PositionPass[Position]):
    """A pass that makes edits."""

    def __init__(self) -> None:
        self.found = lru_cache(maxsize=1 << 14)(self.edits)

    def edits(self, context: Context, function: Function) -> Sequence[Edit]:
        """The edits that there are in a function, by their last operators."""
        raise NotImplementedError

    def positions(self, module: Module) -> list[Position]:
        found = []
        for place, function in enumerate(module.functions):
            self.check_time()
            if function.unread is None:
                found += [(place, edit) for edit in self.found(module.context, function)]
        return found

    def apply(self, module: Module, chosen: Sequence[Position]) -> Module | None:
        new = {}
        for place, group in groupby(chosen, key=lambda position: position[0]):
            function = module.functions[place]
            new[place] = replace(function, body=edited(function.body, [edit for _, edit in group]))
        return with_functions(module, new)
