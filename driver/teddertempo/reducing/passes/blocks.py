"""Blocks that become what is inside them, and operators that go, of which a validator says whether what is left stands."""

from __future__ import annotations

from dataclasses import dataclass, field, replace
from typing import Sequence

from ...wasm.module import Context, Function, Module
from ...wasm.operators import CLOSES, DROP, ELSE, IF, OPENS, PARTS, Body, Operator
from ..search import PositionPass
from .edits import Edit, EditPass, with_functions


@dataclass
class Block:
    """A block: the places of its first operator, of those that begin its other parts, and of its last."""

    first: int
    parts: list[int] = field(default_factory=list)
    last: int = 0


def blocks_of(body: Body) -> list[Block]:
    """The blocks of a body, by their last operators."""
    opened: list[Block] = []
    closed: list[Block] = []
    for at, operator in enumerate(body[:-1]):
        if operator.code in OPENS:
            opened.append(Block(at))
        elif operator.code in PARTS and opened:
            opened[-1].parts.append(at)
        elif operator.code in CLOSES and opened:
            opened[-1].last = at
            closed.append(opened.pop())
    return closed


def unwrapped(code: Body) -> Body:
    """The code without the block round it. Branches out of that block lead out of the one round it then."""
    made = []
    depth = 0
    for operator in code:
        depth -= operator.code in CLOSES
        # What a handler of exceptions names stands outside it.
        inner = depth
        made.append(operator.relabelled(lambda label: label - 1 if label > inner else label))
        depth += operator.code in OPENS
    return tuple(made)


class Unwrapping(EditPass):
    """Blocks become what is inside: of one with several parts the first."""

    name = "blocks"

    def edits(self, context: Context, function: Function) -> list[Edit]:
        return [self.edit(function.body, block) for block in blocks_of(function.body)]

    def edit(self, body: Body, block: Block) -> Edit:
        end = block.parts[0] if block.parts else block.last
        head = (Operator(DROP),) if body[block.first].code == IF else ()
        return Edit(block.first, block.last + 1, head + unwrapped(body[block.first + 1 : end]))


class ElseUnwrapping(EditPass):
    """An `if` becomes what is inside its `else`."""

    name = "else"

    def edits(self, context: Context, function: Function) -> list[Edit]:
        body = function.body
        found = [block for block in blocks_of(body) if block.parts and body[block.parts[0]].code == ELSE]
        return [Edit(block.first, block.last + 1, (Operator(DROP), *unwrapped(body[block.parts[0] + 1 : block.last]))) for block in found]


class Parts(EditPass):
    """Parts of blocks after the first are deleted: code after `else`, and handlers."""

    name = "parts of blocks"

    def edits(self, context: Context, function: Function) -> list[Edit]:
        found = [Edit(first, end, ()) for block in blocks_of(function.body)
                 for first, end in zip(block.parts, [*block.parts[1:], block.last])]
        return sorted(found, key=lambda edit: edit.end)


class Ranges(PositionPass[tuple[int, int]]):
    """Consecutive operators are deleted, a block as a whole or not at all."""

    name = "operators"

    def positions(self, module: Module) -> list[tuple[int, int]]:
        return [(place, at) for place, function in enumerate(module.functions) for at in range(len(function.body) - 1)]

    def apply(self, module: Module, chosen: Sequence[tuple[int, int]]) -> Module | None:
        gone: dict[int, set[int]] = {}
        for place, at in chosen:
            gone.setdefault(place, set()).add(at)
        new = {}
        for place, places in gone.items():
            function = module.functions[place]
            whole = balanced(function.body, places)
            if whole:
                body = tuple(operator for at, operator in enumerate(function.body) if at not in whole)
                new[place] = replace(function, body=body)
        return with_functions(module, new) if new else None


def balanced(body: Body, places: set[int]) -> set[int]:
    """The places without those of blocks that aren't among them as a whole."""
    kept: set[int] = set()
    for block in blocks_of(body):
        marks = {block.first, *block.parts, block.last}
        if not marks <= places:
            kept |= marks
    return places - kept
