"""Segments of data and elements: dropped, cut short at either end, zeroed."""

from __future__ import annotations

from dataclasses import replace
from itertools import groupby
from typing import Sequence, Union

from ...wasm.immediates import Space
from ...wasm.module import Data, Element, Module
from ...wasm.operators import END, I32_CONST, I64_CONST, Body, Operator
from ..indices import Use, without
from ..search import PositionPass

Segment = Union[Data, Element]
Place = tuple[Space, int, int]


class Segments(PositionPass[Use]):
    """Segments that no operator names go."""

    name = "segments"
    needs_whole = True

    def positions(self, module: Module) -> list[Use]:
        elements = [(Space.ELEMENT, place) for place in range(len(module.elements))]
        return elements + [(Space.DATA, place) for place in range(len(module.data))]

    def apply(self, module: Module, chosen: Sequence[Use]) -> Module | None:
        return without(module, set(chosen))


def segments_of(module: Module, space: Space) -> tuple[Segment, ...]:
    if space is Space.DATA:
        return module.data
    return module.elements


def length_of(segment: Segment) -> int:
    return len(segment.content) if isinstance(segment, Data) else len(segment.functions) + len(segment.expressions)


def part_of(segment: Segment, first: int, behind: int) -> Segment:
    """The segment with a part of its bytes or elements."""
    if isinstance(segment, Data):
        return replace(segment, content=segment.content[first:behind])
    return replace(segment, functions=segment.functions[first:behind], expressions=segment.expressions[first:behind])


def with_segments(module: Module, new: dict[tuple[Space, int], Segment]) -> Module:
    data = tuple(new.get((Space.DATA, place), each) for place, each in enumerate(module.data))
    return replace(module, data=data, elements=tuple(new.get((Space.ELEMENT, place), each) for place, each in enumerate(module.elements)))


def moved(offset: Body, by: int) -> Body | None:
    """A constant offset that is greater by a number; none where it isn't constant."""
    if len(offset) != 2 or offset[0].code not in (I32_CONST, I64_CONST):
        return None
    return Operator(offset[0].code, (offset[0].number() + by,)), Operator(END)


class CutSegments(PositionPass[Place]):
    """Bytes and elements at the end of segments."""

    name = "ends of segments"

    def positions(self, module: Module) -> list[Place]:
        return [(space, place, at) for space in (Space.ELEMENT, Space.DATA) for place, each in enumerate(segments_of(module, space))
                for at in range(length_of(each))]

    def apply(self, module: Module, chosen: Sequence[Place]) -> Module | None:
        new = {}
        for (space, place), group in groupby(chosen, key=lambda position: position[:2]):
            segment = segments_of(module, space)[place]
            places = [at for _, _, at in group]
            cut = self.cut(segment, places[0], places[-1] + 1)
            if cut is not None:
                new[space, place] = cut
        return with_segments(module, new) if new else None

    def cut(self, segment: Segment, first: int, behind: int) -> Segment | None:
        return part_of(segment, 0, first) if behind == length_of(segment) else None


class LateSegments(CutSegments):
    """Bytes and elements at the start of segments, which begin later then."""

    name = "starts of segments"

    def cut(self, segment: Segment, first: int, behind: int) -> Segment | None:
        offset = moved(segment.offset, behind) if segment.is_active() else ()
        if first or offset is None:
            return None
        return replace(part_of(segment, behind, length_of(segment)), offset=offset)


class ZeroedData(PositionPass[tuple[int, int]]):
    """Bytes of data that become 0, but not each by itself: they are as many as before."""

    name = "zeros"
    MOST_PARTS = 64

    def positions(self, module: Module) -> list[tuple[int, int]]:
        return [(place, at) for place, each in enumerate(module.data) for at, byte in enumerate(each.content) if byte]

    def smallest(self, count: int) -> int:
        return max(1, count // self.MOST_PARTS)

    def apply(self, module: Module, chosen: Sequence[tuple[int, int]]) -> Module:
        new: dict[tuple[Space, int], Segment] = {}
        for place, group in groupby(chosen, key=lambda position: position[0]):
            content = bytearray(module.data[place].content)
            for _, at in group:
                content[at] = 0
            new[Space.DATA, place] = replace(module.data[place], content=bytes(content))
        return with_segments(module, new)
