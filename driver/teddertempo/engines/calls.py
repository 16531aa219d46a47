"""The calls that are made on a module: each exported function with small arguments, with the ends of their types, and with others."""

from __future__ import annotations

import random
from dataclasses import dataclass

from .interface import Interface

WIDTHS = {"i32": 32, "i64": 64, "f32": 32, "f64": 64, "v128": 128}

# Arguments that programs meet often, by their bits.
SMALL = {
    "i32": (1, 2, 3, 5, 7, 8, 10, 16),
    "i64": (1, 2, 3, 5, 7, 8, 10, 16),
    "f32": (0x3F800000, 0x40000000, 0x3F000000, 0x40490FDB, 0xBF800000, 0x41200000),
    "f64": (0x3FF0000000000000, 0x4000000000000000, 0x3FE0000000000000, 0x400921FB54442D18, 0xBFF0000000000000, 0x4024000000000000),
    "v128": (1, 0x00000004000000030000000200000001, 0x0F0E0D0C0B0A09080706050403020100),
}

# The ends of the types: zeros, the least and the greatest numbers, infinities, and one that is no number.
ENDS = {
    "i32": (0, 0xFFFFFFFF, 0x7FFFFFFF, 0x80000000, 31, 32, 255, 65535),
    "i64": (0, 0xFFFFFFFFFFFFFFFF, 0x7FFFFFFFFFFFFFFF, 0x8000000000000000, 63, 64, 0xFFFFFFFF, 0x80000000),
    "f32": (0, 0x80000000, 0x7F800000, 0xFF800000, 0x7FC00000, 0x7F7FFFFF, 0x00000001, 0x4F000000, 0x4B000001),
    "f64": (0, 1 << 63, 0x7FF0000000000000, 0xFFF0000000000000, 0x7FF8000000000000, 0x7FEFFFFFFFFFFFFF, 1, 0x41E0000000000000),
    "v128": (0, (1 << 128) - 1, 0x80000000800000008000000080000000, 0x7F800000FF8000007FC0000080000000),
}

# How many calls are made of a module at most, though each function is called once.
MOST_CALLS = 2000

Argument = tuple[str, int]


@dataclass(frozen=True)
class Call:
    """A call of an exported function; each argument is a type and its bits, a reference is null."""

    function: str
    arguments: tuple[Argument, ...]

    def __str__(self) -> str:
        return f"{self.function}({', '.join(argument_text(argument) for argument in self.arguments)})"


def argument_text(argument: Argument) -> str:
    """An argument as `i32:5`, that of a float by its bits."""
    kind, bits = argument
    if kind not in WIDTHS:
        return f"{kind}:null"
    return f"{kind}:{bits}" if kind in ("i32", "i64") else f"{kind}:{bits:#x}"


def argument(kind: str, turn: int, place: int, words: random.Random) -> Argument:
    """The argument of a type at a place among the parameters, for one of the turns."""
    if kind not in WIDTHS:
        return kind, 0
    if turn % 3 == 0:
        return kind, SMALL[kind][(turn // 3 + place) % len(SMALL[kind])]
    if turn % 3 == 1:
        return kind, ENDS[kind][(turn // 3 + 3 * place) % len(ENDS[kind])]
    bits = words.getrandbits(WIDTHS[kind])
    return kind, bits >> words.randrange(WIDTHS[kind]) if kind in ("i32", "i64") else bits


def calls_of(interface: Interface, turns: int, takes: frozenset[str]) -> list[Call]:
    """The calls on each exported function whose types are among those that an engine takes; equal ones for equal interfaces."""
    words = random.Random(0)
    functions = [export for export in interface.functions if takes.issuperset((*export.type.parameters, *export.type.results))]
    turns = max(1, min(turns, MOST_CALLS // max(1, len(functions))))
    calls = []
    for export in functions:
        kinds = export.type.parameters
        for turn in range(turns if kinds else min(turns, 2)):
            calls.append(Call(export.name, tuple(argument(kind, turn, place, words) for place, kind in enumerate(kinds))))
    return calls
