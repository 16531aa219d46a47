"""Code that is simple: constants of types, and bodies of them."""

from __future__ import annotations

from ...wasm.operators import (END, F32_CONST, F64_CONST, I32_CONST, I64_CONST, I8X16_SPLAT, REF_NULL, UNREACHABLE, Body, Operator)
from ...wasm.types import F32, F64, I32, I64, NULLABLE, V128, ValueType
from ..signatures import Types

ZEROS = {
    I32: (Operator(I32_CONST, (0,)),),
    I64: (Operator(I64_CONST, (0,)),),
    F32: (Operator(F32_CONST, (bytes(4),)),),
    F64: (Operator(F64_CONST, (bytes(8),)),),
    V128: (Operator(I32_CONST, (0,)), Operator(I8X16_SPLAT)),
}
UNREACHABLE_BODY = (Operator(UNREACHABLE), Operator(END))


def zero_of(kind: ValueType | None) -> Body | None:
    """The constant 0 of a type, or null; none where there is none, or the type isn't known."""
    if kind in ZEROS:
        return ZEROS[kind]
    if kind is None or kind.code >= V128.code or (kind.heap is not None and kind.code != NULLABLE):
        return None
    return (Operator(REF_NULL, (kind.code - 0x80 if kind.heap is None else kind.heap,)),)


def zeros_of(kinds: Types) -> Body | None:
    """Constants of types, one behind the other; none where one has none."""
    zeros: list[Operator] = []
    for kind in kinds:
        zero = zero_of(kind)
        if zero is None:
            return None
        zeros += zero
    return tuple(zeros)
