"""Two encodings of typed references and garbage collection. That of WebAssembly 3.0 is read. The encoding of 2022, which binaryen 108 and
node 20 still use, gives another meaning to some of the same bytes."""

from __future__ import annotations

from .module import Context, Function
from .operators import BR_ON_NULL, CALL_REF, REF_AS_NON_NULL, REF_EQ, REF_NULL, RETURN_CALL_REF, Body, Operator
from .types import ArrayType, StructureType, ValueType

# Operators of one byte, and codes of types, with another meaning or length in the encoding of 2022: there a type's index follows 0x6b and
# 0x6c, which are references to structures and to small integers in 3.0.
OTHER_OPERATORS = frozenset((CALL_REF, RETURN_CALL_REF, REF_EQ, REF_AS_NON_NULL, BR_ON_NULL))
OTHER_TYPES = frozenset(range(0x63, 0x6D))

OBJECTS = 0xFB
STRUCTURE_OPERATORS, ARRAY_OPERATORS = range(6), range(6, 20)


def differs_between_encodings(kinds: tuple[ValueType, ...], body: Body) -> bool:
    """Whether code with these locals has something that the encodings read differently."""
    return any(kind.code in OTHER_TYPES for kind in kinds) or any(map(operator_differs, body))


def operator_differs(operator: Operator) -> bool:
    if operator.code in OTHER_OPERATORS or operator.code >> 16 == OBJECTS:
        return True
    if operator.code == REF_NULL:
        return operator.number() + 0x80 in OTHER_TYPES
    return any(kind.code in OTHER_TYPES for value in operator.values for kind in types_in(value))


def types_in(value: object) -> tuple[ValueType, ...]:
    """The types of values in an immediate."""
    if isinstance(value, ValueType):
        return (value,)
    return tuple(each for each in value if isinstance(each, ValueType)) if isinstance(value, tuple) else ()


def names_wrong_kind(context: Context, function: Function) -> bool:
    """Whether an operator on structures names an array or another type, or one on arrays a structure: no code of 3.0 does that."""
    return any(operator.code >> 16 == OBJECTS and operator.values and is_wrong_kind(context, operator) for operator in function.body)


def is_wrong_kind(context: Context, operator: Operator) -> bool:
    code, index = operator.code & 0xFFFF, operator.values[0]
    if not isinstance(index, int) or code not in (*STRUCTURE_OPERATORS, *ARRAY_OPERATORS):
        return False
    wanted = StructureType if code in STRUCTURE_OPERATORS else ArrayType
    return index >= len(context.types) or not isinstance(context.types[index].composite, wanted)
