"""The operators of WebAssembly 3.0, of threads, of relaxed vectors and of the older exceptions: what stands behind each code."""

from __future__ import annotations

from dataclasses import dataclass

from .binary import Reader, Unreadable, number
from .immediates import (BlockForm, Bytes, Catches, HeapType, Immediate, IndexOf, Label, Labels, MemoryArgument, Number, Relabel, Signed,
                         Space, ImmediateValue, ValueTypes, Visit, narrowed)

PREFIXES = (0xFB, 0xFC, 0xFD, 0xFE)


def prefixed(prefix: int, code: int) -> int:
    """The code of an operator behind a prefix."""
    return prefix << 16 | code


UNREACHABLE, NOP, BLOCK, LOOP, IF, ELSE, TRY, CATCH, THROW, RETHROW, THROW_REF, END = (*range(0x09), 0x09, 0x0A, 0x0B)
BR, BR_IF, BR_TABLE, RETURN, CALL, CALL_INDIRECT, RETURN_CALL, RETURN_CALL_INDIRECT, CALL_REF, RETURN_CALL_REF = range(0x0C, 0x16)
DELEGATE, CATCH_ALL, DROP, SELECT, TYPED_SELECT, TRY_TABLE = 0x18, 0x19, 0x1A, 0x1B, 0x1C, 0x1F
LOCAL_GET, LOCAL_SET, LOCAL_TEE, GLOBAL_GET, GLOBAL_SET, TABLE_GET, TABLE_SET = range(0x20, 0x27)
FIRST_LOAD, FIRST_STORE, LAST_STORE, MEMORY_SIZE, MEMORY_GROW = 0x28, 0x36, 0x3E, 0x3F, 0x40
I32_CONST, I64_CONST, F32_CONST, F64_CONST, FIRST_NUMERIC, LAST_NUMERIC = 0x41, 0x42, 0x43, 0x44, 0x45, 0xC4
REF_NULL, REF_IS_NULL, REF_FUNC, REF_EQ, REF_AS_NON_NULL, BR_ON_NULL, BR_ON_NON_NULL = range(0xD0, 0xD7)
V128_CONST, I8X16_SPLAT = prefixed(0xFD, 12), prefixed(0xFD, 15)
MEMORY_INIT, DATA_DROP = prefixed(0xFC, 8), prefixed(0xFC, 9)
ARRAY_NEW_DATA, ARRAY_INIT_DATA = prefixed(0xFB, 9), prefixed(0xFB, 18)

OPENS = frozenset((BLOCK, LOOP, IF, TRY, TRY_TABLE))
CLOSES = frozenset((END, DELEGATE))
PARTS = frozenset((ELSE, CATCH, CATCH_ALL))
NAME_DATA = frozenset((MEMORY_INIT, DATA_DROP, ARRAY_NEW_DATA, ARRAY_INIT_DATA))

TYPE, FUNCTION, TABLE, MEMORY, GLOBAL, TAG, ELEMENT, DATA, LOCAL = map(IndexOf, Space)
BLOCK_FORM, LABEL, LABELS, NUMBER, HEAP_TYPE, ARGUMENT = BlockForm(), Label(), Labels(), Number(), HeapType(), MemoryArgument()
BYTE = Bytes(1)

Form = tuple[Immediate, ...]


def plain_forms() -> dict[int, Form]:
    """The operators of one byte."""
    forms: dict[int, Form] = {code: () for code in (UNREACHABLE, NOP, ELSE, THROW_REF, END, RETURN, CATCH_ALL, DROP, SELECT, REF_IS_NULL,
                                                   REF_EQ, REF_AS_NON_NULL, *range(FIRST_NUMERIC, LAST_NUMERIC + 1))}
    forms |= {code: (BLOCK_FORM,) for code in (BLOCK, LOOP, IF, TRY)}
    forms |= {code: (LABEL,) for code in (RETHROW, BR, BR_IF, DELEGATE, BR_ON_NULL, BR_ON_NON_NULL)}
    forms |= {code: (FUNCTION,) for code in (CALL, RETURN_CALL, REF_FUNC)}
    forms |= {code: (TYPE, TABLE) for code in (CALL_INDIRECT, RETURN_CALL_INDIRECT)}
    forms |= {code: (TYPE,) for code in (CALL_REF, RETURN_CALL_REF)}
    forms |= {code: (LOCAL,) for code in (LOCAL_GET, LOCAL_SET, LOCAL_TEE)}
    forms |= {code: (GLOBAL,) for code in (GLOBAL_GET, GLOBAL_SET)}
    forms |= {code: (TABLE,) for code in (TABLE_GET, TABLE_SET)}
    forms |= {code: (ARGUMENT,) for code in range(FIRST_LOAD, LAST_STORE + 1)}
    forms |= {code: (MEMORY,) for code in (MEMORY_SIZE, MEMORY_GROW)}
    forms |= {CATCH: (TAG,), THROW: (TAG,), BR_TABLE: (LABELS,), TYPED_SELECT: (ValueTypes(),), TRY_TABLE: (BLOCK_FORM, Catches()),
              I32_CONST: (Signed(32),), I64_CONST: (Signed(64),), F32_CONST: (Bytes(4),), F64_CONST: (Bytes(8),), REF_NULL: (HEAP_TYPE,)}
    return forms


def object_forms() -> dict[int, Form]:
    """Structures, arrays, casts and small integers."""
    forms: dict[int, Form] = {code: (TYPE,) for code in (0, 1, 6, 7, 11, 12, 13, 14, 16)}
    forms |= {code: (TYPE, NUMBER) for code in (2, 3, 4, 5, 8)}
    forms |= {9: (TYPE, DATA), 10: (TYPE, ELEMENT), 15: (), 17: (TYPE, TYPE), 18: (TYPE, DATA), 19: (TYPE, ELEMENT)}
    forms |= {code: (HEAP_TYPE,) for code in (20, 21, 22, 23)}
    forms |= {code: (BYTE, LABEL, HEAP_TYPE, HEAP_TYPE) for code in (24, 25)}
    return forms | {code: () for code in range(26, 31)}


def bulk_forms() -> dict[int, Form]:
    """Conversions that saturate, operators on ranges of memories and tables, and wide arithmetic."""
    forms: dict[int, Form] = {code: () for code in (*range(8), *range(19, 23))}
    return forms | {8: (DATA, MEMORY), 9: (DATA,), 10: (MEMORY, MEMORY), 11: (MEMORY,), 12: (ELEMENT, TABLE), 13: (ELEMENT,),
                    14: (TABLE, TABLE), 15: (TABLE,), 16: (TABLE,), 17: (TABLE,)}


def vector_forms() -> dict[int, Form]:
    """Vectors, relaxed ones too."""
    forms: dict[int, Form] = {code: () for code in range(276)}
    forms |= {code: (ARGUMENT,) for code in (*range(12), 92, 93)}
    forms |= {code: (BYTE,) for code in range(21, 35)}
    forms |= {code: (ARGUMENT, BYTE) for code in range(84, 92)}
    return forms | {12: (Bytes(16),), 13: (Bytes(16),)}


def atomic_forms() -> dict[int, Form]:
    return {code: (ARGUMENT,) for code in (0, 1, 2, *range(0x10, 0x4F))} | {3: (BYTE,)}


def all_forms() -> dict[int, Form]:
    forms = plain_forms()
    for prefix, behind in zip(PREFIXES, (object_forms(), bulk_forms(), vector_forms(), atomic_forms())):
        forms |= {prefixed(prefix, code): form for code, form in behind.items()}
    return forms


FORMS = all_forms()
NAMING = frozenset(code for code, form in FORMS.items() if any(isinstance(each, IndexOf) for each in form))


@dataclass(frozen=True)
class Operator:
    """An operator: its code, behind a prefix by `prefixed`, and what stands behind it."""

    code: int
    values: tuple[ImmediateValue, ...] = ()

    def number(self, place: int = 0) -> int:
        """The number at a place after the code: an index, a label, or a constant."""
        return narrowed(self.values[place], int)

    def encoded(self) -> bytes:
        head = bytes([self.code]) if self.code < 0x100 else bytes([self.code >> 16]) + number(self.code & 0xFFFF)
        return head + b"".join(form.encoded(value) for form, value in zip(FORMS[self.code], self.values))

    def visited(self, visit: Visit) -> Operator:
        """The same with other indices."""
        if not self.values:
            return self
        values = tuple(form.visited(value, visit) for form, value in zip(FORMS[self.code], self.values))
        return self if values == self.values else Operator(self.code, values)

    def relabelled(self, relabel: Relabel) -> Operator:
        """The same with other labels."""
        if not self.values:
            return self
        values = tuple(form.relabelled(value, relabel) for form, value in zip(FORMS[self.code], self.values))
        return self if values == self.values else Operator(self.code, values)


Body = tuple[Operator, ...]


def read_operator(reader: Reader) -> Operator:
    code = reader.byte()
    if code in PREFIXES:
        code = prefixed(code, reader.number())
    form = FORMS.get(code)
    if form is None:
        raise Unreadable(f"no operator is known as {code:#x}")
    return Operator(code, tuple(immediate.read(reader) for immediate in form))


def read_body(reader: Reader) -> Body:
    """The operators up to the `end` that closes them, which is the last of them."""
    operators: list[Operator] = []
    depth = 1
    while depth:
        operator = read_operator(reader)
        operators.append(operator)
        depth += (operator.code in OPENS) - (operator.code in CLOSES)
    return tuple(operators)


def encode_body(body: Body) -> bytes:
    return b"".join(operator.encoded() for operator in body)


def visit_body(body: Body, visit: Visit) -> Body:
    return tuple(operator.visited(visit) for operator in body)
