"""What operators take from the stack and leave there, of those for which the module and the blocks round them don't matter."""

from __future__ import annotations

from typing import Optional

from ..wasm.immediates import Argument
from ..wasm.module import Context
from ..wasm.operators import DROP, GLOBAL_GET, GLOBAL_SET, REF_FUNC, REF_NULL, TABLE_GET, TABLE_SET, Operator, prefixed
from ..wasm.types import F32, F64, FUNCREF, I32, I64, NULLABLE, REFERENCE, V128, ArrayType, StructureType, ValueType

Types = tuple[Optional[ValueType], ...]
Signature = tuple[Types, Types]

# A letter is a type; `a` is that of an address, `r` is a reference whose type isn't looked for.
LETTERS = {"i": I32, "l": I64, "f": F32, "d": F64, "v": V128, "r": None}

NUMERIC = """
45 i>i 1, 46 ii>i 10, 50 l>i 1, 51 ll>i 10, 5b ff>i 6, 61 dd>i 6, 67 i>i 3, 6a ii>i 15, 79 l>l 3, 7c ll>l 15, 8b f>f 7, 92 ff>f 7,
99 d>d 7, a0 dd>d 7, a7 l>i 1, a8 f>i 2, aa d>i 2, ac i>l 2, ae f>l 2, b0 d>l 2, b2 i>f 2, b4 l>f 2, b6 d>f 1, b7 i>d 2, b9 l>d 2,
bb f>d 1, bc f>i 1, bd d>l 1, be i>f 1, bf l>d 1, c0 i>i 2, c2 l>l 3, 41 >i 1, 42 >l 1, 43 >f 1, 44 >d 1, 01 > 1,
28 a>i 1, 29 a>l 1, 2a a>f 1, 2b a>d 1, 2c a>i 4, 30 a>l 6, 36 ai> 1, 37 al> 1, 38 af> 1, 39 ad> 1, 3a ai> 2, 3c al> 3,
d1 r>i 1, d3 rr>i 1, d4 r>r 1, 3f >a 1, 40 a>a 1
"""

BULK = "0 f>i 2, 2 d>i 2, 4 f>l 2, 6 d>l 2, 8 aii> 1, 9 > 1, a aaa> 1, b aia> 1, c tii> 1, d > 1, e ttt> 1, f rt>t 1, 10 >t 1, 11 trt> 1"

VECTORS = """
0 a>v 11, b av> 1, c >v 1, d vv>v 2, f i>v 3, 12 l>v 1, 13 f>v 1, 14 d>v 1, 15 v>i 2, 17 vi>v 1, 18 v>i 2, 1a vi>v 1, 1b v>i 1, 1c vi>v 1,
1d v>l 1, 1e vl>v 1, 1f v>f 1, 20 vf>v 1, 21 v>d 1, 22 vd>v 1, 23 vv>v 42, 4d v>v 1, 4e vv>v 4, 52 vvv>v 1, 53 v>i 1, 54 av>v 4, 58 av> 4,
5c a>v 2, 5e v>v 5, 63 v>i 2, 65 vv>v 2, 67 v>v 4, 6b vi>v 3, 6e vv>v 6, 74 v>v 2, 76 vv>v 4, 7a v>v 1, 7b vv>v 1, 7c v>v 6, 82 vv>v 1,
83 v>i 2, 85 vv>v 2, 87 v>v 4, 8b vi>v 3, 8e vv>v 6, 94 v>v 1, 95 vv>v 11, a0 v>v 2, a3 v>i 2, a7 v>v 4, ab vi>v 3, ae vv>v 18, c0 v>v 2,
c3 v>i 2, c7 v>v 4, cb vi>v 3, ce vv>v 18, e0 v>v 4, e4 vv>v 8, ec v>v 4, f0 vv>v 8, f8 v>v 8, 100 vv>v 1, 101 v>v 4, 105 vvv>v 8,
10d vv>v 6, 113 vvv>v 1
"""

ATOMICS = """
0 ai>i 1, 1 ail>i 1, 2 all>i 1, 3 > 1, 10 a>i 1, 11 a>l 1, 12 a>i 2, 14 a>l 3, 17 ai> 1, 18 al> 1, 19 ai> 2, 1b al> 3,
1e ai>i 1, 1f al>l 1, 20 ai>i 2, 22 al>l 3, 25 ai>i 1, 26 al>l 1, 27 ai>i 2, 29 al>l 3, 2c ai>i 1, 2d al>l 1, 2e ai>i 2, 30 al>l 3,
33 ai>i 1, 34 al>l 1, 35 ai>i 2, 37 al>l 3, 3a ai>i 1, 3b al>l 1, 3c ai>i 2, 3e al>l 3, 41 ai>i 1, 42 al>l 1, 43 ai>i 2, 45 al>l 3,
48 aii>i 1, 49 all>l 1, 4a aii>i 2, 4c all>l 3
"""

OBJECTS = "f r>i 1, 14 r>i 2, 16 r>r 2, 1a r>r 2, 1c i>r 1, 1d r>i 2"


def parsed(table: str, prefix: int | None = None) -> dict[int, tuple[str, str]]:
    """The rows of a table: a code, what it takes and leaves, and how many codes from it on do the same."""
    found = {}
    for row in table.replace("\n", " ").split(","):
        first, letters, count = row.split()
        for code in range(int(first, 16), int(first, 16) + int(count)):
            taken, left = letters.split(">")
            found[code if prefix is None else prefixed(prefix, code)] = taken, left
    return found


LETTERED = (parsed(NUMERIC) | parsed(OBJECTS, 0xFB) | parsed(BULK, 0xFC) | parsed(VECTORS, 0xFD) | parsed(ATOMICS, 0xFE))


def address(is_wide: bool) -> ValueType:
    return I64 if is_wide else I32


def memory_address(operator: Operator, context: Context) -> ValueType:
    """The type of addresses in the memory that an operator names."""
    index = next((value for value in map(memory_of, operator.values) if value is not None), 0)
    return address(index < len(context.memories) and context.memories[index].is_wide())


def memory_of(value: object) -> int | None:
    if isinstance(value, Argument):
        return value.memory_index()
    return value if isinstance(value, int) else None


def table_address(operator: Operator, context: Context) -> ValueType:
    """The type of indices into the table that an operator names last."""
    index = operator.number(-1)
    return address(index < len(context.tables) and context.tables[index].limits.is_wide())


def signature(operator: Operator, context: Context) -> Signature | None:
    """What an operator takes and leaves, if it is known here."""
    letters = LETTERED.get(operator.code)
    if letters:
        taken, left = (tuple(type_of(letter, operator, context) for letter in each) for each in letters)
        return taken, left
    if operator.code in (GLOBAL_GET, GLOBAL_SET):
        return global_signature(operator, context)
    if operator.code in (TABLE_GET, TABLE_SET):
        index, element = table_address(operator, context), element_of(operator.number(), context)
        return ((index,), (element,)) if operator.code == TABLE_GET else ((index, element), ())
    if operator.code == REF_NULL:
        heap = operator.number()
        return (), (ValueType(NULLABLE, heap) if heap >= 0 else ValueType(heap + 0x80),)
    if operator.code == REF_FUNC:
        return (), (FUNCREF,)
    if operator.code == DROP:
        return (None,), ()
    return object_signature(operator, context)


def type_of(letter: str, operator: Operator, context: Context) -> ValueType | None:
    if letter == "a":
        return memory_address(operator, context)
    return table_address(operator, context) if letter == "t" else LETTERS[letter]


def global_signature(operator: Operator, context: Context) -> Signature | None:
    index = operator.number()
    if index >= len(context.globals):
        return None
    kind = context.globals[index].value
    return ((), (kind,)) if operator.code == GLOBAL_GET else ((kind,), ())


def element_of(index: int, context: Context) -> ValueType | None:
    return context.tables[index].element if index < len(context.tables) else None


def object_signature(operator: Operator, context: Context) -> Signature | None:
    """Of an operator on structures and arrays; their references are of the type that is named, and not null."""
    if operator.code >> 16 != 0xFB or not operator.values:
        return None
    index = operator.values[0]
    if not isinstance(index, int):
        return None
    found = context.types[index].composite if 0 <= index < len(context.types) else None
    code, new = operator.code & 0xFFFF, (ValueType(REFERENCE, index),)
    if isinstance(found, StructureType):
        fields = tuple(unpacked(field.storage) for field in found.fields)
        place = operator.number(-1) if len(operator.values) == 2 else 0
        field = fields[place : place + 1]
        return {0: (fields, new), 1: ((), new), 2: ((None,), field), 3: ((None,), field), 4: ((None,), field),
                5: ((None, *field), ())}.get(code)
    if isinstance(found, ArrayType):
        element = unpacked(found.element.storage)
        count = operator.number(1) if code == 8 else 0
        ranges = {code: ((I32, I32), new) for code in (9, 10)} | {code: ((None, I32, I32, I32), ()) for code in (18, 19)}
        return {6: ((element, I32), new), 7: ((I32,), new), 8: ((element,) * count, new), 11: ((None, I32), (element,)),
                12: ((None, I32), (element,)), 13: ((None, I32), (element,)), 14: ((None, I32, element), ()),
                16: ((None, I32, element, I32), ()), 17: ((None, I32, None, I32, I32), ())}.get(code) or ranges.get(code)
    return None


def unpacked(kind: ValueType) -> ValueType:
    return I32 if kind.code in (0x78, 0x77) else kind
