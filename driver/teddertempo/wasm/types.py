"""Types of the binary format: of values, functions, structures and arrays, tables, memories and globals. Each has a way to have the
types that it names renumbered: `visited` makes the same with other indices."""

from __future__ import annotations

from dataclasses import dataclass
from typing import Callable

from .binary import Reader, Unreadable, items, number, signed

TypeIndex = Callable[[int], int]

REFERENCE, NULLABLE = 0x64, 0x63
SMALLEST_ABSTRACT, GREATEST_ABSTRACT = 0x69, 0x74  # others, as of continuations, are known to proposals alone
SUB, FINAL_SUB, GROUP = 0x50, 0x4F, 0x4E
FUNCTION, STRUCTURE, ARRAY = 0x60, 0x5F, 0x5E


@dataclass(frozen=True)
class ValueType:
    """A type of values, or one that fields are packed in: its code, and behind a code of references what is referred to: a type's
    index, or below 0 an abstract one."""

    code: int
    heap: int | None = None

    def visited(self, index: TypeIndex) -> ValueType:
        return self if self.heap is None or self.heap < 0 else ValueType(self.code, index(self.heap))

    def encoded(self) -> bytes:
        return bytes([self.code]) + (b"" if self.heap is None else signed(self.heap))


I32, I64, F32, F64, V128 = (ValueType(code) for code in (0x7F, 0x7E, 0x7D, 0x7C, 0x7B))
FUNCREF, EXTERNREF = ValueType(0x70), ValueType(0x6F)
PACKED = (0x78, 0x77)


def read_heap_type(reader: Reader) -> int:
    heap = reader.signed(33)
    if heap < 0 and not SMALLEST_ABSTRACT <= heap + 0x80 <= GREATEST_ABSTRACT:
        raise Unreadable("a type to refer to isn't known")
    return heap


def read_value_type(reader: Reader) -> ValueType:
    code = reader.byte()
    if code in (REFERENCE, NULLABLE):
        return ValueType(code, read_heap_type(reader))
    if I32.code >= code >= V128.code or SMALLEST_ABSTRACT <= code <= GREATEST_ABSTRACT:
        return ValueType(code)
    raise Unreadable(f"no type of values is known as {code:#x}")


@dataclass(frozen=True)
class FieldType:
    """The type of a field, or of the elements of an array."""

    storage: ValueType
    mutable: int

    def visited(self, index: TypeIndex) -> FieldType:
        return FieldType(self.storage.visited(index), self.mutable)

    def encoded(self) -> bytes:
        return self.storage.encoded() + bytes([self.mutable])


def read_field_type(reader: Reader) -> FieldType:
    storage = ValueType(reader.byte()) if reader.peek() in PACKED else read_value_type(reader)
    return FieldType(storage, read_flag(reader))


def read_flag(reader: Reader) -> int:
    flag = reader.byte()
    if flag > 1:
        raise Unreadable("it is neither mutable nor not")
    return flag


@dataclass(frozen=True)
class FunctionType:
    parameters: tuple[ValueType, ...]
    results: tuple[ValueType, ...]

    def visited(self, index: TypeIndex) -> FunctionType:
        return FunctionType(visited_all(self.parameters, index), visited_all(self.results, index))

    def encoded(self) -> bytes:
        return bytes([FUNCTION]) + encoded_all(self.parameters) + encoded_all(self.results)


@dataclass(frozen=True)
class StructureType:
    fields: tuple[FieldType, ...]

    def visited(self, index: TypeIndex) -> StructureType:
        return StructureType(tuple(field.visited(index) for field in self.fields))

    def encoded(self) -> bytes:
        return bytes([STRUCTURE]) + items(field.encoded() for field in self.fields)


@dataclass(frozen=True)
class ArrayType:
    element: FieldType

    def visited(self, index: TypeIndex) -> ArrayType:
        return ArrayType(self.element.visited(index))

    def encoded(self) -> bytes:
        return bytes([ARRAY]) + self.element.encoded()


def visited_all(types: tuple[ValueType, ...], index: TypeIndex) -> tuple[ValueType, ...]:
    return tuple(each.visited(index) for each in types)


def encoded_all(types: tuple[ValueType, ...]) -> bytes:
    return items(each.encoded() for each in types)


def read_value_types(reader: Reader) -> tuple[ValueType, ...]:
    return reader.items(lambda: read_value_type(reader))


@dataclass(frozen=True)
class DefinedType:
    """A type of the module: what it is, and where it is written as a subtype its form and the types above it."""

    composite: FunctionType | StructureType | ArrayType
    form: int | None = None
    above: tuple[int, ...] = ()

    def visited(self, index: TypeIndex) -> DefinedType:
        return DefinedType(self.composite.visited(index), self.form, tuple(index(each) for each in self.above))

    def encoded(self) -> bytes:
        form = b"" if self.form is None else bytes([self.form]) + items(number(each) for each in self.above)
        return form + self.composite.encoded()


def read_defined_type(reader: Reader) -> DefinedType:
    form: int | None = None
    above: tuple[int, ...] = ()
    if reader.peek() in (SUB, FINAL_SUB):
        form = reader.byte()
        above = reader.items(reader.number)
    code = reader.byte()
    if code == FUNCTION:
        parameters = read_value_types(reader)
        return DefinedType(FunctionType(parameters, read_value_types(reader)), form, above)
    if code == STRUCTURE:
        return DefinedType(StructureType(reader.items(lambda: read_field_type(reader))), form, above)
    if code == ARRAY:
        return DefinedType(ArrayType(read_field_type(reader)), form, above)
    raise Unreadable(f"no form of types is known as {code:#x}")


@dataclass(frozen=True)
class TypeGroup:
    """Types that may name one another; one that is written alone is a group too."""

    types: tuple[DefinedType, ...]
    is_written: bool = False

    def visited(self, index: TypeIndex) -> TypeGroup:
        return TypeGroup(tuple(each.visited(index) for each in self.types), self.is_written)

    def encoded(self) -> bytes:
        parts = [each.encoded() for each in self.types]
        return bytes([GROUP]) + items(parts) if self.is_written else b"".join(parts)


def read_type_group(reader: Reader) -> TypeGroup:
    if reader.peek() == GROUP:
        reader.byte()
        return TypeGroup(reader.items(lambda: read_defined_type(reader)), True)
    return TypeGroup((read_defined_type(reader),))


@dataclass(frozen=True)
class Limits:
    """How large a table or a memory is at least, and at most; its flags say too whether it is shared, or indexed by i64."""

    flags: int
    least: int
    most: int | None = None
    page: int | None = None

    def is_shared(self) -> bool:
        return bool(self.flags & 2)

    def is_wide(self) -> bool:
        return bool(self.flags & 4)

    def encoded(self) -> bytes:
        parts = [number(self.flags), number(self.least)]
        return b"".join(parts + [number(each) for each in (self.most, self.page) if each is not None])


def read_limits(reader: Reader) -> Limits:
    flags = reader.number()
    if flags > 15:
        raise Unreadable("its limits aren't known")
    least = reader.number(64)
    most = reader.number(64) if flags & 1 else None
    return Limits(flags, least, most, reader.number() if flags & 8 else None)


@dataclass(frozen=True)
class TableType:
    element: ValueType
    limits: Limits

    def visited(self, index: TypeIndex) -> TableType:
        return TableType(self.element.visited(index), self.limits)

    def encoded(self) -> bytes:
        return self.element.encoded() + self.limits.encoded()


def read_table_type(reader: Reader) -> TableType:
    element = read_value_type(reader)
    return TableType(element, read_limits(reader))


@dataclass(frozen=True)
class GlobalType:
    value: ValueType
    mutable: int

    def visited(self, index: TypeIndex) -> GlobalType:
        return GlobalType(self.value.visited(index), self.mutable)

    def encoded(self) -> bytes:
        return self.value.encoded() + bytes([self.mutable])


def read_global_type(reader: Reader) -> GlobalType:
    value = read_value_type(reader)
    return GlobalType(value, read_flag(reader))
