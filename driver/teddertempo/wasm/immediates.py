"""The immediates after an operator's code: how each is read and written, and which indices and labels are in it."""

from __future__ import annotations

from dataclasses import dataclass
from enum import Enum
from typing import Callable, Tuple, TypeVar, Union

from .binary import Reader, Unreadable, items, number, signed
from .types import ValueType, encoded_all, read_heap_type, read_value_type, read_value_types, visited_all

EMPTY_BLOCK = 0x40


class Space(Enum):
    """What an index counts."""

    TYPE = "type"
    FUNCTION = "function"
    TABLE = "table"
    MEMORY = "memory"
    GLOBAL = "global"
    TAG = "tag"
    ELEMENT = "element segment"
    DATA = "data segment"
    LOCAL = "local"


# What makes another index of one: for each index of a space, and for each label.
Visit = Callable[[Space, int], int]
Relabel = Callable[[int], int]


@dataclass(frozen=True)
class Argument:
    """Of an access to memory: the alignment, the memory where it is named, and the offset."""

    alignment: int
    memory: int | None
    offset: int

    def memory_index(self) -> int:
        return self.memory or 0


@dataclass(frozen=True)
class Catch:
    """A clause of `try_table`: its code, the tag that it names, if it does, and where it branches to."""

    code: int
    tag: int | None
    label: int


class Targets(Tuple[int, ...]):
    """The labels of a table of branches; the last is the default."""


class Kinds(Tuple[ValueType, ...]):
    """The types that a `select` names."""


class Clauses(Tuple[Catch, ...]):
    """The clauses of a `try_table`."""


ImmediateValue = Union[None, int, bytes, ValueType, Argument, Targets, Kinds, Clauses]
Own = TypeVar("Own", bound=ImmediateValue)


def narrowed(value: ImmediateValue, form: type[Own]) -> Own:
    """A value that is known to have a form."""
    assert isinstance(value, form)
    return value


class Immediate:
    """An immediate. Most name no index and no label."""

    def read(self, reader: Reader) -> ImmediateValue:
        raise NotImplementedError

    def encoded(self, value: ImmediateValue) -> bytes:
        raise NotImplementedError

    def visited(self, value: ImmediateValue, visit: Visit) -> ImmediateValue:
        """The value with other indices."""
        return value

    def relabelled(self, value: ImmediateValue, relabel: Relabel) -> ImmediateValue:
        """The value with other labels."""
        return value


class Number(Immediate):
    def read(self, reader: Reader) -> int:
        return reader.number()

    def encoded(self, value: ImmediateValue) -> bytes:
        return number(narrowed(value, int))


@dataclass(frozen=True)
class IndexOf(Number):
    space: Space

    def visited(self, value: ImmediateValue, visit: Visit) -> int:
        return visit(self.space, narrowed(value, int))


class Label(Number):
    def relabelled(self, value: ImmediateValue, relabel: Relabel) -> int:
        return relabel(narrowed(value, int))


class Labels(Immediate):
    def read(self, reader: Reader) -> Targets:
        labels = reader.items(reader.number)
        return Targets((*labels, reader.number()))

    def encoded(self, value: ImmediateValue) -> bytes:
        *labels, last = narrowed(value, Targets)
        return items(map(number, labels)) + number(last)

    def relabelled(self, value: ImmediateValue, relabel: Relabel) -> Targets:
        return Targets(map(relabel, narrowed(value, Targets)))


class BlockForm(Immediate):
    """The type of a block: none, that of its one result, or the index of a function's type."""

    def read(self, reader: Reader) -> None | ValueType | int:
        code = reader.peek()
        if code == EMPTY_BLOCK:
            reader.byte()
            return None
        return read_value_type(reader) if 0x40 < code < 0x80 else reader.signed(33)

    def encoded(self, value: ImmediateValue) -> bytes:
        if value is None:
            return bytes([EMPTY_BLOCK])
        return value.encoded() if isinstance(value, ValueType) else signed(narrowed(value, int))

    def visited(self, value: ImmediateValue, visit: Visit) -> ImmediateValue:
        if isinstance(value, ValueType):
            return value.visited(lambda index: visit(Space.TYPE, index))
        return value if value is None else visit(Space.TYPE, narrowed(value, int))


class ValueTypes(Immediate):
    def read(self, reader: Reader) -> Kinds:
        return Kinds(read_value_types(reader))

    def encoded(self, value: ImmediateValue) -> bytes:
        return encoded_all(narrowed(value, Kinds))

    def visited(self, value: ImmediateValue, visit: Visit) -> Kinds:
        return Kinds(visited_all(narrowed(value, Kinds), lambda index: visit(Space.TYPE, index)))


class HeapType(Immediate):
    def read(self, reader: Reader) -> int:
        return read_heap_type(reader)

    def encoded(self, value: ImmediateValue) -> bytes:
        return signed(narrowed(value, int))

    def visited(self, value: ImmediateValue, visit: Visit) -> int:
        heap = narrowed(value, int)
        return visit(Space.TYPE, heap) if heap >= 0 else heap


class MemoryArgument(Immediate):
    NAMES_MEMORY = 0x40

    def read(self, reader: Reader) -> Argument:
        flags = reader.number()
        if flags >= 2 * self.NAMES_MEMORY:
            raise Unreadable("an alignment isn't known")
        memory = reader.number() if flags & self.NAMES_MEMORY else None
        return Argument(flags & ~self.NAMES_MEMORY, memory, reader.number(64))

    def encoded(self, value: ImmediateValue) -> bytes:
        argument = narrowed(value, Argument)
        if argument.memory is None:
            return number(argument.alignment) + number(argument.offset)
        return number(argument.alignment | self.NAMES_MEMORY) + number(argument.memory) + number(argument.offset)

    def visited(self, value: ImmediateValue, visit: Visit) -> Argument:
        argument = narrowed(value, Argument)
        memory = visit(Space.MEMORY, argument.memory_index())
        if memory == argument.memory_index():
            return argument
        return Argument(argument.alignment, memory or None, argument.offset)


@dataclass(frozen=True)
class Bytes(Immediate):
    """So many bytes: of a float, a vector, lanes, or ones that are kept for later."""

    count: int

    def read(self, reader: Reader) -> bytes:
        return reader.take(self.count)

    def encoded(self, value: ImmediateValue) -> bytes:
        return narrowed(value, bytes)


@dataclass(frozen=True)
class Signed(Immediate):
    bits: int

    def read(self, reader: Reader) -> int:
        return reader.signed(self.bits)

    def encoded(self, value: ImmediateValue) -> bytes:
        return signed(narrowed(value, int))


class Catches(Immediate):
    NAME_A_TAG = (0, 1)

    def read(self, reader: Reader) -> Clauses:
        return Clauses(reader.items(lambda: self.read_one(reader)))

    def read_one(self, reader: Reader) -> Catch:
        code = reader.byte()
        if code > 3:
            raise Unreadable(f"no clause is known as {code}")
        tag = reader.number() if code in self.NAME_A_TAG else None
        return Catch(code, tag, reader.number())

    def encoded(self, value: ImmediateValue) -> bytes:
        return items(bytes([each.code]) + (b"" if each.tag is None else number(each.tag)) + number(each.label)
                     for each in narrowed(value, Clauses))

    def visited(self, value: ImmediateValue, visit: Visit) -> Clauses:
        return Clauses(Catch(each.code, None if each.tag is None else visit(Space.TAG, each.tag), each.label)
                       for each in narrowed(value, Clauses))

    def relabelled(self, value: ImmediateValue, relabel: Relabel) -> Clauses:
        return Clauses(Catch(each.code, each.tag, relabel(each.label)) for each in narrowed(value, Clauses))
