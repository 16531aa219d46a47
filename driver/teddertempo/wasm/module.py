"""A module, decoded: what stands in its sections, each part as it is in the binary format. A module isn't changed, but another one is
made of it, which shares what is the same."""

from __future__ import annotations

from dataclasses import dataclass
from functools import cached_property, lru_cache
from itertools import groupby
from typing import TypeVar, Union

from .binary import items, number, sized
from .immediates import Space
from .operators import NAMING, Body, encode_body
from .types import DefinedType, FunctionType, GlobalType, Limits, TableType, TypeGroup, ValueType

Item = TypeVar("Item")
ImportType = Union[int, TableType, Limits, GlobalType]

HEAD = b"\0asm\1\0\0\0"
KINDS = (Space.FUNCTION, Space.TABLE, Space.MEMORY, Space.GLOBAL, Space.TAG)

CUSTOM, TYPES, IMPORTS, FUNCTIONS, TABLES, MEMORIES, GLOBALS, EXPORTS, START, ELEMENTS, CODE, DATA, DATA_COUNT, TAGS = range(14)
ORDER = (TYPES, IMPORTS, FUNCTIONS, TABLES, MEMORIES, TAGS, GLOBALS, EXPORTS, START, ELEMENTS, DATA_COUNT, CODE, DATA)


@dataclass(frozen=True)
class Import:
    """What is imported; the type of a function or a tag is an index."""

    module: bytes
    name: bytes
    kind: Space
    type: ImportType

    def encoded(self) -> bytes:
        attribute = b"\0" if self.kind is Space.TAG else b""
        kind = number(self.type) if isinstance(self.type, int) else self.type.encoded()
        return sized(self.module) + sized(self.name) + bytes([KINDS.index(self.kind)]) + attribute + kind


@dataclass(frozen=True, eq=False)
class Function:
    """A function of the module's own: the index of its type, the types of its locals, and its body; or the bytes of its code entry,
    where these can't be decoded. The body is empty until the code section is read. Two functions are equal where they are the same."""

    type: int
    locals: tuple[ValueType, ...]
    body: Body
    unread: bytes | None = None

    @cached_property
    def code(self) -> bytes:
        """Its code entry."""
        if self.unread is not None:
            return sized(self.unread)
        runs = items(number(len(list(run))) + kind.encoded() for kind, run in groupby(self.locals))
        return sized(runs + encode_body(self.body))

    @cached_property
    def naming(self) -> int:
        """How many of its operators name something by an index."""
        return sum(operator.code in NAMING for operator in self.body)


@dataclass(frozen=True)
class Table:
    type: TableType
    start: Body | None = None

    def encoded(self) -> bytes:
        return self.type.encoded() if self.start is None else b"\x40\0" + self.type.encoded() + encode_body(self.start)


@dataclass(frozen=True)
class Global:
    type: GlobalType
    start: Body

    def encoded(self) -> bytes:
        return self.type.encoded() + encode_body(self.start)


@dataclass(frozen=True)
class Export:
    name: bytes
    kind: Space
    index: int

    def encoded(self) -> bytes:
        return sized(self.name) + bytes([KINDS.index(self.kind)]) + number(self.index)


@dataclass(frozen=True)
class Element:
    """A segment of elements, which are functions by their indices, or expressions if the flags say so. Its offset is empty if it isn't
    active."""

    PASSIVE, NAMES_TABLE, HAS_EXPRESSIONS = 1, 2, 4

    flags: int
    table: int
    offset: Body
    type: ValueType | None
    functions: tuple[int, ...] = ()
    expressions: tuple[Body, ...] = ()

    def is_active(self) -> bool:
        return not self.flags & self.PASSIVE

    def encoded(self) -> bytes:
        parts = [number(self.flags)]
        if self.is_active():
            parts += [number(self.table)] if self.flags & self.NAMES_TABLE else []
            parts.append(encode_body(self.offset))
        if self.flags & (self.PASSIVE | self.NAMES_TABLE):
            parts.append(b"\0" if self.type is None else self.type.encoded())
        has_expressions = self.flags & self.HAS_EXPRESSIONS
        parts.append(items(map(encode_body, self.expressions)) if has_expressions else items(map(number, self.functions)))
        return b"".join(parts)


@dataclass(frozen=True)
class Data:
    """A segment of bytes, which go to a memory at the start if it is active; else its offset is empty."""

    PASSIVE, NAMES_MEMORY = 1, 2

    flags: int
    memory: int
    offset: Body
    content: bytes

    def is_active(self) -> bool:
        return self.flags != self.PASSIVE

    def encoded(self) -> bytes:
        memory = number(self.memory) if self.flags == self.NAMES_MEMORY else b""
        return number(self.flags) + memory + encode_body(self.offset) + sized(self.content)


@dataclass(frozen=True)
class Extra:
    """A section that is left as it is: a custom one, or one that can't be decoded; and the section behind which it stands."""

    behind: int
    code: int
    content: bytes


@dataclass(frozen=True, eq=False)
class Context:
    """The types of all that a function's body may name, by index; two are equal where they are the same."""

    types: tuple[DefinedType, ...]
    functions: tuple[int, ...]
    tables: tuple[TableType, ...]
    memories: tuple[Limits, ...]
    globals: tuple[GlobalType, ...]
    tags: tuple[int, ...]

    def function_type(self, index: int) -> FunctionType | None:
        """The type of functions with an index among the types, where it is one."""
        found = self.types[index].composite if index < len(self.types) else None
        return found if isinstance(found, FunctionType) else None


# Modules of the same types have the same context, for what is kept of a function by it.
context_of = lru_cache(maxsize=64)(Context)


@dataclass(frozen=True, eq=False)
class Module:
    types: tuple[TypeGroup, ...] = ()
    imports: tuple[Import, ...] = ()
    functions: tuple[Function, ...] = ()
    tables: tuple[Table, ...] = ()
    memories: tuple[Limits, ...] = ()
    tags: tuple[int, ...] = ()
    globals: tuple[Global, ...] = ()
    exports: tuple[Export, ...] = ()
    start: int | None = None
    elements: tuple[Element, ...] = ()
    counts_data: bool = False
    data: tuple[Data, ...] = ()
    extras: tuple[Extra, ...] = ()

    def is_whole(self) -> bool:
        """Whether all of it is decoded but custom sections, so that each place that names an index is known."""
        return all(extra.code == CUSTOM for extra in self.extras) and all(function.unread is None for function in self.functions)

    def imported(self, kind: Space) -> int:
        """How many things of a kind are imported."""
        return sum(each.kind is kind for each in self.imports)

    def imported_types(self, kind: Space, form: type[Item]) -> tuple[Item, ...]:
        """The types of what is imported of a kind, which have the form that types of that kind have."""
        return tuple(each.type for each in self.imports if each.kind is kind and isinstance(each.type, form))

    @cached_property
    def context(self) -> Context:
        return context_of(
            tuple(each for group in self.types for each in group.types),
            (*self.imported_types(Space.FUNCTION, int), *(each.type for each in self.functions)),
            (*self.imported_types(Space.TABLE, TableType), *(each.type for each in self.tables)),
            (*self.imported_types(Space.MEMORY, Limits), *self.memories),
            (*self.imported_types(Space.GLOBAL, GlobalType), *(each.type for each in self.globals)),
            (*self.imported_types(Space.TAG, int), *self.tags),
        )

    @cached_property
    def operators(self) -> int:
        """How many operators its functions have."""
        return sum(len(function.body) for function in self.functions)

    @cached_property
    def naming(self) -> int:
        """How many of them name something by an index."""
        return sum(function.naming for function in self.functions)

    @cached_property
    def encoded(self) -> bytes:
        sections = {
            TYPES: [each.encoded() for each in self.types],
            IMPORTS: [each.encoded() for each in self.imports],
            FUNCTIONS: [number(each.type) for each in self.functions],
            TABLES: [each.encoded() for each in self.tables],
            MEMORIES: [each.encoded() for each in self.memories],
            TAGS: [b"\0" + number(each) for each in self.tags],
            GLOBALS: [each.encoded() for each in self.globals],
            EXPORTS: [each.encoded() for each in self.exports],
            ELEMENTS: [each.encoded() for each in self.elements],
            CODE: [each.code for each in self.functions],
            DATA: [each.encoded() for each in self.data],
        }
        contents = {code: items(parts) for code, parts in sections.items() if parts}
        contents |= {} if self.start is None else {START: number(self.start)}
        contents |= {DATA_COUNT: number(len(self.data))} if self.counts_data else {}
        made = [HEAD]
        for code in (CUSTOM, *ORDER):
            made += [bytes([code]) + sized(contents[code])] if code in contents else []
            made += [bytes([extra.code]) + sized(extra.content) for extra in self.extras if extra.behind == code]
        return b"".join(made)
