"""Decodes a module. A section that can't be decoded is kept as it is, and so is a function."""

from __future__ import annotations

from dataclasses import replace
from functools import lru_cache
from typing import Callable, Iterator, TypeVar

from .binary import Reader, Unreadable
from .encodings import differs_between_encodings, names_wrong_kind
from .immediates import Space
from .module import (CODE, CUSTOM, DATA, DATA_COUNT, ELEMENTS, EXPORTS, FUNCTIONS, GLOBALS, HEAD, IMPORTS, KINDS, MEMORIES, ORDER, START,
                     TABLES, TAGS, TYPES, Data, Element, Export, Extra, Function, Global, Import, ImportType, Module, Table)
from .operators import Body, read_body
from .types import ValueType, read_global_type, read_limits, read_table_type, read_type_group, read_value_type

Item = TypeVar("Item")

MOST_LOCALS = 50_000

# The sections of what a module asks for, has and offers, without code and segments.
DECLARING = frozenset((TYPES, IMPORTS, FUNCTIONS, TABLES, MEMORIES, TAGS, GLOBALS, EXPORTS))

MISMATCH = "it has more or fewer code entries than functions"


def read_module(data: bytes) -> Module:
    """The module; `Unreadable` if the bytes aren't a module."""
    return with_unclear_code(ModuleReader().module(data), data)


@lru_cache(maxsize=1 << 16)
def read_code(entry: bytes) -> tuple[tuple[ValueType, ...], Body] | None:
    """The locals and the body of a code entry, if it can be decoded."""
    reader = Reader(entry)
    try:
        kinds: list[ValueType] = []
        for _ in range(reader.number()):
            count = reader.number()
            kind = read_value_type(reader)
            if len(kinds) + count > MOST_LOCALS:
                return None
            kinds += [kind] * count
        body = read_body(reader)
        reader.end()
    except Unreadable:
        return None
    return tuple(kinds), body


@lru_cache(maxsize=1 << 16)
def is_unclear(entry: bytes) -> bool:
    """Whether a code entry can be decoded, but has another meaning in the encoding of 2022."""
    read = read_code(entry)
    return read is not None and differs_between_encodings(*read)


def with_unclear_code(module: Module, data: bytes) -> Module:
    """The module itself if all of it may be in the encoding of 3.0; else unclear code entries are kept as they are."""
    codes = [content for code, content in sections_of(data) if code == CODE]
    entries = [entry for content in codes for entry in read_all(Reader(content), Reader.sized)]
    unclear = [is_unclear(entry) for entry in entries]
    suspects = [function for function, each in zip(module.functions, unclear) if each]
    if not suspects or (module.is_whole() and not any(names_wrong_kind(module.context, each) for each in suspects)):
        return module
    return replace(module, functions=tuple(Function(function.type, (), (), entry) if each else function
                                           for function, entry, each in zip(module.functions, entries, unclear)))


def read_import(reader: Reader) -> Import:
    module, name, code = reader.sized(), reader.sized(), reader.byte()
    if code >= len(KINDS):
        raise Unreadable(f"no kind of imports is known as {code}")
    kind = KINDS[code]
    return Import(module, name, kind, IMPORT_TYPES[kind](reader))


def read_tag(reader: Reader) -> int:
    if reader.byte():
        raise Unreadable("a tag has an attribute that isn't known")
    return reader.number()


IMPORT_TYPES: dict[Space, Callable[[Reader], ImportType]] = {
    Space.FUNCTION: Reader.number,
    Space.TABLE: read_table_type,
    Space.MEMORY: read_limits,
    Space.GLOBAL: read_global_type,
    Space.TAG: read_tag,
}


def read_table(reader: Reader) -> Table:
    if reader.peek() != 0x40:
        return Table(read_table_type(reader))
    if reader.take(2) != b"\x40\0":
        raise Unreadable("a table isn't known")
    kind = read_table_type(reader)
    return Table(kind, read_body(reader))


def read_global(reader: Reader) -> Global:
    kind = read_global_type(reader)
    return Global(kind, read_body(reader))


def read_export(reader: Reader) -> Export:
    name, code = reader.sized(), reader.byte()
    if code >= len(KINDS):
        raise Unreadable(f"no kind of exports is known as {code}")
    return Export(name, KINDS[code], reader.number())


def read_element(reader: Reader) -> Element:
    flags = reader.number()
    if flags > 7:
        raise Unreadable("a segment isn't known")
    is_active = not flags & Element.PASSIVE
    table = reader.number() if is_active and flags & Element.NAMES_TABLE else 0
    offset = read_body(reader) if is_active else ()
    kind = None
    if flags & (Element.PASSIVE | Element.NAMES_TABLE):
        if flags & Element.HAS_EXPRESSIONS:
            kind = read_value_type(reader)
        elif reader.byte():
            raise Unreadable("a segment isn't known")
    if flags & Element.HAS_EXPRESSIONS:
        return Element(flags, table, offset, kind, expressions=reader.items(lambda: read_body(reader)))
    return Element(flags, table, offset, kind, functions=reader.items(reader.number))


def read_data(reader: Reader) -> Data:
    flags = reader.number()
    if flags > 2:
        raise Unreadable("a segment isn't known")
    memory = reader.number() if flags == Data.NAMES_MEMORY else 0
    offset = read_body(reader) if flags != Data.PASSIVE else ()
    return Data(flags, memory, offset, reader.sized())


def read_all(reader: Reader, read: Callable[[Reader], Item]) -> tuple[Item, ...]:
    """All items of a section."""
    return reader.items(lambda: read(reader))


def read_functions(reader: Reader) -> tuple[Function, ...]:
    """The functions by their types; their code is in a section of its own."""
    return tuple(Function(kind, (), ()) for kind in read_all(reader, Reader.number))


def read_codes(reader: Reader, functions: tuple[Function, ...]) -> tuple[Function, ...]:
    """The functions with their code."""
    entries = read_all(reader, Reader.sized)
    if len(entries) != len(functions):
        raise Unreadable(MISMATCH)
    return tuple(with_code(function, entry) for function, entry in zip(functions, entries))


def with_code(function: Function, entry: bytes) -> Function:
    read = read_code(entry)
    return Function(function.type, (), (), entry) if read is None else Function(function.type, *read)


# What a section makes of the module that was read before it.
SECTIONS: dict[int, Callable[[Module, Reader], Module]] = {
    TYPES: lambda module, reader: replace(module, types=read_all(reader, read_type_group)),
    IMPORTS: lambda module, reader: replace(module, imports=read_all(reader, read_import)),
    FUNCTIONS: lambda module, reader: replace(module, functions=read_functions(reader)),
    TABLES: lambda module, reader: replace(module, tables=read_all(reader, read_table)),
    MEMORIES: lambda module, reader: replace(module, memories=read_all(reader, read_limits)),
    TAGS: lambda module, reader: replace(module, tags=read_all(reader, read_tag)),
    GLOBALS: lambda module, reader: replace(module, globals=read_all(reader, read_global)),
    EXPORTS: lambda module, reader: replace(module, exports=read_all(reader, read_export)),
    START: lambda module, reader: replace(module, start=reader.number()),
    ELEMENTS: lambda module, reader: replace(module, elements=read_all(reader, read_element)),
    DATA_COUNT: lambda module, reader: replace(module, counts_data=reader.number() >= 0),
    CODE: lambda module, reader: replace(module, functions=read_codes(reader, module.functions)),
    DATA: lambda module, reader: replace(module, data=read_all(reader, read_data)),
}


def sections_of(data: bytes) -> Iterator[tuple[int, bytes]]:
    """The sections, each a code and its content."""
    if data[: len(HEAD)] != HEAD:
        raise Unreadable("it doesn't begin as a module does")
    reader = Reader(data)
    reader.take(len(HEAD))
    while reader.has_more():
        yield reader.byte(), reader.sized()


def with_section(module: Module, code: int, content: bytes) -> Module:
    reader = Reader(content)
    made = SECTIONS[code](module, reader)
    reader.end()
    return made


def read_declarations(data: bytes) -> Module:
    """The module without code and segments; `Unreadable` if another section can't be decoded."""
    module = Module()
    for code, content in sections_of(data):
        if code in DECLARING:
            module = with_section(module, code, content)
    return module


class ModuleReader:
    """Decodes a module section by section."""

    def __init__(self) -> None:
        self.made = Module()
        self.extras: list[Extra] = []
        self.last = CUSTOM

    def module(self, data: bytes) -> Module:
        for code, content in sections_of(data):
            self.section(code, content)
        has_no_code = any(not function.body and function.unread is None for function in self.made.functions)
        if has_no_code or any(extra.code == CODE for extra in self.extras):
            raise Unreadable(MISMATCH)
        return replace(self.made, extras=tuple(self.extras))

    def section(self, code: int, content: bytes) -> None:
        """Decodes a section; one that can't be decoded, or is out of order, is kept unchanged."""
        follows = code in ORDER and (self.last == CUSTOM or ORDER.index(code) > ORDER.index(self.last))
        if follows:
            self.last = code
        if not follows or not self.decode(code, content):
            self.extras.append(Extra(self.last, code, content))

    def decode(self, code: int, content: bytes) -> bool:
        try:
            self.made = with_section(self.made, code, content)
        except Unreadable:
            return False
        return True
