"""A small module that makes the answers of another one exact for an engine that prints floats to six digits: it imports that one's
functions and globals, and gives their floats by their bits; and it gives a digest of its memory."""

from __future__ import annotations

from ..wasm.binary import items, number, signed, sized
from ..wasm.module import CODE, EXPORTS, FUNCTIONS, HEAD, IMPORTS, TYPES
from ..wasm.types import Limits
from .interface import FunctionType, GlobalType, Interface

OWNER = "module"

CODES = {"i32": 0x7F, "i64": 0x7E, "f32": 0x7D, "f64": 0x7C, "v128": 0x7B, "funcref": 0x70, "externref": 0x6F}
BITS = {"f32": "i32", "f64": "i64"}
REINTERPRET = {"f32": b"\xbc", "f64": b"\xbd"}

# What a digest looks at, at most: sixteen pages, in words of eight bytes.
MOST_PAGES = 16


def text(name: str) -> bytes:
    return sized(name.encode("utf-8", "surrogateescape"))


def type_of(parameters: tuple[str, ...], results: tuple[str, ...]) -> bytes:
    return b"\x60" + items([bytes([CODES[kind]]) for kind in parameters]) + items([bytes([CODES[kind]]) for kind in results])


def section(code: int, parts: list[bytes]) -> bytes:
    return bytes([code]) + sized(items(parts))


def as_bits(kinds: tuple[str, ...]) -> tuple[str, ...]:
    return tuple(BITS.get(kind, kind) for kind in kinds)


def has_floats(kinds: tuple[str, ...]) -> bool:
    return any(kind in BITS for kind in kinds)


def calling(index: int, type: FunctionType) -> bytes:
    """The code that calls an imported function, and gives its results by their bits."""
    code = b"".join(b"\x20" + number(place) for place in range(len(type.parameters))) + b"\x10" + number(index)
    first = len(type.parameters)
    places = range(first, first + len(type.results))
    code += b"".join(b"\x21" + number(place) for place in reversed(places))
    code += b"".join(b"\x20" + number(place) + REINTERPRET.get(kind, b"") for place, kind in zip(places, type.results))
    return items([b"\x01" + bytes([CODES[kind]]) for kind in type.results]) + code + b"\x0b"


def reading(index: int, kind: str) -> bytes:
    """The code that reads an imported global, by its bits."""
    return b"\x00\x23" + number(index) + REINTERPRET.get(kind, b"") + b"\x0b"


def digesting() -> bytes:
    """The code that goes through the memory in words of eight bytes: each is joined by `xor`, times a prime, turned by 27."""
    size = b"\x3f\x00" + b"\x41" + signed(MOST_PAGES)
    end = size + b"\x3f\x00\x41" + signed(MOST_PAGES) + b"\x49\x1b\x41" + signed(16) + b"\x74\x21\x01"
    step = b"\x20\x02\x20\x00\x29\x03\x00\x85\x42" + signed(0x100000001B3) + b"\x7e\x42" + signed(27) + b"\x89\x21\x02"
    following = b"\x20\x00\x41" + signed(8) + b"\x6a\x21\x00"
    loop = b"\x02\x40\x03\x40\x20\x00\x20\x01\x4f\x0d\x01" + step + following + b"\x0c\x00\x0b\x0b"
    return items([b"\x02\x7f", b"\x01\x7e"]) + end + loop + b"\x20\x02\x0b"


class Shim:
    """The module, and what it exports: `names` tells by which name a function, a global or the memory of the other is to be had."""

    def __init__(self, interface: Interface):
        self.types: list[bytes] = []
        self.imports: list[bytes] = []
        self.functions: list[bytes] = []
        self.exports: list[bytes] = []
        self.code: list[bytes] = []
        self.names: dict[tuple[str, str], str] = {}
        functions = [export for export in interface.functions if self.takes(export.type)]
        values = [export for export in interface.globals if export.type.value in CODES]
        memory = next((export for export in interface.memories if self.can_import(export.limits)), None)
        for export in functions:
            self.add_import(export.name, b"\x00" + self.type_index(export.type.parameters, export.type.results))
        for value in values:
            self.add_import(value.name, self.global_import(value.type))
        if memory:
            self.add_import(memory.name, self.memory_import(memory.limits))
        self.imported = len(functions)
        for index, export in enumerate(functions):
            self.add("function", export.name, export.type.parameters, export.type.results, calling(index, export.type))
        for index, value in enumerate(values):
            self.add("global", value.name, (), (value.type.value,), reading(index, value.type.value))
        if memory:
            self.add("memory", memory.name, (), ("i64",), digesting())

    @staticmethod
    def takes(type: FunctionType) -> bool:
        return has_floats(type.results) and CODES.keys() >= {*type.parameters, *type.results}

    @staticmethod
    def global_import(type: GlobalType) -> bytes:
        return bytes([3, CODES[type.value], type.mutable])

    @staticmethod
    def can_import(limits: Limits) -> bool:
        return not limits.is_wide() and (limits.most is not None or not limits.is_shared())

    @staticmethod
    def memory_import(limits: Limits) -> bytes:
        if limits.is_shared() and limits.most is not None:
            return b"\x02\x03" + number(limits.least) + number(limits.most)
        return b"\x02\x00\x00"

    def type_index(self, parameters: tuple[str, ...], results: tuple[str, ...]) -> bytes:
        self.types.append(type_of(parameters, results))
        return number(len(self.types) - 1)

    def add_import(self, name: str, description: bytes) -> None:
        self.imports.append(text(OWNER) + text(name) + description)

    def add(self, kind: str, name: str, parameters: tuple[str, ...], results: tuple[str, ...], body: bytes) -> None:
        own = f"{kind} {len(self.code)}"
        self.names[kind, name] = own
        self.exports.append(text(own) + b"\x00" + number(self.imported + len(self.code)))
        self.functions.append(self.type_index(parameters, as_bits(results)))
        self.code.append(sized(body))

    def module(self) -> bytes:
        sections = ((TYPES, self.types), (IMPORTS, self.imports), (FUNCTIONS, self.functions), (EXPORTS, self.exports), (CODE, self.code))
        return HEAD + b"".join(section(code, parts) for code, parts in sections)
