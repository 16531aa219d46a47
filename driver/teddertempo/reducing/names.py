"""The custom section `name`: names of functions, locals and others by their indices, which are renumbered with what they name."""

from __future__ import annotations

from typing import Mapping

from ..wasm.binary import Reader, Unreadable, items, number, sized
from ..wasm.immediates import Space

SECTION = b"name"
MAPS = {1: Space.FUNCTION, 4: Space.TYPE, 5: Space.TABLE, 6: Space.MEMORY, 7: Space.GLOBAL, 8: Space.ELEMENT, 9: Space.DATA, 11: Space.TAG}
MAPS_OF_MAPS = {2: Space.FUNCTION, 3: Space.FUNCTION, 10: Space.TYPE}


def is_names(content: bytes) -> bool:
    """Whether the content of a custom section is that of names."""
    return content[: 1 + len(SECTION)] == sized(SECTION)


def renumber_names(content: bytes, numbering: Mapping[Space, Mapping[int, int]]) -> bytes:
    """The section with the names of what is still there; as it was where it can't be read, or is another one."""
    if not is_names(content):
        return content
    reader = Reader(content)
    try:
        made = [sized(reader.sized())]
        while reader.has_more():
            code = reader.byte()
            made.append(renumber_part(code, reader.sized(), numbering))
    except Unreadable:
        return content
    return b"".join(made)


def renumber_part(code: int, content: bytes, numbering: Mapping[Space, Mapping[int, int]]) -> bytes:
    space = MAPS.get(code, MAPS_OF_MAPS.get(code))
    known = numbering.get(space) if space else None
    if known is not None:
        reader = Reader(content)
        read = read_names if code in MAPS_OF_MAPS else lambda reader: sized(reader.sized())
        entries = reader.items(lambda: (reader.number(), read(reader)))
        kept = sorted((known[index], name) for index, name in entries if index in known)
        content = items(number(index) + name for index, name in kept)
    return bytes([code]) + sized(content)


def read_names(reader: Reader) -> bytes:
    """Names of parts of one thing, as they are."""
    return items(reader.items(lambda: number(reader.number()) + sized(reader.sized())))
