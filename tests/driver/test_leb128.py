"""Numbers in LEB128, read as the standard says: at most as many bytes as their bits need, and the unused bits are zero or the sign."""

from __future__ import annotations

import pytest

from teddertempo.engines.interface import read_interface
from teddertempo.wasm.binary import Reader, Unreadable, number, signed
from teddertempo.wasm.module import HEAD
from teddertempo.wasm.reading import read_module

PADDED = bytes.fromhex("808080808000")

UNSIGNED = (
    ("00", 0),
    ("8000", 0),
    ("8080808000", 0),
    ("ffffffff0f", (1 << 32) - 1),
    ("ffffffff1f", None),
    ("8080808010", None),
    ("808080808000", None),
)

# The bits of the number, its bytes, and the number, if it is one.
SIGNED = (
    (32, "7f", -1),
    (32, "ff00", 127),
    (32, "ffffffff7f", -1),
    (32, "ffffffff0f", None),
    (32, "8080808078", -(1 << 31)),
    (32, "8080808070", None),
    (32, "ffffffff07", (1 << 31) - 1),
    (32, "80808080807f", None),
    (33, "8080808070", -(1 << 32)),
    (33, "8080808010", None),
    (33, "ffffffff0f", (1 << 32) - 1),
    (64, "8080808080808080807f", -(1 << 63)),
    (64, "80808080808080808001", None),
)


@pytest.mark.parametrize("encoded, value", UNSIGNED)
def test_unsigned(encoded: str, value: int | None) -> None:
    reader = Reader(bytes.fromhex(encoded))
    if value is None:
        with pytest.raises(Unreadable):
            reader.number()
    else:
        assert reader.number() == value
        reader.end()


@pytest.mark.parametrize("bits, encoded, value", SIGNED)
def test_signed(bits: int, encoded: str, value: int | None) -> None:
    reader = Reader(bytes.fromhex(encoded))
    if value is None:
        with pytest.raises(Unreadable):
            reader.signed(bits)
    else:
        assert reader.signed(bits) == value
        reader.end()


@pytest.mark.parametrize("value", (0, 1, 63, 64, 127, 128, 1 << 31, (1 << 32) - 1))
def test_unsigned_is_read_as_written(value: int) -> None:
    assert Reader(number(value)).number() == value


@pytest.mark.parametrize("value", (0, 1, -1, 63, 64, -64, -65, (1 << 63) - 1, -(1 << 63)))
def test_signed_is_read_as_written(value: int) -> None:
    assert Reader(signed(value)).signed(64) == value


@pytest.mark.parametrize("module", (HEAD + b"\x01" + PADDED, HEAD + b"\x01\x07" + PADDED + b"\x00"), ids=("size", "count"))
def test_both_tools_reject_a_padded_number(module: bytes) -> None:
    with pytest.raises(Unreadable):
        read_interface(module)
    if module[9] == PADDED[0]:
        with pytest.raises(Unreadable):
            read_module(module)
    else:
        assert not read_module(module).is_whole()
