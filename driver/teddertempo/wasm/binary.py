"""Numbers, names and bytes of the binary format: what reads them, and how they are written, each number in as few bytes as can be."""

from __future__ import annotations

from typing import Callable, Iterable, Sequence, TypeVar

Item = TypeVar("Item")


class Unreadable(Exception):
    """The bytes are nothing that is known here."""


class Reader:
    """Reads the binary format from some bytes."""

    def __init__(self, data: bytes):
        self.data = data
        self.at = 0

    def has_more(self) -> bool:
        return self.at < len(self.data)

    def peek(self) -> int:
        if not self.has_more():
            raise Unreadable("it ends too early")
        return self.data[self.at]

    def take(self, count: int) -> bytes:
        if count > len(self.data) - self.at:
            raise Unreadable("it ends too early")
        self.at += count
        return self.data[self.at - count : self.at]

    def byte(self) -> int:
        value = self.peek()
        self.at += 1
        return value

    def number(self, bits: int = 32) -> int:
        """An unsigned number in LEB128."""
        value, shift = self.digits(bits)
        if value >> bits:
            raise Unreadable("a number is too large")
        return value

    def signed(self, bits: int) -> int:
        """A signed number in LEB128."""
        value, shift = self.digits(bits)
        if value >> (shift - 1) & 1:
            value -= 1 << shift
        if not -(1 << (bits - 1)) <= value < 1 << (bits - 1):
            raise Unreadable("a number is too large")
        return value

    def digits(self, bits: int) -> tuple[int, int]:
        """The bits of a number in LEB128, and how many of them its bytes have."""
        value = shift = 0
        while True:
            byte = self.byte()
            value |= (byte & 0x7F) << shift
            shift += 7
            if byte < 0x80:
                return value, shift
            if shift >= bits:
                raise Unreadable("a number has too many bytes")

    def sized(self) -> bytes:
        """Bytes behind their number."""
        return self.take(self.number())

    def items(self, read: Callable[[], Item]) -> tuple[Item, ...]:
        """Items behind their number."""
        count = self.number()
        if count > len(self.data) - self.at:
            raise Unreadable("it has fewer items than it says")
        return tuple(read() for _ in range(count))

    def end(self) -> None:
        if self.has_more():
            raise Unreadable("there are bytes behind its end")


def number(value: int) -> bytes:
    """An unsigned number in LEB128."""
    made = bytearray()
    while value >= 0x80:
        made.append(value & 0x7F | 0x80)
        value >>= 7
    made.append(value)
    return bytes(made)


def signed(value: int) -> bytes:
    """A signed number in LEB128."""
    made = bytearray()
    while not -0x40 <= value < 0x40:
        made.append(value & 0x7F | 0x80)
        value >>= 7
    made.append(value & 0x7F)
    return bytes(made)


def sized(data: bytes) -> bytes:
    """Bytes behind their number."""
    return number(len(data)) + data


def items(parts: Sequence[bytes] | Iterable[bytes]) -> bytes:
    """Items behind their number."""
    parts = list(parts)
    return number(len(parts)) + b"".join(parts)
