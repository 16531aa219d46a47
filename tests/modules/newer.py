#!/usr/bin/env python3
"""Modules with operators that Debian's tools don't assemble.

newer.py assemble LINES MODULE writes the module of a file of lines, NAME.bytes: bytes in hexadecimal digits, and behind ;; what they
are in the standard's text format. `section 1 types` begins a section; each line in it is one entry, and in section 10 those from one
line `body` to the next are, whose size goes before them. The numbers of entries and the sizes of sections are counted here.

newer.py older MODULE.. writes each module to MODULE.older in the codes that node 20 reads (those of V8 11.3, from before typed
references and garbage collection were in the standard), by which it can be run there. One that it can't read has no such file.

newer.py bodies MODULE INDEX.. prints the code entries of the functions with these indices, in hexadecimal digits.
"""
import sys

CODE = 10

# The codes that were others then: of types, and of operators of one byte and behind FB.
OLDER_TYPES = {0x63: 0x6C, 0x64: 0x6B, 0x6A: 0x66, 0x6B: 0x67, 0x6C: 0x6A, 0x71: 0x65, 0x72: 0x69, 0x73: 0x68, 0x77: 0x79, 0x78: 0x7A}
OLDER_FORMS = {0x4E: 0x4F, 0x4F: 0x4E}
OLDER_BYTES = {0xD3: 0xD5, 0xD4: 0xD3, 0xD5: 0xD4}
OLDER_FB = {
    0: 7, 1: 8, 2: 3, 3: 4, 4: 5, 5: 6, 6: 0x1B, 7: 0x1C, 8: 0x1A, 11: 0x13, 12: 0x14, 13: 0x15, 14: 0x16, 15: 0x19, 16: 0x0F,
    17: 0x18, 20: 0x40, 21: 0x48, 22: 0x41, 23: 0x49, 24: 0x42, 25: 0x43, 26: 0x70, 27: 0x71, 28: 0x20, 29: 0x21, 30: 0x22,
}

# What stands behind an operator: n numbers (also signed ones: they are copied alone), h heap type, b block type, t value types,
# l labels, and 1, 4 or 8 bytes. No operator but these has anything behind it.
BEHIND = {
    0x02: "b", 0x03: "b", 0x04: "b", 0x0C: "n", 0x0D: "n", 0x0E: "l", 0x10: "n", 0x11: "nn", 0x12: "n", 0x13: "nn", 0x14: "n",
    0x15: "n", 0x1C: "t", 0x3F: "n", 0x40: "n", 0x41: "n", 0x42: "n", 0x43: "4", 0x44: "8", 0xD0: "h", 0xD2: "n", 0xD5: "n", 0xD6: "n",
    **{code: "n" for code in range(0x20, 0x27)}, **{code: "nn" for code in range(0x28, 0x3F)},
}
BEHIND_FB = {
    **{code: "nn" for code in (2, 3, 4, 5, 8, 9, 10, 17, 18, 19)}, **{code: "n" for code in (0, 1, 6, 7, 11, 12, 13, 14, 16)},
    **{code: "h" for code in (20, 21, 22, 23)}, 24: "c", 25: "c",
}
# Those on vectors are behind FD, where their codes were the same then.
BEHIND_FD = {
    **{code: "nn" for code in (*range(0, 12), 92, 93)}, 12: "88", 13: "88", **{code: "1" for code in range(21, 35)},
    **{code: "nn1" for code in range(84, 92)},
}


def number(value):
    """A number without sign, as it is written."""
    low = value & 127
    return bytes([low]) if value == low else bytes([low | 128]) + number(value >> 7)


def section(code, entries):
    contents = number(len(entries)) + b"".join(entries)
    return bytes([code]) + number(len(contents)) + contents


def assembled(lines):
    """The module of the lines."""
    sections = []
    for line in lines:
        text = line.split(";;")[0].split()
        if text[:1] == ["section"]:
            sections.append((int(text[1]), []))
        elif text == ["body"]:
            sections[-1][1].append(b"")
        elif text and sections[-1][0] == CODE:
            sections[-1][1][-1] += bytes.fromhex("".join(text))
        elif text:
            sections[-1][1].append(bytes.fromhex("".join(text)))
    module = b"\0asm\1\0\0\0"
    for code, entries in sections:
        if code == CODE:
            entries = [number(len(entry)) + entry for entry in entries]
        module += section(code, entries)
    return module


class Older:
    """Bytes that are read from the front, and written in the older codes."""

    def __init__(self, bytes_):
        self.rest = bytes_
        self.written = b""

    def take(self, count):
        taken, self.rest = self.rest[:count], self.rest[count:]
        assert len(taken) == count
        return taken

    def number(self):
        """Takes a number, and gives its value without sign."""
        value = shift = 0
        while True:
            byte = self.take(1)[0]
            value |= (byte & 127) << shift
            shift += 7
            if byte < 128:
                return value

    def copy_number(self):
        before = self.rest
        value = self.number()
        self.written += before[: len(before) - len(self.rest)]
        return value

    def copy(self, count):
        self.written += self.take(count)

    def heap_type(self):
        if 0x65 <= self.rest[0] < 0x80:
            byte = self.take(1)[0]
            self.written += bytes([OLDER_TYPES.get(byte, byte)])
        else:
            self.copy_number()

    def value_type(self):
        byte = self.take(1)[0]
        self.written += bytes([OLDER_TYPES.get(byte, byte)])
        if byte in (0x63, 0x64):
            self.heap_type()

    def value_types(self):
        for _ in range(self.copy_number()):
            self.value_type()

    def block_type(self):
        if 0x40 <= self.rest[0] < 0x80:
            self.value_type()
        else:
            self.copy_number()

    def field(self):
        self.value_type()
        self.copy(1)

    def type_form(self):
        """A type, or a group of types."""
        byte = self.take(1)[0]
        self.written += bytes([OLDER_FORMS.get(byte, byte)])
        if byte == 0x4E:
            for _ in range(self.copy_number()):
                self.type_form()
        elif byte in (0x4F, 0x50):
            for _ in range(self.copy_number()):
                self.copy_number()
            self.type_form()
        elif byte == 0x5E:
            self.field()
        elif byte == 0x5F:
            for _ in range(self.copy_number()):
                self.field()
        else:
            assert byte == 0x60, hex(byte)
            self.value_types()
            self.value_types()

    def operator(self):
        """An operator; gives its byte."""
        byte = self.take(1)[0]
        if byte == 0xFB:
            code = self.number()
            behind = BEHIND_FB.get(code, "")
            older = OLDER_FB[code]
            if behind == "c":
                # The flags and the type before the cast weren't written, and whether it takes null was in the code.
                flags = self.take(1)[0]
                self.written += b"\xfb" + number(older + (8 if flags & 2 else 0))
                self.copy_number()
                unwritten = self.written
                self.heap_type()
                self.written = unwritten
                behind = "h"
            else:
                self.written += b"\xfb" + number(older)
        elif byte == 0xFD:
            self.written += b"\xfd"
            behind = BEHIND_FD.get(self.copy_number(), "")
        else:
            assert byte < 0xFB, hex(byte)
            behind = BEHIND.get(byte, "")
            self.written += bytes([OLDER_BYTES.get(byte, byte)])
        for what in behind:
            if what == "n":
                self.copy_number()
            elif what == "h":
                self.heap_type()
            elif what == "b":
                self.block_type()
            elif what == "t":
                self.value_types()
            elif what == "l":
                for _ in range(self.copy_number() + 1):
                    self.copy_number()
            else:
                self.copy(int(what))
        return byte

    def expression(self):
        """Operators up to the `end` of a constant expression."""
        while self.operator() != 0x0B:
            pass

    def whole(self, method):
        """What a method writes of all these bytes."""
        while self.rest:
            method()
        return self.written


def older_body(body):
    reader = Older(body)
    for _ in range(reader.copy_number()):
        reader.copy_number()
        reader.value_type()
    return reader.whole(reader.operator)


def global_entry(reader):
    reader.value_type()
    reader.copy(1)
    reader.expression()


def sections_of(module):
    """The sections of a module, each with its code."""
    reader = Older(module[8:])
    while reader.rest:
        code = reader.take(1)[0]
        yield code, reader.take(reader.number())


def bodies_of(contents):
    """The entries of the code section without their sizes."""
    reader = Older(contents)
    return [reader.take(reader.number()) for _ in range(reader.number())]


def older(module):
    """The module in the older codes."""
    written = module[:8]
    for code, contents in sections_of(module):
        reader = Older(contents)
        if code == 1:
            count = reader.copy_number()
            for _ in range(count):
                reader.type_form()
            contents = reader.written
        elif code == 6:
            count = reader.copy_number()
            for _ in range(count):
                global_entry(reader)
            contents = reader.written
        elif code == CODE:
            bodies = [older_body(body) for body in bodies_of(contents)]
            contents = number(len(bodies)) + b"".join(number(len(body)) + body for body in bodies)
        written += bytes([code]) + number(len(contents)) + contents
    return written


def read(path):
    with open(path, "rb") as file:
        return file.read()


def write(path, contents):
    with open(path, "wb") as file:
        file.write(contents)


def main(command, *words):
    if command == "assemble":
        lines, module = words
        write(module, assembled(read(lines).decode().splitlines()))
    elif command == "older":
        for path in words:
            try:
                write(path + ".older", older(read(path)))
            except (AssertionError, IndexError, KeyError) as error:
                print(f"{path}: {error!r}", file=sys.stderr)
    else:
        path, *indices = words
        bodies = [body for code, contents in sections_of(read(path)) if code == CODE for body in bodies_of(contents)]
        for index in indices:
            print(bodies[int(index)].hex())


main(*sys.argv[1:])
