#!/usr/bin/env python3
"""Large inputs of peephole_run, the same on every machine: bodies of one shape each, with the commands that ask for them, and the
commands of one kind over and over.

Usage: inputs.py bodies FOLDER          the twelve inputs, as FOLDER/NAME.lines
       inputs.py commands FOLDER COUNT  COUNT commands of each kind, as FOLDER/COMMAND.lines
"""
import re
import sys
from pathlib import Path

FRONT = """global i32
global i64
memory 32
table func 32
type i32 i32 -> i32
type i32 ->
func 0
func 1
""" + "local i32\n" * 6 + "local i64\n" * 2

I32_LOCALS, I64_LOCALS = range(6), (6, 7)
UNARY_I32 = (0x45, 0x67, 0x68, 0x69, 0xC0, 0xC1)
BINARY_I32 = (*range(0x46, 0x50), *range(0x6A, 0x79))
BINARY_I64 = tuple(range(0x7C, 0x8B))
NOP, BLOCK, LOOP, IF, ELSE, END, BR_IF = 0x01, 0x02, 0x03, 0x04, 0x05, 0x0B, 0x0D
CALL, DROP, SELECT, LOCAL_GET, LOCAL_SET, GLOBAL_SET = 0x10, 0x1A, 0x1B, 0x20, 0x21, 0x24
I32_LOAD, I32_STORE, I32_CONST, I64_CONST = 0x28, 0x36, 0x41, 0x42
I32_EQZ, I32_ADD, I32_WRAP_I64, I64_EXTEND_I32 = 0x45, 0x6A, 0xA7, (0xAC, 0xAD)
DELIMITERS = {0x00, *range(0x02, 0x10)}


class Draw:
    """Numbers by the linear congruential generator of Knuth's MMIX, its upper half."""

    def __init__(self, seed):
        self.state = seed

    def word(self):
        self.state = (self.state * 6364136223846793005 + 1442695040888963407) % 2**64
        return self.state >> 32

    def below(self, bound):
        return self.word() * bound >> 32

    def of(self, choices):
        return choices[self.below(len(choices))]


def unsigned(number):
    """LEB128."""
    octets = bytearray()
    while number >= 0x80:
        octets.append(number % 0x80 | 0x80)
        number >>= 7
    return bytes(octets) + bytes([number])


def signed(number):
    """Signed LEB128."""
    octets = bytearray()
    while not -0x40 <= number < 0x40:
        octets.append(number % 0x80 | 0x80)
        number >>= 7
    return bytes(octets) + bytes([number % 0x80])


class Body:
    """A body that grows by an operator after another; `last` is its last operator that is no delimiter."""

    def __init__(self, seed):
        self.draw, self.octets, self.count, self.last = Draw(seed), bytearray(), 0, 0
        self.ends = []  # the last operators of the blocks

    def put(self, opcode, immediate=b""):
        self.octets += bytes([opcode]) + immediate
        if opcode not in DELIMITERS:
            self.last = self.count
        elif self.last + 1 == self.count:
            self.ends.append(self.last)
        self.count += 1

    def i32(self, depth):
        kind = self.draw.below(20) if depth else 0
        if kind < 2:
            self.put(I32_CONST, signed(self.draw.of((self.draw.below(64), self.draw.below(2**16), -self.draw.below(2**31)))))
        elif kind < 3:
            self.put(LOCAL_GET, unsigned(self.draw.of(I32_LOCALS)))
        elif kind < 14:
            self.operands(depth, 2)
            self.put(self.draw.of(BINARY_I32))
        elif kind < 16:
            self.operands(depth, 1)
            self.put(self.draw.of(UNARY_I32))
        elif kind == 16:
            self.operands(depth, 1)
            self.put(I32_LOAD, self.place())
        elif kind == 17:
            self.operands(depth, 3)
            self.put(SELECT)
        elif kind == 18:
            self.operands(depth, 2)
            self.put(CALL, unsigned(0))
        else:
            self.i64(depth - 1)
            self.put(I32_WRAP_I64)

    def operands(self, depth, count):
        for _ in range(count):
            self.i32(depth - 1)

    def i64(self, depth):
        kind = self.draw.below(8) if depth else 0
        if kind < 1:
            self.put(I64_CONST, signed(self.draw.of((self.draw.below(10_000), -(self.draw.word() << 31)))))
        elif kind < 2:
            self.put(LOCAL_GET, unsigned(self.draw.of(I64_LOCALS)))
        elif kind < 6:
            self.i64(depth - 1)
            self.i64(depth - 1)
            self.put(self.draw.of(BINARY_I64))
        else:
            self.i32(depth - 1)
            self.put(self.draw.of(I64_EXTEND_I32))

    def place(self):
        return unsigned(2) + unsigned(self.draw.below(4096))

    def statement(self):
        kind, depth = self.draw.below(10), self.draw.below(5)
        if kind < 4:
            self.i32(depth)
            self.put(LOCAL_SET, unsigned(self.draw.of(I32_LOCALS)))
        elif kind < 6:
            self.i32(1)
            self.i32(depth)
            self.put(I32_STORE, self.place())
        elif kind < 7:
            self.i32(depth)
            self.put(DROP)
        elif kind < 8:
            self.i64(depth)
            self.put(GLOBAL_SET, unsigned(1))
        elif kind < 9:
            self.i32(depth)
            self.put(CALL, unsigned(1))
        else:
            self.put(NOP)

    def nested(self, depth):
        for _ in range(1 + self.draw.below(4)):
            self.statement()
        kind = self.draw.below(6) if depth else 5
        if kind < 3:
            self.put(self.draw.of((BLOCK, LOOP)), b"\x40")
            self.nested(depth - 1)
            self.i32(1)
            self.put(BR_IF, unsigned(0))
            self.put(END)
        elif kind == 3:
            self.i32(2)
            self.put(IF, b"\x40")
            self.nested(depth - 1)
            self.put(ELSE)
            self.nested(depth - 1)
            self.put(END)

    def commands(self, *rest):
        """The body, a point at its last operator, and what is asked there."""
        self.put(END)
        return "\n".join((f"body {self.octets.hex()}", f"at {self.last}", *rest)) + "\n"


def many_blocks(octets):
    body = Body(1)
    while len(body.octets) < octets:
        body.nested(5)
    return body


def statements(seed, count):
    body = Body(seed)
    while body.count < count:
        body.statement()
    return body


def repeated(seed, count, first, *opcodes):
    """An operator, and then these again and again, constants among them drawn."""
    body = Body(seed)
    if first is not None:
        body.put(first, unsigned(0))
    while body.count < count:
        for opcode in opcodes:
            body.put(opcode, signed(body.draw.below(1000)) if opcode == I32_CONST else b"")
    return body


def all_rows(count):
    """Any instruction of the table with any immediate, but calls and the select that names its type."""
    table = (Path(__file__).parent / "../crates/wasm_code/src/rows.rt").read_text()
    rows = re.findall(r"row!\((Byte|Fc|Fd) (0x[0-9a-f]+), (\w+), .*// (\S+)", table)
    rows = [row for row in rows if row[3] != "call" and row[2] != "Val"]
    body = Body(7)
    draw = body.draw
    index = lambda: unsigned(draw.below(4))
    lane = lambda: bytes([draw.below(2)])
    drawn = lambda count: bytes(draw.below(256) for _ in range(count))
    immediates = {
        "Nothing": lambda: b"",
        "Index": index,
        "Pair": lambda: index() + index(),
        "Mem": body.place,
        "MemLane": lambda: body.place() + lane(),
        "Lane": lane,
        "I32": lambda: signed(draw.word() - 2**31),
        "I64": lambda: signed(draw.word() - 2**31 << 32),
        "F32": lambda: drawn(4),
        "F64": lambda: drawn(8),
        "V128": lambda: drawn(16),
        "Shuffle": lambda: bytes(draw.below(32) for _ in range(16)),
        "Heap": lambda: draw.of((b"\x70", b"\x6f")),
    }
    while body.count < count:
        prefix, opcode, kind, _ = draw.of(rows)
        opcode = int(opcode, 16)
        if prefix == "Byte":
            body.put(opcode, immediates[kind]())
        else:
            body.put({"Fc": 0xFC, "Fd": 0xFD}[prefix], unsigned(opcode) + immediates[kind]())
    return body


def small_bodies(count):
    return "".join(
        statements(1000 + number, 1 + number % 40).commands("show", "result", "write") for number in range(count)
    )


def bodies():
    blocks = many_blocks(2**20)
    yield "many_blocks", blocks.commands("write")
    tour = "".join(f"at {end}\nshow\nresult\n" for end in blocks.ends[::8])
    yield "many_blocks_shown", f"body {blocks.octets.hex()}\n{tour}"
    for name, *asked in (
        ("one_block", "write"),
        ("one_block_preserving", "preserve yes", "write"),
        ("one_block_shown", "show"),
        ("one_block_result", "result"),
    ):
        yield name, statements(2, 100_000).commands(*asked)
    yield "chain", repeated(4, 100_000, LOCAL_GET, I32_EQZ).commands("write")
    yield "deep", repeated(3, 100_000, LOCAL_GET, I32_CONST, I32_ADD).commands("write")
    yield "missing", repeated(6, 100_000, None, I32_ADD, DROP).commands("write")
    yield "open_roots", repeated(5, 100_000, None, I32_CONST).commands("write")
    yield "all_rows", all_rows(100_000).commands("write")
    yield "small_bodies", small_bodies(20_000)


# What each command is asked after, and what is written for it, by its number.
ADD = bytes((LOCAL_GET, 0, I32_CONST, 1, I32_ADD, DROP, END)).hex()
POINT = f"local i32\nbody {ADD}\nat 2\n"
COMMANDS = {
    "global": ("", "global i32"),
    "memory": ("", "memory 32"),
    "table": ("", "table func 32"),
    "local": ("", "local i32"),
    "type": ("", "type i32 -> i32"),
    "func": ("type i32 -> i32\n", "func 0"),
    "word": ("", "word 287454020"),
    "preserve": ("", "preserve yes"),
    "body": ("local i32\n", f"body {ADD}"),
    "at": (POINT, "at 2"),
    "node": (POINT, "node i32.const.1"),
    "show": (POINT, "show"),
    "result": (POINT, "result"),
    "write": (POINT, "write"),
}


def commands(count):
    for name, (front, command) in COMMANDS.items():
        yield name, front + f"{command}\n" * count
    # Each of the module's lists, the words and the locals as long as there are commands.
    lists = "type i32 -> i32\nfunc 0\nglobal i32\nlocal i32\nword 1\n" * count
    for name in ("show", "result", "write"):
        yield f"lists_and_{name}", lists + f"body {ADD}\nat 2\n" + f"{name}\n" * count


def main(what, folder, *count):
    folder = Path(folder)
    folder.mkdir(parents=True, exist_ok=True)
    inputs, front = (bodies(), FRONT) if what == "bodies" else (commands(int(count[0])), "")
    for name, text in inputs:
        (folder / f"{name}.lines").write_text(front + text)


main(*sys.argv[1:])
