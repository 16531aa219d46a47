#!/usr/bin/env python3
"""Writes the 24 WebAssembly modules in which the planted faults are looked for, as text: generate.py FOLDER

wat2wasm of wabt 1.0.32 assembles each with no option. A module's number seeds every choice in it, so that the same bytes come out
each time. Its functions are random statements and expressions over the operators of WebAssembly 2.0 whose results are determined
(grammar.txt); half of the constants are edges of their types, and an operator in three comes in a sequence such as programs have.
Each function ends after a few thousand steps. Three modules each have a theme, whose operators they use the most.
"""

from __future__ import annotations

import random
import re
import sys
from dataclasses import dataclass
from pathlib import Path
from typing import Callable, Dict, List, Sequence, Tuple

Code = List[str]
Recipe = Tuple[str, ...]
Row = List[Recipe]  # the choices of one line of the grammar

SCALARS = ("i32", "i64", "f32", "f64")
KINDS = SCALARS + ("v128",)
LANES = {"i8x16": ("i8", 16), "i16x8": ("i16", 8), "i32x4": ("i32", 4), "i64x2": ("i64", 2), "f32x4": ("f32", 4), "f64x2": ("f64", 2)}
WIDTHS = {"i8": 8, "i16": 16, "i32": 32, "i64": 64}
MASKS = {"one": 1, "three": 3, "small": 31, "size": 63}  # tokens for an i32 that is no larger
OFFSETS = ("", "", "", "") + tuple(f" offset={offset}" for offset in (1, 2, 4, 8, 255, 4096, 4099, 32752))
FAMILIES = ("integers", "floats", "conversions", "integer_vectors", "float_vectors", "memory", "control", "calls", "globals")
# Where a recipe comes from, if a family has none with such a result.
HOME = {"i32": ("integers",), "i64": ("integers",), "f32": ("floats",), "f64": ("floats",),
        "v128": ("integer_vectors", "float_vectors"), "none": ("reuse", "reuse", "memory", "control")}
# The families that a theme uses the most, and the types of its variables and results.
THEMES = {
    "floats": (("floats",), "f32 f64 f32 f64 i32 i64"),
    "conversions": (("conversions", "conversions", "floats"), "i32 i64 f32 f64"),
    "integer_vectors": (("integer_vectors",), "v128 v128 v128 i32 i64"),
    "float_vectors": (("float_vectors",), "v128 v128 v128 f32 f64 i32"),
    "memory": (("memory",), "i32 i64 f32 f64 v128"),
    "control": (("control", "control", "integers", "floats"), "i32 i64 f32 f64 v128"),
    "calls": (("calls", "globals"), "i32 i64 f32 f64 v128"),
    "mixed": (FAMILIES, "i32 i64 f32 f64 v128"),
}
# What data is made of: bytes, and the bits of numbers near the edges, by their width in bytes.
PATTERNS = {
    1: (0, 1, 0x7f, 0x80, 0xff),
    4: (1, 0x7fffffff, 0x80000000, 0x3f000000, 0x40200000, 0xbf800000, 0x4f000000, 0x7f800000, 0x7fc00000),
    8: (1, 1 << 63, (1 << 63) - 1, 0x3fe << 52, 0x4004 << 48, 0xbff << 52, 0x41e << 52, 0x7ff << 52, 0x7ff8 << 48),
}
# The parameters of the helpers that are called by name only; eight others are in the table too.
DIRECT = (("f64", "f64"), ("i32", "f32", "f64"), ("i64", "f64", "f64"), ("v128", "i32"), ("f32", "f32", "i64"))
# Makes 4096 bytes of the memory visible.
SUM_MEMORY = """  (func $sum_memory (export "sum_memory") (param $start i32) (result i64)
    (local $sum i64) (local $end i32)
    (local.set $start (i32.and (local.get $start) (i32.const 0xf000)))
    (local.set $end (i32.add (local.get $start) (i32.const 4096)))
    (loop $next
      (local.set $sum (i64.mul (i64.xor (local.get $sum) (i64.load (local.get $start))) (i64.const 0x100000001b3)))
      (local.set $start (i32.add (local.get $start) (i32.const 8)))
      (br_if $next (i32.ne (local.get $start) (local.get $end))))
    (local.get $sum))"""


def expand(pattern: str) -> List[str]:
    """Every choice of a pattern such as `i32.{add,sub}`."""
    found = re.search(r"\{([^{}]*)\}", pattern)
    if found is None:
        return [pattern]
    return [text for choice in found.group(1).split(",") for text in expand(pattern[:found.start()] + choice + pattern[found.end():])]


CATALOGUE: Dict[Tuple[str, str, bool], List[Row]] = {}  # by family, result, and whether it is a usual sequence
TESTS: Dict[str, List[Row]] = {}  # comparisons and the like, by family
EDGES: Dict[str, Recipe] = {}


def read_grammar() -> None:
    """Fills the three tables above."""
    for line in Path(__file__).with_name("grammar.txt").read_text(encoding="ascii").splitlines():
        if line == "" or line[0] == "#":
            continue
        family, results, pattern = line[2:].split(" | ")
        recipes = [tuple(text.split()) for text in expand(pattern)]
        for result in KINDS if results == "all" else results.split():
            if family == "edges":
                EDGES[result] = EDGES.get(result, ()) + recipes[0]
            else:
                CATALOGUE.setdefault((family, result, line[0] == "*"), []).append(recipes)
        if results == "i32" and re.search(r"\.(eqz?|ne|[lg][te]|any_true|all_true)(_[su])?$", recipes[0][-1]):
            TESTS.setdefault(family, []).append(recipes)


class Dice:
    """Choices that a seed determines, in any version of Python."""

    def __init__(self, seed: int) -> None:
        self.bits = random.Random(seed).getrandbits

    def below(self, bound: int) -> int:
        return self.bits(32) % bound

    def pick(self, items: Sequence):
        return items[self.below(len(items))]


@dataclass(frozen=True)
class Function:
    """The name and the type of a function."""

    name: str
    parameters: Tuple[str, ...]
    results: Tuple[str, ...]

    def type(self, named: bool) -> str:
        parameters = (f" (param $p{place} {kind})" if named else f" (param {kind})" for place, kind in enumerate(self.parameters))
        return "".join(parameters) + "".join(f" (result {kind})" for kind in self.results)


class Writer:
    """Writes one module."""

    def __init__(self, number: int) -> None:
        self.dice = Dice(number)
        theme = list(THEMES)[number // 3]
        self.name = f"{theme}_{number % 3}"
        self.theme, kinds = THEMES[theme]
        self.kinds = kinds.split()
        first = self.dice.below(5)
        kinds_of_globals = [KINDS[(first + step) % 5] for step in range(3 + self.dice.below(3))]
        self.globals = {kind: f"$global_{kind}" for kind in kinds_of_globals}
        self.signatures = [Function(name, self.scalars(1 + self.dice.below(3)), self.scalars(1)) for name in ("first", "second")]
        self.callable: List[Function] = []
        self.current = self.signatures[0]
        self.variables: Dict[str, List[str]] = {}
        self.calls = self.budget = 0  # how many more calls the function may make, and how many more values a statement may have
        self.makers: Dict[str, Callable[[str, int], Code]] = {
            "S": lambda kind, depth: self.statement(depth), "constant": lambda kind, depth: [self.constant(kind)],
            "test": self.test, "address": self.address, "growth": self.growth, "call": self.call, "indirect": self.indirect,
            "place": lambda kind, depth: self.address(kind, depth) + ["local.set $address"],
            "here": lambda kind, depth: ["local.get $address"],
            "leave": lambda kind, depth: self.values(self.current.results, depth) + ["return"],
        }

    def scalars(self, count: int) -> Tuple[str, ...]:
        return tuple(self.dice.pick(SCALARS) for _ in range(count))

    def family(self) -> str:
        """One of the theme, mostly."""
        return self.dice.pick(self.theme if self.dice.below(4) else FAMILIES)

    def recipe(self, result: str, family: str) -> Recipe:
        """One of the family; of another where it has none with this result."""
        found = CATALOGUE.get((family, result, self.dice.below(3) == 0)) or CATALOGUE.get((family, result, False))
        return self.dice.pick(self.dice.pick(found or CATALOGUE[(self.dice.pick(HOME[result]), result, False)]))

    def value(self, kind: str, depth: int) -> Code:
        """An expression; one in eight, and so a third of all trees at the least, sets a variable and uses it at once."""
        self.budget -= 1
        if depth <= 0 or self.budget < 0 or self.dice.below(10) == 0:
            return [self.leaf(kind)]
        if self.dice.below(8) == 0:
            return self.cook(self.recipe(kind, "reuse"), kind, depth + 1)
        return self.cook(self.recipe(kind, self.family()), kind, depth)

    def values(self, kinds: Sequence[str], depth: int) -> Code:
        return [text for kind in kinds for text in self.value(kind, depth)]

    def statement(self, depth: int) -> Code:
        """A sequence that leaves nothing on the stack."""
        kind = self.dice.pick(self.kinds)
        if depth <= 0:
            return [self.leaf(kind), f"local.set {self.dice.pick(self.variables[kind])}"]
        return self.cook(self.recipe("none", self.family()), kind, depth)

    def loop(self, depth: int) -> Code:
        """Two statements, two to seven times."""
        return [f"i32.const {2 + self.dice.below(6)}", "local.set $counter", "loop $again", *self.statement(depth), *self.statement(depth),
                "local.get $counter", "i32.const 1", "i32.sub", "local.tee $counter", "br_if $again", "end"]

    def cook(self, recipe: Recipe, kind: str, depth: int) -> Code:
        """Writes out a recipe for the type T."""
        names = self.variables[kind]
        place = self.dice.below(len(names))
        used = {"x": names[place], "y": names[(place + 1 + self.dice.below(len(names) - 1)) % len(names)]}
        code: Code = []
        for token in recipe:
            token = token.replace("T", kind)
            verb, _, variable = token.partition(".")
            if token in KINDS:
                code += self.value(token, depth - 1)
            elif token in self.makers:
                code += self.makers[token](kind, depth - 1)
            elif token in MASKS:
                code += self.value("i32", depth - 1) + [f"i32.const {MASKS[token]}", "i32.and"]
            elif variable in used:
                code.append(f"local.{verb} {used[variable]}")
            elif verb == "global":
                code.append(f"{token} {self.globals[kind]}" if kind in self.globals else f"local.{variable} {used['x']}")
            else:
                code.append(self.operator(token))
        return code

    def operator(self, token: str) -> str:
        """An operator with its immediates."""
        text = token.replace(":", " ")
        if "@" in text:
            text = text.replace("@", self.dice.pick(OFFSETS))
        if "~" in text:
            text = text.replace("~", "".join(f" {self.dice.below(32)}" for _ in range(16)))
        return re.sub(r"#(\d+)", lambda found: f" {self.dice.below(int(found.group(1)))}", text)

    def leaf(self, kind: str) -> str:
        """A constant, a variable or a global, as one operator."""
        choice = self.dice.below(8)
        if choice == 0 and kind in self.globals:
            return f"global.get {self.globals[kind]}"
        return f"local.get {self.dice.pick(self.variables[kind])}" if choice < 4 else self.constant(kind)

    def number(self, kind: str) -> str:
        """An edge of the type, or another number."""
        if self.dice.below(2):
            return self.dice.pick(EDGES[kind])
        if kind in WIDTHS:
            return str(self.dice.bits(WIDTHS[kind]) >> self.dice.below(WIDTHS[kind]))
        return f"{self.dice.pick(('', '-'))}{self.dice.below(self.dice.pick((2, 10, 1000)))}.{self.dice.below(1000000):06}"

    def constant(self, kind: str) -> str:
        if kind != "v128":
            return f"{kind}.const {self.number(kind)}"
        shape = self.dice.pick(list(LANES))
        lane, count = LANES[shape]
        return f"v128.const {shape} " + " ".join(self.number(lane) for _ in range(count))

    def test(self, kind: str, depth: int) -> Code:
        """A condition."""
        if self.dice.below(5) == 0:
            return self.value("i32", depth)
        tests = TESTS.get(self.family()) or TESTS[self.dice.pick(("integers", "floats"))]
        return self.cook(self.dice.pick(self.dice.pick(tests)), "i32", depth)

    def address(self, kind: str, depth: int) -> Code:
        """An address that is nearly always in the first page, with any offset."""
        code = self.value("i32", min(depth, 1)) + [f"i32.const {self.dice.pick((255, 255, 1023, 2047, 2047, 32767))}", "i32.and"]
        if self.dice.below(6) == 0:
            code += [f"i32.const {self.dice.pick((16, 64, 1024))}", "i32.add" if self.dice.below(12) else "i32.sub"]
        return code

    def growth(self, kind: str, depth: int) -> Code:
        """A number of pages to grow by."""
        if self.dice.below(2):
            return [f"i32.const {self.dice.pick((0, 1, 2, 65535, 65536, -1))}"]
        return self.value("i32", depth) + ["i32.const 1", "i32.and"]

    def call(self, kind: str, depth: int) -> Code:
        """A call of a helper that gives a value of this type, where there is one and the function may make more calls."""
        found = [function for function in self.callable if function.results == (kind,)]
        if self.calls == 0 or not found:
            return [self.leaf(kind)]
        self.calls -= 1
        function = self.dice.pick(found)
        return self.values(function.parameters, depth) + [f"call ${function.name}"]

    def indirect(self, kind: str, depth: int) -> Code:
        """A call through the table, where the first four helpers have one type and the next four another."""
        found = [place for place, function in enumerate(self.signatures) if function.results == (kind,)]
        if self.calls < 2 or not found:
            return self.call(kind, depth)
        self.calls -= 1
        place = self.dice.pick(found)
        signature = self.signatures[place]
        index = self.value("i32", depth) + [f"i32.const {3 if self.dice.below(4) else 259}", "i32.and", f"i32.const {4 * place}", "i32.or"]
        return self.values(signature.parameters, depth) + index + [f"call_indirect (type ${signature.name})"]

    def function(self, function: Function, exported: bool) -> str:
        """A function: it sets a variable of each type, makes a few statements, and gives its results."""
        self.current = function
        self.calls = 5 if exported else self.dice.below(2)
        depth, size = (6, 40) if exported else (3, 12)
        self.budget = size
        self.variables = {kind: [f"${kind}_0", f"${kind}_1"] for kind in KINDS}
        for place, kind in enumerate(function.parameters):
            self.variables[kind].append(f"$p{place}")
        code = [text for kind in KINDS for text in self.value(kind, 1) + [f"local.set ${kind}_0"]]
        for place in range(5 + self.dice.below(3) if exported else 1):
            self.budget = size
            code += self.loop(depth - 3) if exported and place == 1 and self.dice.below(2) else self.statement(depth)
        for kind in function.results:
            self.budget = size
            code += self.value(kind, depth)
        export = f' (export "{function.name}")' if exported else ""
        names = " ".join(f"(local ${kind}_{place} {kind})" for kind in KINDS for place in (0, 1))
        lines = [f"  (func ${function.name}{export}{function.type(True)}", f"{names} (local $address i32) (local $counter i32)", *code]
        return "\n    ".join(lines) + ")"

    def data(self, count: int) -> str:
        """So many bytes of a data segment."""
        content = b""
        while len(content) < count:
            width = self.dice.pick((1, 4, 8))
            pattern = self.dice.pick(PATTERNS[width]) if self.dice.below(3) else self.dice.bits(8 * width)
            content += pattern.to_bytes(width, "little")
        return '"' + "".join(f"\\{byte:02x}" for byte in content[:count]) + '"'

    def module(self) -> str:
        """The text of the whole module."""
        lines = [f";; One of the modules in which the planted faults are looked for, written by generate.py: {self.name}.", "(module"]
        lines += [f"  (type ${function.name} (func{function.type(False)}))" for function in self.signatures]
        lines.append('  (memory (export "memory") 1 4)')
        lines += [f'  (global {name} (export "{name[1:]}") (mut {kind}) ({self.constant(kind)}))' for kind, name in self.globals.items()]
        lines += ["  (table $table 12 20 funcref)", "  (elem (i32.const 0) func" + "".join(f" $helper_{place}" for place in range(8)) + ")"]
        lines += [f"  (data (i32.const {start}) {self.data(count)})" for start, count in ((0, 2048), (4096, 512), (32752, 512))]
        lines.append(f"  (data $passive {self.data(64)})")
        types = [(function.parameters, function.results) for function in self.signatures for _ in range(4)]
        for place, (parameters, results) in enumerate(types + [(parameters, self.scalars(1)) for parameters in DIRECT]):
            helper = Function(f"helper_{place}", parameters, results)
            lines.append(self.function(helper, False))
            self.callable.append(helper)
        kinds = [kind for kind in self.kinds if kind != "v128"]
        for place in range(9 + self.dice.below(7)):
            results = tuple(self.dice.pick(kinds) for _ in range(1 if self.dice.below(5) else 2))
            lines.append(self.function(Function(f"function_{place}", self.scalars(1 + self.dice.below(4)), results), True))
        return "\n".join(lines + [SUM_MEMORY]) + ")\n"


def main() -> None:
    if len(sys.argv) != 2:
        sys.exit("usage: generate.py FOLDER")
    folder = Path(sys.argv[1])
    folder.mkdir(parents=True, exist_ok=True)
    read_grammar()
    for number in range(3 * len(THEMES)):
        writer = Writer(number)
        (folder / f"{writer.name}.wat").write_bytes(writer.module().encode("ascii"))


if __name__ == "__main__":
    main()
