#!/usr/bin/env python3
"""Counts how many operators of modules the rules name: those that stand on the left side of a line, with the lane where an operator
has one. A line whose left side is any operand, as `x → f32.neg (f32.neg x)`, names none. So of three families: operators on vectors;
loads and stores of all types, but atomic ones; and operators on floats, constants and reinterpretations among them, but without sums,
differences, products, quotients, roots and all other conversions.

Prints a table, a row for each module and one for all; with --unnamed also the operators that aren't named, each behind how often it is
there.

Usage: named.py [--unnamed] RULES MODULE.. RULES is a file with what `teddertempo --list-rules=json` prints, or - for standard input.
Needs wabt (wasm-objdump).
"""
import json
import re
import subprocess
import sys
from collections import Counter

FAMILIES = ("vectors", "loads and stores", "floats")

ACCESS = re.compile(r"(i32|i64|f32|f64|v128)\.(load|store)")
VECTOR = re.compile(r"(v128|[if]\d+x\d+)\.")
FLOAT = re.compile(r"f(32|64)\.|i(32|64)\.reinterpret_")
COMPUTED = re.compile(r"f(32|64)\.(add|sub|mul|div|sqrt|convert_\w*|demote_\w*|promote_\w*)$")

# An operator with its lane, in a line of a rule and in what wasm-objdump prints.
OPERATOR = r"[a-z][a-z0-9]*\.(?:(?:extract|replace)_lane\w* \d+|\w+)"
IN_LINE = re.compile(OPERATOR)
IN_MODULE = re.compile(r"^ [0-9a-f]+: [0-9a-f ]*\| +(" + OPERATOR + ")", re.MULTILINE)


def family_of(operator):
    if ACCESS.match(operator):
        return "loads and stores"
    if VECTOR.match(operator):
        return "vectors"
    if FLOAT.match(operator) and not COMPUTED.match(operator):
        return "floats"
    return None


def named_by(rules):
    """The operators on the left sides of the rules' lines."""
    lines = (line for rule in rules for line in json.loads(rule)["lines"])
    return {operator for line in lines for operator in IN_LINE.findall(line.split(" → ")[0])}


def operators_of(module):
    """The operators of a module's families, and how often each is there."""
    text = subprocess.run(["wasm-objdump", "-d", module], check=True, capture_output=True, text=True).stdout
    return Counter(operator for operator in IN_MODULE.findall(text) if family_of(operator))


def share(operators, named, family):
    """How many operators of a family are named, of how many."""
    own = [operator for operator in operators.elements() if family_of(operator) == family]
    part = sum(operator in named for operator in own)
    return f"{part} of {len(own)}" + (f", {100 * part / len(own):.1f} %" if own else "")


def row(name, operators, named):
    return f"| {name} | " + " | ".join(share(operators, named, family) for family in FAMILIES) + " |"


def main(*words):
    rules, *modules = (word for word in words if word != "--unnamed")
    with sys.stdin if rules == "-" else open(rules) as lines:
        named = named_by(lines)
    found = {module: operators_of(module) for module in modules}
    every = sum(found.values(), Counter())
    print("| Module | " + " | ".join(FAMILIES) + " |\n|---|" + "---|" * len(FAMILIES))
    for module, operators in found.items():
        print(row(f"`{module.rpartition('/')[2].removesuffix('.wasm')}`", operators, named))
    print(row("all", every, named))
    if "--unnamed" in words:
        for operator, count in every.most_common():
            if operator not in named:
                print(count, operator)


main(*sys.argv[1:])
