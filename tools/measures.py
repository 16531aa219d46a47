#!/usr/bin/env python3
"""Measures how this repository reads: lines, functions, comments, names, documents. One line a measure, in words that docs/PROGRESS.md has.

Usage: measures.py [FOLDER]. The folder is a checkout; without it, this one.
"""

from __future__ import annotations

import re
import statistics
import subprocess
import sys
from collections import defaultdict
from dataclasses import dataclass
from pathlib import Path

NAME = r"[^\s:(){}.,;]+"
# A definition at the left margin: a record, a data type, or a function that others may name.
DEFINED = re.compile(rf"^(?:(?:abbrev|unfoldable) )*(?:pub )?(?:(?:record|data) ({NAME}) |(?<=pub )({NAME}) :)")
FUNCTION = re.compile(r"^(\s*)(?:pub(?:\([a-z]+\))? )?(?:const )?(?:unsafe )?(?:extern \"C\" )?fn (\w+)")
CLAUSE = re.compile(r"^\s*(?:ensures|requires)\b")


@dataclass
class Function:
    """A function of the code, without its tests."""

    name: str
    body: int
    clauses: int
    parameters: int
    commented: bool


def parts_of(text: str) -> int:
    """How many parameters a list between brackets has."""
    depth = 0
    parts = [""]
    for character in text:
        depth += (character in "([<{") - (character in ")]>}")
        if character == "," and depth == 0:
            parts.append("")
        else:
            parts[-1] += character
    return sum(bool(part.strip()) for part in parts)


def functions_of(lines: list[str]) -> list[Function]:
    found = []
    number = 0
    while number < len(lines):
        match = FUNCTION.match(lines[number])
        if not match:
            number += 1
            continue
        indent = match.group(1)
        end = number
        while end < len(lines) and not (lines[end].rstrip() in (f"{indent}{{", f"{indent}{{}}") or lines[end].rstrip().endswith((" {", ";", " {}"))
                                        and not CLAUSE.match(lines[end])):
            end += 1
        head = "\n".join(lines[number:end + 1])
        opening = head.index("(", head.index(f"fn {match.group(2)}") + 3 + len(match.group(2)))
        depth = 0
        for place, character in enumerate(head[opening:], opening):
            depth += (character == "(") - (character == ")")
            if depth == 0:
                break
        close = end
        if end < len(lines) and lines[end].rstrip().endswith("{"):
            close = end + 1
            while close < len(lines) and lines[close].rstrip() != f"{indent}}}":
                close += 1
        above = number - 1
        test = False
        while above >= 0 and lines[above].strip().startswith("#["):
            test = test or lines[above].strip() == "#[test]"
            above -= 1
        commented = above >= 0 and lines[above].strip().startswith("//")
        clauses = sum(bool(CLAUSE.match(line)) for line in lines[number:end + 1])
        if not test:
            found.append(Function(match.group(2), max(close - end - 1, 0), clauses, parts_of(head[opening + 1:place]), commented))
        number = close + 1
    return found


def is_law(path: Path) -> bool:
    """Whether the file has lemmas and laws alone, which need no comment: they say what they say."""
    return "Lemma" in path.name or path.name == "Laws.antt" or not {"lemmas", "laws"}.isdisjoint(path.parts)


def main() -> int:
    root = Path(sys.argv[1] if len(sys.argv) > 1 else Path(__file__).resolve().parents[1])
    listed = subprocess.run(["git", "ls-files", "crates"], cwd=root, capture_output=True, text=True, check=True).stdout.split("\n")
    files = [Path(name) for name in listed if name.endswith((".rt", ".antt"))]
    texts = {path: (root / path).read_text(encoding="utf-8") for path in files}
    crates = {path.parts[1] for path in files}
    print(f"lines of .rt and .antt: {sum(text.count(chr(10)) for text in texts.values()):,}")
    print(f"crates; files: {len(crates)}; {len(files):,}")

    functions = [function for path, text in texts.items() if path.suffix == ".rt" and path.parts[2] == "src"
                 for function in functions_of(text.split("\n"))]
    bodies = [function.body for function in functions]
    print(f"functions, without tests: {len(functions):,}")
    print(f"body, lines: median {statistics.median(bodies):.0f}, mean {statistics.mean(bodies):.1f}, longest {max(bodies)}")
    print(f"clauses a function: mean {statistics.mean(function.clauses for function in functions):.1f}, "
          f"most {max(function.clauses for function in functions)}")
    counts = [function.parameters for function in functions]
    print(f"parameters: most {max(counts)}; functions with 8 or more {sum(count >= 8 for count in counts)}, "
          f"with 6 or more {sum(count >= 6 for count in counts)}")
    print(f"functions with a comment above: {100 * sum(function.commented for function in functions) / len(functions):.0f} %")

    places = defaultdict(set)
    bare = 0
    defined = 0
    for path, text in texts.items():
        if path.suffix != ".antt" or path.parts[2] != "specs":
            continue
        lines = text.split("\n")
        for number, line in enumerate(lines):
            match = DEFINED.match(line)
            if match and not is_law(path):
                places[match.group(1) or match.group(2)].add(path.parts[1])
                defined += 1
                bare += not lines[number - 1].startswith("--")
    print(f"definitions without a comment above: {100 * bare / defined:.0f} %")
    print(f"names of definitions in two crates or more: {sum(len(where) > 1 for where in places.values())}")

    proofs = [line for path, text in texts.items() if path.suffix == ".antt" and path.parts[2] == "proofs" for line in text.split("\n")]
    plain = [line for line in proofs if line.strip() and not line.lstrip().startswith(("use ", "pub use "))]
    print(f"proof lines over 120 columns, without imports: {100 * sum(len(line) > 120 for line in plain) / len(plain):.1f} %; "
          f"over 160: {sum(len(line) > 160 for line in proofs):,}; longest {max(map(len, proofs))}")
    long_files = sum(text.count("\n") > 400 for path, text in texts.items() if path.suffix == ".antt" and path.parts[2] == "proofs")
    print(f"proof files of more than 400 lines: {long_files}")

    documents = [root / "README.md", root / "CONTRIBUTING.md", *sorted((root / "docs").glob("*.md"))]
    words = {path.name: len(path.read_text(encoding="utf-8").split()) for path in documents}
    print(f"words: README {words['README.md']:,}, PROMISES {words['PROMISES.md']:,}, DEFINITIONS {words['DEFINITIONS.md']:,}, "
          f"all documents {sum(words.values()):,}")
    return 0


if __name__ == "__main__":
    sys.exit(main())
