#!/usr/bin/env python3
"""Compares the public calls with those of another commit: each call, clause and type of that commit that isn't there any more, or that has
another text, is printed, and the status is 1. White space, comments and attributes don't count, nor in which file of its crate a call is.

Usage: calls.py COMMIT, at the top of the repository. Crates of tests and of promises are left out, as are test modules.
"""

from __future__ import annotations

import collections
import re
import subprocess
import sys
from collections.abc import Iterator
from pathlib import Path

# What a call is known by: its crate, the block that it is in, and its signature or a clause of it.
Key = tuple[str, str, str]

LEFT_OUT = re.compile(r"_tests$|_promises$|^peephole_test_support$|^case_files$")

NOT_COUNTED = re.compile(r"//[^\n]*|#!?\[[^\]]*\]")
ITEM = re.compile(
    r"(?:^|(?<=[\n;{}\]]))\s*(?:(pub )?(?:const )?(?:unsafe )?fn (\w+)|(pub )?(struct|enum) (\w+)|(pub )?(trait) (\w+)|(impl)\b)"
)
CLAUSE = re.compile(r"\b(requires|ensures)\b")


def sources_at(commit: str) -> Iterator[tuple[str, str]]:
    """The crates and texts of the sources at a commit."""
    listed = subprocess.run(["git", "ls-tree", "-r", "-z", commit, "crates"], capture_output=True, text=True, check=True).stdout
    entries = [entry.split("\t") for entry in listed.split("\0") if entry.endswith(".rt")]
    wanted = [(meta.split()[2], path) for meta, path in entries if path.split("/")[2] == "src"]
    asked = "".join(f"{blob}\n" for blob, _ in wanted)
    answer = subprocess.run(["git", "cat-file", "--batch"], input=asked.encode(), capture_output=True, check=True).stdout
    at = 0
    for _, path in wanted:
        end = answer.index(b"\n", at)
        size = int(answer[at:end].split()[2])
        yield path.split("/")[1], answer[end + 1 : end + 1 + size].decode()
        at = end + 1 + size + 1


def sources_here() -> Iterator[tuple[str, str]]:
    """The crates and texts of the sources of the working copy."""
    for path in sorted(Path("crates").glob("*/src/**/*.rt")):
        yield path.parts[1], path.read_text()


def plain(text: str) -> str:
    """The text with single spaces."""
    return " ".join(text.split()).replace(", )", ")").replace("( ", "(").replace(" )", ")")


def end_of_block(text: str, opening: int) -> int:
    """Where the block ends that opens there: after its closing brace."""
    depth = 0
    for at in range(opening, len(text)):
        depth += {"{": 1, "}": -1}.get(text[at], 0)
        if depth == 0:
            return at + 1
    return len(text)


def head_of(text: str, start: int) -> tuple[str, int]:
    """The signature and the clauses of a function, and where its body opens or its declaration ends."""
    at = start
    while True:
        brace, end = text.find("{", at), text.find(";", at)
        if 0 <= end and (brace < 0 or end < brace):
            return text[start:end], end
        before = text[at:brace]
        if not CLAUSE.search(before):
            return text[start:brace], brace
        at = end_of_block(text, brace)


def parts_of_head(head: str) -> Iterator[str]:
    """The signature of a function, then each of its clauses."""
    starts = [0]
    depth = 0
    for found in re.finditer(r"[{}]|\b(?:requires|ensures)\b", head):
        if found.group() in "{}":
            depth += 1 if found.group() == "{" else -1
        elif depth == 0:
            starts.append(found.start())
    for start, end in zip(starts, [*starts[1:], len(head)]):
        yield plain(head[start:end])


def items_of(text: str, block: str, is_open: bool) -> Iterator[tuple[str, str]]:
    """What is public in a text: the block that it is in, and a signature, clause or type. In an open block all functions are."""
    at = 0
    while found := ITEM.search(text, at):
        start = found.start() + len(found.group()) - len(found.group().lstrip())
        if found.group(2):
            head, at = head_of(text, start)
            if found.group(1) or is_open:
                name = found.group(2)
                for part in parts_of_head(head):
                    yield f"{block}{name}", part
            if at < len(text) and text[at] == "{":
                at = end_of_block(text, at)
            continue
        brace, end = text.find("{", start), text.find(";", start)
        if brace < 0 and end < 0:
            return
        if brace < 0 or 0 <= end < brace:
            at = end + 1
        else:
            at = end_of_block(text, brace)
        if found.group(5):
            if found.group(3):
                yield found.group(5), plain(text[start:at])
            continue
        header = plain(text[start:brace])
        open_inside = bool(found.group(6)) if found.group(7) else " for " in re.sub(r"\bfor<", "", header)
        yield from items_of(text[brace + 1 : at - 1], f"{header} :: ", open_inside)


def calls_of(sources: Iterator[tuple[str, str]]) -> collections.Counter[Key]:
    """The calls, clauses and types of the sources, each as often as it is there."""
    calls: collections.Counter[Key] = collections.Counter()
    for crate, text in sources:
        if LEFT_OUT.search(crate) or "#[test]" in text:
            continue
        for name, part in items_of(NOT_COUNTED.sub("", text), "", False):
            calls[crate, name, part] += 1
    return calls


def main() -> int:
    before, now = calls_of(sources_at(sys.argv[1])), calls_of(sources_here())
    gone = before - now
    for crate, name, part in sorted(gone):
        print(f"{crate}: {name}: {part}")
    clauses = sum(count for (_, _, part), count in before.items() if CLAUSE.match(part))
    types = sum(count for (_, _, part), count in before.items() if re.match(r"(pub )?(struct|enum) ", part))
    print(f"{sum(before.values()) - clauses - types} calls, {clauses} clauses, {types} types; {sum(gone.values())} missing")
    return 1 if gone else 0


if __name__ == "__main__":
    sys.exit(main())
