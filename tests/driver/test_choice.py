"""Which rules the mutants of a seed use (--swarm)."""

from __future__ import annotations

from teddertempo.running.mutator import Choice

NAMES = [f"rule_{place}" for place in range(23)]


def test_each_rule_is_one_seed_of_as_many_as_there_are_parts() -> None:
    parts = [Choice(without=("rule_4",), parts=5).part(NAMES, seed)[1::2] for seed in range(10)]
    for first in (0, 5):
        assert sorted(name for part in parts[first : first + 5] for name in part) == sorted({*NAMES} - {"rule_4"})
    assert parts[:5] != parts[5:]
    assert {len(part) for part in parts} == {4, 5}


def test_one_part_is_all() -> None:
    assert Choice(("a", "b"), ("c",)).part(NAMES, 3) == ["--rule", "a", "--rule", "b", "--not-rule", "c"]
