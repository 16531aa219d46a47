"""The passes, in the order of a round."""

from __future__ import annotations

from ..changes import Changer
from ..search import Pass
from .blocks import ElseUnwrapping, Parts, Ranges, Unwrapping
from .bodies import ConstantBodies, UnreachableBodies
from .calls import ExportedCallees, Inlining
from .changes import Change
from .immediates import Immediates, MergedLocals
from .parameters import Parameters
from .sections import CustomSections, Encoding, Exports, OwnImports, Sections, SmallerLimits
from .segments import CutSegments, LateSegments, Segments, ZeroedData
from .stacks import Drops, Pairs
from .trees import Constants, Deletions, Operands
from .unused import Unused, UnusedLocals

CHANGES = ("delete", "draw", "first_operand", "last_operand")


def all_passes(changer: Changer | None, keeps_names: bool) -> list[Pass]:
    """The passes of a round, those that take much away first; those by the program if there is one."""
    changes = [Change(name, changer) for name in CHANGES] if changer else []
    return [
        Encoding(), CustomSections(keeps_names), ConstantBodies(), Exports(), ExportedCallees(), Sections(), Unused(), Segments(),
        CutSegments(), LateSegments(), Unused(), *changes, Deletions(), Constants(), Operands(False), Operands(True), Drops(),
        Unwrapping(), ElseUnwrapping(), Parts(), UnreachableBodies(), Ranges(), Pairs(), Immediates(), MergedLocals(), UnusedLocals(),
        Parameters(), Unused(), Inlining(), OwnImports(), SmallerLimits(), ZeroedData(),
    ]
