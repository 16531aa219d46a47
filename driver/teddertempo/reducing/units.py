"""Units of a function's body: an operator, or a block, with all code that makes its operands. A unit needs nothing from the stack below
it, so that other code with the same results can replace it. No unit is found after an operator that isn't known."""

from __future__ import annotations

from dataclasses import dataclass, field
from functools import lru_cache

from ..wasm.immediates import ImmediateValue, Kinds, Targets, narrowed
from ..wasm.module import Context, Function
from ..wasm.operators import (BR, BR_IF, BR_ON_NON_NULL, BR_ON_NULL, BR_TABLE, CALL, CALL_INDIRECT, CALL_REF, CATCH, CLOSES, ELSE,
                        IF, LOCAL_GET, LOCAL_SET, LOCAL_TEE, LOOP, OPENS, PARTS, RETHROW, RETURN, RETURN_CALL, RETURN_CALL_INDIRECT,
                        RETURN_CALL_REF, SELECT, THROW, THROW_REF, TYPED_SELECT, UNREACHABLE, Operator)
from ..wasm.types import I32, FunctionType, ValueType
from .signatures import Types, signature, table_address

ENDS_CODE = frozenset((UNREACHABLE, BR, BR_TABLE, RETURN, RETURN_CALL, RETURN_CALL_INDIRECT, RETURN_CALL_REF, THROW, THROW_REF, RETHROW))


@dataclass(frozen=True)
class Operand:
    """Code that makes one value, from `first` to `last`, and the statements after it, up to the operator before `end`; the type of the
    value, if it is known."""

    first: int
    last: int
    end: int
    type: ValueType | None


@dataclass(frozen=True)
class Unit:
    """The code from `first` to `last`, its results, and its operands; the operator that opens the block around it (-1 for the function),
    the number of values on the stack below it, and the uppermost of them that belongs to that block."""

    first: int
    last: int
    results: Types
    operands: tuple[Operand, ...]
    block: int
    height: int
    below: Value | None


@dataclass(frozen=True)
class Value:
    """A value on the stack: its type, and the first and the last operator of the code that made it."""

    type: ValueType | None
    first: int
    last: int


@dataclass
class Frame:
    """A block that is open: its operator and the operator's place, where its code begins, what it takes and leaves, and how many values
    were on the stack."""

    operator: Operator | None
    at: int
    first: int
    taken: Types
    results: Types
    height: int
    operands: tuple[Operand, ...] = ()
    is_dead: bool = False


class Unknown(Exception):
    """An operator isn't known, or the code isn't valid."""


@dataclass
class Walk:
    """A walk over a function's body, which finds its units."""

    context: Context
    function: Function
    stack: list[Value] = field(default_factory=list)
    frames: list[Frame] = field(default_factory=list)
    units: list[Unit] = field(default_factory=list)

    def run(self) -> list[Unit]:
        own = self.context.function_type(self.function.type)
        if own is None:
            return []
        self.kinds = own.parameters + self.function.locals
        self.frames.append(Frame(None, -1, 0, (), own.results, 0))
        try:
            for at, operator in enumerate(self.function.body[:-1]):
                self.step(at, operator)
        except Unknown:
            pass
        return self.units

    def step(self, at: int, operator: Operator) -> None:
        if operator.code in OPENS:
            self.open(at, operator)
        elif operator.code in PARTS:
            self.part(at, operator)
        elif operator.code in CLOSES:
            self.close(at)
        else:
            taken, left = self.signature(operator)
            self.unit(at, self.pop(at, taken), left)
            if operator.code in ENDS_CODE:
                self.die()

    # ---- the stack

    def pop(self, at: int, taken: Types) -> tuple[Operand, ...]:
        """Takes values; returns the code that made each, up to the next one."""
        frame = self.frames[-1]
        values = []
        for kind in reversed(taken):
            if len(self.stack) > frame.height:
                value = self.stack.pop()
                values.append(Value(value.type or kind, value.first, value.last))
            elif frame.is_dead:
                first = values[-1].first if values else at
                values.append(Value(kind, first, first - 1))
            else:
                raise Unknown
        values.reverse()
        ends = [value.first for value in values[1:]] + [at]
        return tuple(Operand(value.first, value.last, end, value.type) for value, end in zip(values, ends))

    def unit(self, at: int, operands: tuple[Operand, ...], results: Types, start: int | None = None) -> None:
        """Adds a unit, and pushes its results."""
        first = operands[0].first if operands else at if start is None else start
        frame, height = self.frames[-1], len(self.stack)
        below = self.stack[-1] if height > frame.height else None
        self.units.append(Unit(first, at, results, operands, frame.at, height, below))
        self.stack += [Value(kind, first, at) for kind in results]

    def die(self) -> None:
        """The code after it isn't reached."""
        self.frames[-1].is_dead = True
        del self.stack[self.frames[-1].height :]

    # ---- blocks

    def block_type(self, form: ImmediateValue) -> tuple[Types, Types]:
        if form is None:
            return (), ()
        if isinstance(form, ValueType):
            return (), (form,)
        return self.types_of(narrowed(form, int))

    def types_of(self, index: int) -> tuple[Types, Types]:
        found: FunctionType | None = self.context.function_type(index)
        if found is None:
            raise Unknown
        return found.parameters, found.results

    def open(self, at: int, operator: Operator) -> None:
        taken, results = self.block_type(operator.values[0])
        operands = self.pop(at, (*taken, I32) if operator.code == IF else taken)
        first = operands[0].first if operands else at
        self.frames.append(Frame(operator, at, first, taken, results, len(self.stack), operands))
        self.stack += [Value(kind, at + 1, at) for kind in taken]

    def part(self, at: int, operator: Operator) -> None:
        """Begins another part of the block."""
        frame = self.frames[-1]
        del self.stack[frame.height :]
        frame.is_dead = False
        if operator.code == ELSE:
            self.stack += [Value(kind, at + 1, at) for kind in frame.taken]
        elif operator.code == CATCH:
            tag = operator.number()
            if tag >= len(self.context.tags):
                raise Unknown
            self.stack += [Value(kind, at + 1, at) for kind in self.types_of(self.context.tags[tag])[0]]

    def close(self, at: int) -> None:
        frame = self.frames.pop()
        if not self.frames:
            raise Unknown
        del self.stack[frame.height :]
        self.unit(at, frame.operands, frame.results, frame.first)

    def label_types(self, label: int) -> Types:
        """What a branch to a label takes."""
        if label >= len(self.frames):
            raise Unknown
        frame = self.frames[-1 - label]
        return frame.taken if frame.operator and frame.operator.code == LOOP else frame.results

    # ---- operators whose types are the function's

    def signature(self, operator: Operator) -> tuple[Types, Types]:
        for find in (self.local_signature, self.branch_signature, self.call_signature):
            found = find(operator)
            if found is not None:
                return found
        found = signature(operator, self.context)
        if found is None:
            raise Unknown
        return found

    def local_signature(self, operator: Operator) -> tuple[Types, Types] | None:
        if operator.code in (LOCAL_GET, LOCAL_SET, LOCAL_TEE):
            if operator.number() >= len(self.kinds):
                raise Unknown
            kind = self.kinds[operator.number()]
            return (() if operator.code == LOCAL_GET else (kind,)), (() if operator.code == LOCAL_SET else (kind,))
        if operator.code in (SELECT, TYPED_SELECT):
            named = narrowed(operator.values[0], Kinds) if operator.values else ()
            selected = named[0] if named else self.select_type()
            return (selected, selected, I32), (selected,)
        return None

    def select_type(self) -> ValueType | None:
        reached = self.stack[self.frames[-1].height :]
        return next((value.type for value in reversed(reached[-3:-1]) if value.type), None)

    def branch_signature(self, operator: Operator) -> tuple[Types, Types] | None:
        code = operator.code
        if code == UNREACHABLE:
            return (), ()
        if code == RETURN:
            return self.frames[0].results, ()
        if code == BR:
            return self.label_types(operator.number()), ()
        if code == BR_IF:
            kinds = self.label_types(operator.number())
            return (*kinds, I32), kinds
        if code == BR_TABLE:
            return (*self.label_types(narrowed(operator.values[0], Targets)[-1]), I32), ()
        if code == BR_ON_NULL:
            kinds = self.label_types(operator.number())
            return (*kinds, None), (*kinds, None)
        if code == BR_ON_NON_NULL:
            kinds = self.label_types(operator.number())
            return kinds, kinds[:-1]
        if code == THROW:
            tag = operator.number()
            return (self.types_of(self.context.tags[tag])[0], ()) if tag < len(self.context.tags) else None
        return ((None,), ()) if code == THROW_REF else ((), ()) if code == RETHROW else None

    def call_signature(self, operator: Operator) -> tuple[Types, Types] | None:
        code = operator.code
        if code in (CALL, RETURN_CALL):
            types = self.context.functions
            if operator.number() >= len(types):
                raise Unknown
            taken, left = self.types_of(types[operator.number()])
        elif code in (CALL_INDIRECT, RETURN_CALL_INDIRECT):
            taken, left = self.types_of(operator.number())
            taken = (*taken, table_address(operator, self.context))
        elif code in (CALL_REF, RETURN_CALL_REF):
            taken, left = self.types_of(operator.number())
            taken = (*taken, None)
        else:
            return None
        return taken, () if code in (RETURN_CALL, RETURN_CALL_INDIRECT, RETURN_CALL_REF) else left


@lru_cache(maxsize=4096)
def units_of(context: Context, function: Function) -> tuple[Unit, ...]:
    """The units of a function, by their last operators."""
    return tuple(Walk(context, function).run())
