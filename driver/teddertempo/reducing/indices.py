"""Where a module names what it has by an index: what is used, and the module with other indices."""

from __future__ import annotations

from dataclasses import replace
from typing import Callable, Iterable, Sequence, TypeVar

from ..wasm.immediates import Space, Visit
from ..wasm.module import CUSTOM, KINDS, Data, Element, Export, Extra, Function, Global, Import, Module, Table
from ..wasm.operators import visit_body
from ..wasm.types import Limits, visited_all
from .names import renumber_names

Item = TypeVar("Item")
Use = tuple[Space, int]

# Which indices become which others; those that aren't there are gone.
Numbering = dict[Space, dict[int, int]]


class StillUsed(Exception):
    """What would go is named by what stays."""


class Visitor:
    """Makes parts of a module with other indices."""

    def __init__(self, visit: Visit):
        self.visit = visit

    def type_index(self, index: int) -> int:
        return self.visit(Space.TYPE, index)

    def imported(self, item: Import) -> Import:
        if isinstance(item.type, int):
            return replace(item, type=self.type_index(item.type))
        return item if isinstance(item.type, Limits) else replace(item, type=item.type.visited(self.type_index))

    def function(self, item: Function) -> Function:
        """The function; where nothing in it has another index, itself."""
        kind, kinds, body = self.type_index(item.type), visited_all(item.locals, self.type_index), visit_body(item.body, self.visit)
        is_same = kind == item.type and kinds == item.locals and all(new is old for new, old in zip(body, item.body))
        return item if is_same else replace(item, type=kind, locals=kinds, body=body)

    def table(self, item: Table) -> Table:
        return Table(item.type.visited(self.type_index), item.start and visit_body(item.start, self.visit))

    def global_of(self, item: Global) -> Global:
        return Global(item.type.visited(self.type_index), visit_body(item.start, self.visit))

    def export(self, item: Export) -> Export:
        return replace(item, index=self.visit(item.kind, item.index))

    def element(self, item: Element) -> Element:
        return Element(item.flags, self.visit(Space.TABLE, item.table) if item.is_active() else 0,
                       visit_body(item.offset, self.visit), item.type and item.type.visited(self.type_index),
                       tuple(self.visit(Space.FUNCTION, index) for index in item.functions),
                       tuple(visit_body(body, self.visit) for body in item.expressions))

    def data(self, item: Data) -> Data:
        memory = self.visit(Space.MEMORY, item.memory) if item.is_active() else 0
        return Data(item.flags, memory, visit_body(item.offset, self.visit), item.content)

    def module(self, item: Module) -> Module:
        return replace(
            item,
            types=tuple(group.visited(self.type_index) for group in item.types),
            imports=tuple(map(self.imported, item.imports)),
            functions=tuple(map(self.function, item.functions)),
            tables=tuple(map(self.table, item.tables)),
            tags=tuple(map(self.type_index, item.tags)),
            globals=tuple(map(self.global_of, item.globals)),
            exports=tuple(map(self.export, item.exports)),
            start=None if item.start is None else self.visit(Space.FUNCTION, item.start),
            elements=tuple(map(self.element, item.elements)),
            data=tuple(map(self.data, item.data)),
        )


class Uses(Visitor):
    """Notes what the parts name that it visits, but locals."""

    def __init__(self) -> None:
        self.found: set[Use] = set()
        super().__init__(self.note)

    def note(self, space: Space, index: int) -> int:
        if space is not Space.LOCAL:
            self.found.add((space, index))
        return index

    def take(self) -> set[Use]:
        """What was noted since this was asked last."""
        found, self.found = self.found, set()
        return found


class Reach:
    """What of a module is used: by its exports, its start, its active segments, and by what these use; and what else is said to be."""

    def __init__(self, module: Module, others: Iterable[Use] = ()):
        self.module = module
        self.uses = Uses()
        self.uses.found.update(others)
        self.used: set[Use] = set()
        self.imports = {kind: [each for each in module.imports if each.kind is kind] for kind in KINDS}
        self.places = [place for place, group in enumerate(module.types) for _ in group.types]
        for export in module.exports:
            self.uses.export(export)
        if module.start is not None:
            self.uses.note(Space.FUNCTION, module.start)
        self.note_active(Space.ELEMENT, module.elements)
        self.note_active(Space.DATA, module.data)
        self.close()

    def note_active(self, space: Space, segments: Sequence[Element | Data]) -> None:
        for index, segment in enumerate(segments):
            if segment.is_active():
                self.uses.note(space, index)

    def close(self) -> None:
        """Adds what is used by what is used."""
        waiting = list(self.uses.take())
        while waiting:
            use = waiting.pop()
            if use not in self.used:
                self.used.add(use)
                self.visit(*use)
                waiting += self.uses.take() - self.used

    def visit(self, space: Space, index: int) -> None:
        """Visits one thing that is used."""
        imported = self.imports.get(space, [])
        if space is Space.TYPE:
            self.visit_type(index)
        elif index < len(imported):
            self.uses.imported(imported[index])
        else:
            self.visit_own(space, index - len(imported))

    def visit_own(self, space: Space, place: int) -> None:
        """Visits what isn't imported."""
        module, uses = self.module, self.uses
        if space is Space.FUNCTION:
            visit_at(place, module.functions, uses.function)
        elif space is Space.TABLE:
            visit_at(place, module.tables, uses.table)
        elif space is Space.GLOBAL:
            visit_at(place, module.globals, uses.global_of)
        elif space is Space.TAG:
            visit_at(place, module.tags, uses.type_index)
        elif space is Space.ELEMENT:
            visit_at(place, module.elements, uses.element)
        elif space is Space.DATA:
            visit_at(place, module.data, uses.data)

    def visit_type(self, index: int) -> None:
        """Visits a type, and with it its group."""
        if index < len(self.places):
            place = self.places[index]
            first = self.places.index(place)
            for other in range(first, first + len(self.module.types[place].types)):
                self.uses.note(Space.TYPE, other)
            self.module.types[place].visited(self.uses.type_index)

    def unused(self) -> list[Use]:
        """What isn't used, in order."""
        counts = counts_of(self.module)
        return [(space, index) for space in counts for index in range(counts[space]) if (space, index) not in self.used]


def visit_at(place: int, parts: tuple[Item, ...], visit: Callable[[Item], object]) -> None:
    """Visits the part at a place, if there is one."""
    if place < len(parts):
        visit(parts[place])


def counts_of(module: Module) -> dict[Space, int]:
    """How many things of each kind a module has, imported ones too."""
    return {
        Space.TYPE: len(module.context.types),
        Space.FUNCTION: len(module.context.functions),
        Space.TABLE: len(module.context.tables),
        Space.MEMORY: len(module.context.memories),
        Space.GLOBAL: len(module.context.globals),
        Space.TAG: len(module.context.tags),
        Space.ELEMENT: len(module.elements),
        Space.DATA: len(module.data),
    }


def renumbered(module: Module, numbering: Numbering) -> Module:
    """The module with other indices; `StillUsed` where one is named that is gone. Spaces that aren't named stay as they are."""

    def visit(space: Space, index: int) -> int:
        known = numbering.get(space)
        if known is None:
            return index
        if index not in known:
            raise StillUsed
        return known[index]

    made = Visitor(visit).module(module)
    return replace(made, extras=tuple(renumbered_extra(extra, numbering) for extra in made.extras))


def renumbered_extra(extra: Extra, numbering: Numbering) -> Extra:
    return replace(extra, content=renumber_names(extra.content, numbering)) if extra.code == CUSTOM else extra


def without(module: Module, gone: set[Use]) -> Module | None:
    """The module without some of what it has; none where that is still named."""
    counts = counts_of(module)
    kept = {space: [index for index in range(count) if (space, index) not in gone] for space, count in counts.items()}
    numbering = {space: {old: new for new, old in enumerate(left)} for space, left in kept.items() if len(left) < counts[space]}
    try:
        return renumbered(cut_out(module, kept), numbering)
    except StillUsed:
        return None


def cut_out(module: Module, kept: dict[Space, list[int]]) -> Module:
    """The module with what is kept alone, by its old indices."""

    def own(space: Space, items: tuple[Item, ...]) -> tuple[Item, ...]:
        first = module.imported(space)
        return tuple(items[index - first] for index in kept[space] if index >= first)

    imports = [[place for place, item in enumerate(module.imports) if item.kind is space] for space in kept]
    left = sorted(places[index] for places, space in zip(imports, kept) for index in kept[space] if index < len(places))
    kept_types = set(kept[Space.TYPE])
    groups, at = [], 0
    for group in module.types:
        types = tuple(each for place, each in enumerate(group.types, at) if place in kept_types)
        at += len(group.types)
        groups += [replace(group, types=types)] if types else []
    return replace(module, types=tuple(groups), imports=tuple(module.imports[place] for place in left),
                   functions=own(Space.FUNCTION, module.functions), tables=own(Space.TABLE, module.tables),
                   memories=own(Space.MEMORY, module.memories), globals=own(Space.GLOBAL, module.globals),
                   tags=own(Space.TAG, module.tags), elements=own(Space.ELEMENT, module.elements), data=own(Space.DATA, module.data))
