# SPDX-License-Identifier: Apache-2.0 OR BSD-3-Clause
"""Types of terms, as far as the translation needs them: to say whose field a field is, and which parts a pair has."""
from collections.abc import Container
from dataclasses import dataclass

from antt_modules import Definition, Entity, Module, Modules, Record, Word
from antt_tree import Apply, Name, Operation, Refused, Term


@dataclass(frozen=True)
class Global:
    entity: Entity | Word


@dataclass(frozen=True)
class Local:
    name: str


@dataclass(frozen=True)
class Applied:
    head: "Type"
    arguments: tuple["Type", ...]


@dataclass(frozen=True)
class Pair:
    first: "Type"
    second: "Type"


Type = Global | Local | Applied | Pair | None  # None is one that is not known


def resolved(modules: Modules, module: Module, term: Term, variables: Container[str] = ()) -> Type:
    if isinstance(term, Name):
        entity = None if term.text in variables else modules.lookup(module, term.text)
        return Global(entity) if entity else Local(term.text)
    if isinstance(term, Apply):
        return Applied(resolved(modules, module, term.head, variables),
                       tuple(resolved(modules, module, part, variables) for part in term.arguments))
    if isinstance(term, Operation) and term.operator == "×":
        return Pair(resolved(modules, module, term.left, variables), resolved(modules, module, term.right, variables))
    return None


def unfolded(modules: Modules, type_: Type) -> Type:
    """The type that a name such as `Trace` stands for."""
    while isinstance(type_, Global) and isinstance(type_.entity, Definition):
        definition = type_.entity
        if not definition.clauses or definition.clauses[0][0]:
            break
        type_ = resolved(modules, definition.module, definition.clauses[0][1])
    return type_


def record_of(modules: Modules, type_: Type, what: str) -> Record:
    type_ = unfolded(modules, type_)
    if isinstance(type_, Applied):
        type_ = type_.head
    if not isinstance(type_, Global) or not isinstance(type_.entity, Record):
        raise Refused(f"the record of {what} is not known")
    return type_.entity


def first_argument(modules: Modules, type_: Type) -> Type:
    """The type of the items of a list, or of the value in an option."""
    type_ = unfolded(modules, type_)
    return type_.arguments[0] if isinstance(type_, Applied) else None
