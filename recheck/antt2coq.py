# SPDX-License-Identifier: Apache-2.0 OR BSD-3-Clause
"""Translates definitions of crates/*/specs, and all that they rest on, to Coq.

Each definition becomes one of the same shape. Nothing is simplified or left out: a form that is not known here is
refused. A field `f` of a record `R` becomes the projection `R_f`, and a variant `V` of a Rust enum `E` becomes `E_V`.
The types of Rust are those of rust2coq.py, and the words of the language's library those of Prelude.v. A variable
that would hide a name of Coq's gets a `'0` after it, which no name of a definition has.

antt_parser.py reads the files to the trees of antt_tree.py, antt_modules.py finds what a name stands for, antt_types.py
says what is known of types, and antt_terms.py translates terms and patterns. Here are declarations, and the whole.
"""
from collections.abc import Iterable
from pathlib import Path
from typing import Any

from antt_modules import Data, Definition, Entity, Modules, Record, Variant, Word, telescope
from antt_terms import OF_COQ, Scope, Typed
from antt_tree import IGNORED, Binder, Name, Pi, Refused, Term, mentions, type_of
from antt_types import Type
from coq_layout import filled

__all__ = ["Refused", "translate"]

Parameter = tuple[str, Term, bool]


class Output:
    """What is put out, each definition after those that it uses."""
    def __init__(self, modules: Modules) -> None:
        self.modules = modules
        self.out: list[str] = []

    def name_of(self, entity: Entity | Word) -> str:
        if not isinstance(entity, Word) and not entity.coq:
            self.put(entity)
        return entity.coq

    def scope(self, entity: Entity) -> Scope:
        return Scope(self.modules, self.name_of, entity.module, {})

    def put(self, entity: Entity) -> None:
        if isinstance(entity, Definition):
            self.put_definitions(entity.group or [entity])
        elif isinstance(entity, Record):
            self.put_record(entity)
        else:
            self.put_data(entity.parent if isinstance(entity, Variant) else entity)

    def add(self, entity: Entity, text: str) -> None:
        comment = "\n   ".join(entity.comment).replace('"', "''")
        self.out.append((f"(* {comment} *)\n" if comment else "") + text)

    def give_name(self, entity: Entity) -> None:
        """Its own name, with the name of its module before it if another entity has this name"""
        name = entity.name
        if name in OF_COQ | self.modules.taken:
            name = f"{entity.module.path.rpartition('.')[2]}_{name}"
        if name in OF_COQ | self.modules.taken:
            raise Refused(f"two {name}")
        entity.coq = name
        self.modules.taken.add(name)

    # ---- types

    def put_record(self, record: Record) -> None:
        self.give_name(record)
        shown, scope = parameters(self.scope(record), record.parameters)
        inner, lines = scope, []
        for field, type_ in record.members.items():
            projection = f"{record.coq}_{field}"
            lines.append(f"  {projection} : {filled(inner.text(type_), 6)}")
            inner = inner.inside({field: Typed(projection, scope.type(type_))})
        self.add(record, f"Record {record.coq}{shown} : Type := mk_{record.coq} {{\n" + ";\n".join(lines) + "\n}.")

    def put_data(self, data: Data) -> None:
        self.give_name(data)
        shown, scope = parameters(self.scope(data), data.parameters)
        lines = []
        for variant in data.variants.values():
            self.give_name(variant)
            lines.append(f"| {variant.coq} : {filled(scope.text(variant.type), 6)}")
        self.add(data, f"Inductive {data.coq}{shown} : Type :=\n" + "\n".join(lines) + ".")

    # ---- definitions

    def put_definitions(self, group: list[Entity]) -> None:
        definitions = [entity for entity in group if isinstance(entity, Definition)]
        if definitions != group:
            raise Refused(f"a type among {', '.join(entity.name for entity in group)}")
        for entity in definitions:
            self.give_name(entity)
        bodies = [self.body(entity) for entity in definitions]
        names = {entity.name for entity in definitions}
        is_recursive = any(mentions(value, names) for entity in definitions for _, value in entity.clauses)
        self.add(group[0], ("Fixpoint " if is_recursive else "Definition ") + "\nwith ".join(bodies) + ".")

    def body(self, entity: Definition) -> str:
        """The definition, whose parameters are those that its clauses have patterns for"""
        given, result = telescope(entity)
        if not entity.clauses or len({len(patterns) for patterns, _ in entity.clauses}) != 1:
            raise Refused(f"the clauses of {entity.name}")
        count = len(entity.clauses[0][0])
        hidden = [parameter for parameter in given if parameter[2]]
        explicit = [parameter for parameter in given if not parameter[2]]
        if given[:len(hidden)] != hidden or len(explicit) < count:
            raise Refused(f"the parameters of {entity.name}")
        for name, type_, _ in reversed(explicit[count:]):
            result = Pi(Binder((name,), type_), result)
        binders, scope = parameters(self.scope(entity), [Binder((name,), type_, True) for name, type_, _ in hidden])
        names = argument_names(scope, entity, explicit[:count])
        signature, types = scope, []  # the names of the signature are those of the arguments there, and nowhere else
        for (plain, type_, _), name in zip(explicit, names):
            binders += f" ({name} : {signature.text(type_)})"
            types.append(scope.type(type_))
            signature = signature.inside({plain: Typed(name, types[-1])})
        head = f"{entity.coq}{binders} : {signature.text(result)} :="
        return f"{head}\n  {clauses(scope, entity, names, types, signature.type(result))}"


def parameters(scope: Scope, binders: Iterable[Binder]) -> tuple[str, Scope]:
    """The parameters of a declaration, and the scope that has them."""
    text = ""
    for binder in binders:
        type_ = type_of(binder)
        shown = f"{' '.join(map(scope.variable, binder.names))} : {scope.text(type_)}"
        scope = scope.inside(scope.bound(binder.names, scope.type(type_)))
        text += f" {{{shown}}}" if binder.is_hidden else f" ({shown})"
    return text, scope


def argument_names(scope: Scope, entity: Definition, explicit: list[Parameter]) -> list[str]:
    """The Coq names of the arguments: the variable that all clauses have there, or a name that they cannot have"""
    names = []
    for at, (plain, _, _) in enumerate(explicit):
        patterns = {patterns[at] for patterns, _ in entity.clauses} - {IGNORED}
        pattern = patterns.pop() if len(patterns) == 1 else IGNORED
        if isinstance(pattern, Name) and pattern != IGNORED and scope.is_variable(pattern):
            names.append(scope.variable(pattern.text))
        else:
            names.append(f"{'argument' if plain == '_' else plain}'{at + 1}")
    return names


def clauses(scope: Scope, entity: Definition, names: list[str], types: list[Type], want: Type) -> str:
    """A match in the clauses' order, over the arguments for which one of them has more than the argument's name"""
    def is_its_name(pattern: Term, name: str) -> bool:
        return pattern == IGNORED or isinstance(pattern, Name) and scope.is_variable(pattern) \
            and scope.variable(pattern.text) == name

    matched = [not all(is_its_name(patterns[at], name) for patterns, _ in entity.clauses)
               for at, name in enumerate(names)]
    arms = []
    for patterns, value in entity.clauses:
        found: dict[str, Typed] = dict(scope.variables)
        columns = []
        for pattern, type_, is_matched in zip(patterns, types, matched):
            if is_matched:
                columns.append(scope.pattern(pattern, type_, found))
            elif isinstance(pattern, Name) and pattern != IGNORED:
                found |= scope.bound([pattern.text], type_)
        arms.append((columns, scope.inside(found).text(value, want)))
    if not any(matched):
        if len(arms) > 1:
            raise Refused(f"the clauses of {entity.name}")
        return filled(arms[0][1], 2)
    lines = [f"  | {', '.join(columns)} => {filled(text, 6)}" for columns, text in arms]
    head = ", ".join(name for name, is_matched in zip(names, matched) if is_matched)
    return f"match {head} with\n" + "\n".join(lines) + "\n  end"


def translate(root: Path, crate: Any, names: Iterable[str]) -> str:
    """These definitions, each as Module.name, and all that they rest on."""
    modules = Modules(root, crate)
    output = Output(modules)
    paths = [name.rpartition(".") for name in names]
    for path, _, _ in paths:
        modules.module(path)
    for path, _, name in paths:
        output.name_of(modules.found(modules.module(path), name))
    head = "(* Made by recheck/antt2coq.py from crates/*/specs. *)\nRequire Export Recheck.Prelude Recheck.Types.\n\n"
    return head + "\n\n".join(output.out) + "\n"
