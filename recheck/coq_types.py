# SPDX-License-Identifier: Apache-2.0 OR BSD-3-Clause
"""Writes types as Coq."""
import re
from pathlib import Path
from typing import Iterator, NoReturn

from rust_crate import Crate
from rust_items import Enum, Struct
from rust_tokens import Refused
from rust_tree import WIDTHS, Expr, List, Local, Node, Type, Unknown
from rust_types import actual

Env = dict[Local, str]   # the Coq names of variables


def indented(text: str) -> str:
    return text.replace("\n", "\n  ")


class TypeWriter:
    def __init__(self, crate: Crate) -> None:
        self.crate, self.where, self.count = crate, Path(), 0

    def refuse(self, node: Node, what: str) -> NoReturn:
        raise Refused(f"{self.where}:{node.line}: {what}")

    def fresh(self, name: str) -> str:
        """A name that no other variable has: none of Rust has a `'`."""
        self.count += 1
        return f"{name}'{self.count}"

    def type(self, type_: Type, node: Node | None = None) -> str:
        """The type as Coq has it. If a node is given, it is the type of this node."""
        type_ = actual(type_)
        if isinstance(type_, Unknown):
            raise Refused(f"{self.where}:{node.line if node else ''}: a type that is not known")
        if isinstance(type_, tuple):
            parts = [self.type(part, node) for part in type_[1:]]
            if type_[0] == "tuple":
                return "(" + " * ".join(parts) + ")%type" if parts else "unit"
            return f"({type_[0]} {' '.join(parts)})"
        return {"bool": "bool", "i64": "int"}.get(type_, "N" if type_ in WIDTHS else type_)

    def known(self, node: Expr) -> Type:
        """The type of a node, which has to be known by now."""
        self.type(node.type, node)
        return actual(node.type)

    def width(self, type_: Type) -> str:
        """How many bits a number has. A usize has 32 or 64, by recheck/Prelude.v."""
        return "usize_bits" if type_ == "usize" else str(WIDTHS.get(str(type_), 64))

    def size(self, type_: Type) -> str:
        """How many numbers a type has."""
        return "(2 ^ usize_bits)" if type_ == "usize" else str(2 ** WIDTHS.get(str(type_), 64))

    def comment(self, doc: list[str]) -> str:
        text = re.sub(r"\n*```.*?```", "", "\n".join(doc), flags=re.S)  # without its examples
        text = text.replace("\n", "\n   ").replace("(*", "( *").replace("*)", "* )").replace('"', "''")
        return f"(* {text} *)\n" if doc else ""

    # -- declarations
    def types(self) -> str:
        """All types, as Coq, each after those that it rests on."""
        done: dict[str, str] = {}

        def add(name: str) -> None:
            if name in done or not self.is_own(name):
                return
            item = self.crate.types[name]
            for _, held in item.members:
                known = self.crate.known(held) if held is not None else ""
                if isinstance(known, str) and known in self.crate.types:
                    add(known)
            done[name] = self.declared(name, item)
        for name in self.crate.types:
            add(name)
        return "\n\n".join(done.values())

    def is_own(self, name: str) -> bool:
        """Whether the item is one of this crate."""
        return True

    def declared(self, name: str, item: Struct | Enum) -> str:
        valid = f"\n\n{self.valid(name, item)}" if self.holds_values(name) else ""
        return self.comment(item.doc) + self.declaration(name, item, "", name) + valid

    def declaration(self, name: str, item: Struct | Enum, parameters: str, whole: str) -> str:
        """`parameters` are the type variables, and `whole` is the type with them."""
        members = [(f"{name}_{member}", held and self.type(self.crate.known(held))) for member, held in item.members]
        if isinstance(item, Struct) and members:
            fields = ";\n".join(f"  {field} : {type_}" for field, type_ in members)
            return f"Record {name}{parameters} : Type := mk_{name} {{\n{fields}\n}}."
        members = members or [(f"mk_{name}", None)]
        lines = [f"| {made} : {f'{held} -> ' if held else ''}{whole}" for made, held in members]
        return f"Inductive {name}{parameters} : Type :=\n" + "\n".join(lines) + "."

    def valid(self, name: str, item: Struct | Enum) -> str:
        """Which values of its Coq type the Rust type has."""
        if isinstance(item, Struct):
            lines = [f"  valid_{name}_{field}{part} : {claim}" for field, type_ in item.fields
                     for part, claim in self.ranges(type_, f"({name}_{field} x)")]
            return f"Record valid_{name} (x : {name}) : Prop := mk_valid_{name} {{\n" + ";\n".join(lines) + "\n}."
        lines = []
        for variant, held in item.variants:
            claim = "".join(claim for _, claim in self.ranges(held, "y")) if held else ""
            lines.append(f"  | {name}_{variant}{' y' if held else ''} => {claim or 'True'}")
        return f"Definition valid_{name} (x : {name}) : Prop :=\n  match x with\n" + "\n".join(lines) + "\n  end."

    def holds_values(self, name: str) -> bool:
        return any(held for _, held in self.crate.types[name].members)

    def ranges(self, type_: Type, value: str) -> Iterator[tuple[str, str]]:
        """What holds of a value of this type; an array has its length, and a slice none"""
        type_ = self.crate.known(type_)
        if isinstance(type_, List):
            if type_.length:
                yield "_length", f"length {value} = {self.crate.number(type_.length)}"
            inner = next(self.ranges(type_[1], "item"))[1]
            yield "", f"Bytes {value}" if type_[1] == "u8" else f"Forall (fun item => {inner}) {value}"
        elif isinstance(type_, str) and type_ in WIDTHS:
            yield "", f"{value} < " + ("256" if type_ == "u8" else f"2 ^ {self.width(type_)}")
        elif type_ == "i64":
            yield "", f"FitsSigned 64 {value}"
        elif isinstance(type_, str) and type_ in self.crate.types:
            if self.holds_values(type_):
                yield "", f"valid_{type_} {value}"
        elif type_ != "bool":
            raise Refused(f"a field of the type {type_}")
