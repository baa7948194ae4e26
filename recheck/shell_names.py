# SPDX-License-Identifier: Apache-2.0 OR BSD-3-Clause
"""Gives each name in a file of the shell the full name of the item that it stands for there, and each type variable the
trait of the objects that it stands for."""
from pathlib import Path
from typing import TYPE_CHECKING, NoReturn

from rust_expressions import Call, Cast, Let, Name, PathName, Record
from rust_items import Const, Function, Impl, Item, Trait, TypeItem
from rust_tokens import Refused
from rust_tree import List, Node, RecordPattern, Type, Variable, VariantPattern, compound

if TYPE_CHECKING:
    from shell_crate import ShellCrate

# The traits of the objects that a monitor passes, and what stands for each in Coq; and the other types of objects.
OBJECTS = {"Trigger": "T", "SerialEvents": "EV", "RtcEvents": "EV", "Write": "W"}
OPAQUE = {**OBJECTS, "Trigger::E": "E", "io::Error": "Fault"}


class Namer:
    """`variables` are the type variables, `header` is the type of the `impl` that is at work, and `trait` the trait."""
    def __init__(self, crate: "ShellCrate", file: Path) -> None:
        self.crate, self.file = crate, file
        self.variables: dict[str, str] = {}
        self.header: Type = ""
        self.trait = ""

    def refuse(self, node: Node, what: str) -> NoReturn:
        raise Refused(f"{self.file}:{node.line}: {what}")

    def path(self, path: list[str]) -> list[str]:
        """The path, with the full name of the item that it begins with"""
        for count in (1, 2):
            if full := self.crate.item_at(self.file, path[:count]):
                return [full, *path[count:]]
        return path

    # -- items
    def item(self, item: Item) -> None:
        if isinstance(item, (TypeItem, Const, Function)):
            item.name = self.path([item.name])[0]
        if isinstance(item, TypeItem):
            self.variables = item.generics = self.generics(item, item.generics)
            item.members = [(name, held and self.type(held)) for name, held in item.members]
        elif isinstance(item, Const):
            item.value_type = self.type(item.value_type)
            self.names(item.value)
        elif isinstance(item, Function):
            self.function(item)
        elif isinstance(item, Trait):
            self.trait = item.name
            for method in item.methods:
                self.function(method)
        elif isinstance(item, Impl):
            self.implementation(item)

    def implementation(self, item: Impl) -> None:
        self.variables = self.generics(item, item.generics)
        header = item.header = self.type(item.header)
        if item.associated and self.type(item.associated) != "Trigger::E":
            self.refuse(item, "a type of a trait")
        self.header = header
        for method in item.methods:
            method.owner, method.header = item.owner, header
            self.function(method)

    def generics(self, node: Node, given: dict[str, str]) -> dict[str, str]:
        """What stands for each type variable: the trait of an object, or the refusal of a trigger"""
        found: dict[str, str] = {}
        for name, bound in given.items():
            stands = bound or "Trigger::E"
            if bound and (bound not in OBJECTS or not self.is_trait(bound)):
                self.refuse(node, f"a bound of {name}")
            if stands in found.values():
                self.refuse(node, f"the type variable {name}")
            found[name] = stands
        return found

    def is_trait(self, name: str) -> bool:
        """Whether this is the trait of its name here"""
        if name == "Write":
            return name in self.crate.library[self.file]
        return self.crate.item_at(self.file, [name]) == name

    def function(self, function: Function) -> None:
        function.parameters = [(name, self.type(type_), mode) for name, type_, mode in function.parameters]
        function.result = self.type(function.result)
        if function.body:
            self.names(function.body)

    # -- types, and names in a body
    def type(self, type_: Type) -> Type:
        if isinstance(type_, List):
            if type_.length:
                self.names(type_.length)
            return List(self.type(type_[1]), type_.length)
        if isinstance(type_, tuple):
            if type_[0] != "of":
                return compound(type_[0], *map(self.type, type_[1:]))
            found = compound("of", *map(self.type, type_[1:]))
            return "Self" if found == self.header else found
        return self.type_name(type_) if isinstance(type_, str) else type_

    def type_name(self, name: str) -> str:
        first, *rest = name.split("::")
        if first in self.variables:
            return "::".join([self.variables[first], *rest])
        if first == "Self":
            return "::".join([self.trait, *rest]) if rest else name
        found = "::".join(self.path([first, *rest]))
        if found == "io::Error" and "io" not in self.crate.library[self.file]:
            raise Refused(f"{self.file}: the type {found}")
        return found

    def names(self, node: Node) -> None:
        for part in node.walk():
            if isinstance(part, (Name, Variable)) and part.name[0].isupper():
                part.name = self.path([part.name])[0]
            elif isinstance(part, (Call, PathName, Record, RecordPattern)):
                part.path = self.path(part.path)
            elif isinstance(part, VariantPattern) and len(part.path) > 1:
                part.path = self.path(part.path)
            elif isinstance(part, Let) and part.given is not None:
                part.given = self.type(part.given)
            elif isinstance(part, Cast):
                part.to = self.type(part.to)
