# SPDX-License-Identifier: Apache-2.0 OR BSD-3-Clause
"""The items of the shell, the types that own a monitor's objects, with those of the devices without I/O. An object has
the type of its trait: nothing else of it is known."""
from pathlib import Path
from typing import Mapping

from parse_items import Parser
from rust_crate import BUILTIN, Crate, LeftOut
from rust_items import Const, Function, Item, Trait, TypeItem
from rust_paths import Found, Module, Paths, module_of
from rust_tokens import Refused
from rust_tree import UNIT, Type
from rust_types import is_a
from shell_names import OBJECTS, OPAQUE, Namer

# What the shell uses of the library, by other means than a call that is known.
STD = {"std::error::Error": "StdError", "std::fmt": "fmt", "std::io": "io", "std::io::Write": "Write",
       "std::sync::Arc": "Arc", "std::time::SystemTime": "SystemTime", "std::time::UNIX_EPOCH": "UNIX_EPOCH"}
FAULT: Type = ("result", UNIT, "io::Error")
# The methods of std::io::Write that are known: their parameters and results.
WRITE: dict[str, tuple[list[Type], Type]] = {"write_all": ([("list", "u8")], FAULT), "flush": ([], FAULT)}
# The functions that ask for the host's time, word by word: together they are one call, which answers the seconds since
# 1970.
HOST_TIME = {
    "vm_moment": "moment ( ) -> u64 { moment_of ( SystemTime :: now ( ) ) }",
    "vm_moment_of": "moment_of ( time : SystemTime ) -> u64 { time . duration_since ( UNIX_EPOCH ) . map_or "
                    "( 0 , | since | since . as_secs ( ) ) }"}


class ShellCrate(Crate):
    """`instance` is what stands for the types of objects in the function that is at work, such as `NoEvents`."""
    def __init__(self, folder: Path | str, core: Crate, left_out: LeftOut | None = None) -> None:
        self.core = core
        self.instance: dict[str, str] = {}
        self.declared: dict[Module, dict[str, Item]] = {}
        self.library: dict[Path, set[str]] = {}   # what each file brings in of std
        super().__init__(folder, None, left_out)
        self.own = {*self.consts, *self.functions, *self.types}
        self.consts, self.functions = {**core.consts, **self.consts}, {**core.functions, **self.functions}
        self.types = {**core.types, **self.types}

    # -- names
    def settle(self, parsers: list[Parser], items: Mapping[Path, list[Item]]) -> None:
        for file, found in items.items():
            names = {item.name: item for item in found if isinstance(item, (TypeItem, Trait, Const, Function))}
            self.declared[module_of(file)] = {**names}
            self.library[file] = set()
            for name in names.keys() & {*BUILTIN, *STD.values()}:
                raise Refused(f"{file}: an item named {name}")
        super().settle(parsers, items)

    def others(self) -> dict[str, Paths]:
        return {"sansio": self.core.paths}

    def is_of_library(self, parser: Parser, path: list[str], alias: str) -> bool:
        if path[0] != "std":
            return False
        if STD.get("::".join(path)) != alias:
            raise Refused(f"{parser.file}: a use of {'::'.join(path)}")
        self.library[parser.file].add(alias)
        return True

    def item_at(self, file: Path, path: list[str]) -> str | None:
        """The full name of the item at a path, if one is there."""
        return self.name_of(self.paths.resolve(module_of(file), path))

    def name_of(self, found: Found | None) -> str | None:
        """`Vm` or `vm_` stands before an item of the shell. A trait, and an item of the devices, keeps its name."""
        if not found:
            return None
        paths, module, name = found
        if not name:
            return None
        if paths is not self.paths:
            return name
        item = self.declared[module][name]
        if isinstance(item, Trait):
            return name
        if sum(name in names for names in self.declared.values()) > 1:
            name = f"_{module[-1] if module else 'lib'}_{name}"
        return ("vm_" if isinstance(item, (Const, Function)) else "Vm") + name

    def full_name(self, file: Path, name: str) -> str:
        return self.item_at(file, [name]) or name

    def named(self, file: Path, item: Item) -> Item:
        Namer(self, file).item(item)
        return item

    # -- what is refused, and what is public
    def check_names(self, parsers: list[Parser]) -> None:
        for parser in parsers:
            for name, path in parser.renamed.items():
                raise Refused(f"{parser.file}: a use of {'::'.join(path)} as {name}")
        for name in {*self.consts, *self.functions, *self.types}:
            if not name.startswith(("Vm", "vm_")):
                raise Refused(f"an item {name}")
        for trait, owners in self.impls.items():
            if trait not in self.traits or len(owners) != 1:
                raise Refused(f"the implementations of {trait}")
        for name, text in HOST_TIME.items():
            if name in self.functions and self.functions[name].text != text:
                raise Refused(f"{name} is another function")

    def translated(self) -> list[str]:
        """All functions of the shell but those that ask for the time"""
        return sorted(self.own & self.functions.keys() - HOST_TIME.keys())

    def public(self) -> list[str]:
        """The functions that everybody may call"""
        return [name for name in self.translated() if self.functions[name].public]

    # -- types
    def known(self, type_: Type, owner: str | None = None, bounds: Mapping[str, str] | None = None) -> Type:
        if isinstance(type_, str) and type_ in OPAQUE:
            return self.instance.get(type_, type_)
        if is_a(type_, "of") and isinstance(type_[1], str):
            item = self.types.get(type_[1])
            if not item or [*type_[2:]] != [*item.generics.values()]:
                raise Refused(f"the type {type_}")
            return type_[1]
        return super().known(type_, owner, bounds)

    def methods(self, trait: str) -> dict[str, tuple[list[Type], Type]]:
        """The methods of objects: their parameters and results. All that the shell has take `&self`, and change no
        argument."""
        if trait == "Write":
            return WRITE
        found: dict[str, tuple[list[Type], Type]] = {}
        for method in self.traits[trait].methods if trait in self.traits else ():
            (name, _, mode), *others = method.parameters
            if (name, mode) != ("self", None) or any(mode for _, _, mode in others):
                raise Refused(f"the method {method.name} of a trait")
            found[method.name] = [self.known(type_) for _, type_, _ in others], self.known(method.result)
        return found

    def instance_of(self, function: Function) -> dict[str, str]:
        """What stands for the types of objects in the `impl` of a function"""
        header = function.header
        if not is_a(header, "of"):
            return {}
        pairs = [*zip(self.types[str(header[1])].generics.values(), header[2:])]
        known = all(one == other or one in OBJECTS and other not in OPAQUE for one, other in pairs)
        if len(pairs) != len(header) - 2 or not known:
            raise Refused(f"an implementation for {header}")
        return {one: str(other) for one, other in pairs if one != other}
