# SPDX-License-Identifier: Apache-2.0 OR BSD-3-Clause
"""The items of all files of a crate, by their names, and that Cargo compiles these files and finds these items."""
import re
from pathlib import Path
from typing import Mapping, Sequence, TypeVar

from parse_items import Parser
from rust_expressions import Binary, Integer, Name
from rust_items import Const, Enum, Function, Impl, Item, Struct, Trait, TypeItem
from rust_paths import Paths, module_of
from rust_tokens import Refused, source
from rust_tree import INTEGERS, WIDTHS, Expr, List, Type, compound

T = TypeVar("T")
MORE = "from-source/lib.rs"   # the C functions, a file beside those of the crate that they use
BUILTIN = {*INTEGERS, "bool", "Option", "Result", "Some", "None", "Ok", "Err", "Self", "self", "i8", "i16", "i32",
           "i128", "u128", "isize", "char", "str", "String", "Vec", "Box", "drop", "size_of", "align_of"}
OF_COQ = {"Bytes", "FitsSigned", "Forall", "Prop", "Type", "Set", "Bool", "Nat", "List"}
# What a module of the name would hide.
OUTSIDE = {"std", "core", "alloc", "superio", "serde", "sansio", "io", "fmt"}
LeftOut = Mapping[Path, Sequence[list[str]]]


class Crate:
    """The items of the files of a folder, and of one more that uses them."""
    paths: Paths

    def __init__(self, folder: Path | str, more: str | None = None, left_out: LeftOut | None = None) -> None:
        self.consts: dict[str, Const] = {}
        self.functions: dict[str, Function] = {}
        self.types: dict[str, Struct | Enum] = {}
        self.traits: dict[str, Trait] = {}
        self.impls: dict[str, list[str]] = {}
        self.variants: set[str] = set()
        self.scopes: dict[Path, set[str]] = {}   # the items that each file has or brings in
        self.read(Path(folder), more, left_out or {})

    def read(self, folder: Path, more: str | None, left_out: LeftOut) -> None:
        texts = {file.relative_to(folder): source(file) for file in sorted(folder.rglob("*.rs"))}
        if more:
            texts[Path(MORE)] = more
        parsers = [Parser(text, file, left_out.get(file, ())) for file, text in texts.items()]
        items = {parser.file: parser.file_items() for parser in parsers}
        self.check_modules(parsers)
        self.settle(parsers, items)
        for file, found in items.items():
            for item in found:
                self.add(self.named(file, item))
        self.check_names(parsers)

    def check_modules(self, parsers: list[Parser]) -> None:
        """Cargo compiles the files that `mod` names, and these are all that are here."""
        files = {parser.file for parser in parsers}
        named = {Path("lib.rs")} | {Path(MORE)} & files
        for parser in parsers:
            for name in parser.modules:
                if name in OUTSIDE | BUILTIN or not name.islower():   # a type has a capital
                    raise Refused(f"{parser.file}: a module {name}")
                below = Path(*module_of(parser.file), name)
                named.add(below / "mod.rs" if below / "mod.rs" in files else below.with_suffix(".rs"))
        if odd := named ^ files:
            raise Refused(f"{', '.join(map(str, sorted(odd)))}: a file without its `mod`, or a `mod` without its file")

    def settle(self, parsers: list[Parser], items: Mapping[Path, list[Item]]) -> None:
        """An import brings an item of this crate, or a module, from where its path says."""
        own = {file: {item.name for item in found if isinstance(item, (TypeItem, Trait, Const, Function))}
               for file, found in items.items()}
        self.paths = Paths(self.others())
        for parser in parsers:
            self.paths.add(module_of(parser.file), own[parser.file], parser.imports)
        for parser in parsers:
            self.scopes[parser.file] = {self.full_name(parser.file, name) for name in own[parser.file]}
            for path, alias in parser.imports:
                if self.is_of_library(parser, path, alias):
                    continue
                found = self.paths.resolve(module_of(parser.file), path[:-1] if path[-1] == "*" else path)
                if not found or path[-1] == "*" and found[2] or alias != path[-1]:
                    raise Refused(f"{parser.file}: a use of {'::'.join(path)}{f' as {alias}' * (alias != path[-1])}")
                if found[2]:
                    self.scopes[parser.file].add(self.full_name(parser.file, alias))

    def others(self) -> dict[str, Paths]:
        return {}

    def is_of_library(self, parser: Parser, path: list[str], alias: str) -> bool:
        """Whether this import is one of std, which is known."""
        return False

    def full_name(self, file: Path, name: str) -> str:
        """The one name that an item has in all files."""
        return name

    def named(self, file: Path, item: Item) -> Item:
        """The item, with the full names. No type of this crate has type variables."""
        if isinstance(item, (TypeItem, Impl)) and item.generics:
            raise Refused(f"{file}:{item.line}: type variables")
        if isinstance(item, Impl) and (isinstance(item.header, tuple) or item.associated):
            raise Refused(f"{file}:{item.line}: an implementation for {item.header}")
        return item

    def check_names(self, parsers: list[Parser]) -> None:
        """No name hides one of the language, or of Coq's."""
        for parser in parsers:
            for name, path in parser.renamed.items():
                found = self.paths.resolve(module_of(parser.file), path)
                if not found or found[2] not in self.consts or name in self.scopes[parser.file]:
                    raise Refused(f"{parser.file}: a use of {'::'.join(path)} as {name}")
        for trait, owners in self.impls.items():
            if trait not in self.traits:
                raise Refused(f"an implementation of {trait}")
            if len(owners) != 1:
                raise Refused(f"{trait} has more than one implementation")
        for owner in {name.partition("::")[0] for name in self.functions if "::" in name}:
            if owner not in self.types:
                raise Refused(f"an implementation for {owner}")
        for name in self.types:
            if not re.fullmatch(r"[A-Z][A-Za-z0-9]*[a-z][A-Za-z0-9]*", name) or name in OF_COQ:
                raise Refused(f"the type {name}")
        names = [*self.consts, *self.functions, *self.types]
        coq = [name.replace("::", "_") for name in names]
        for name in names:
            if coq.count(name.replace("::", "_")) > 1 or name in BUILTIN:
                raise Refused(f"two items are named {name}")

    def add(self, item: Item) -> None:
        if isinstance(item, Impl):
            if item.trait:
                self.impls.setdefault(item.trait, []).append(item.owner)
            for method in item.methods:
                put(self.functions, f"{item.owner}::{method.name}", method)
        elif isinstance(item, Const):
            put(self.consts, item.name, item)
        elif isinstance(item, Function):
            put(self.functions, item.name, item)
        elif isinstance(item, Trait):
            put(self.traits, item.name, item)
        elif isinstance(item, (Struct, Enum)):
            put(self.types, item.name, item)
            if isinstance(item, Enum):
                self.variants |= {variant for variant, _ in item.variants}

    def known(self, type_: Type, owner: str | None = None, bounds: Mapping[str, str] | None = None) -> Type:
        """The type, with `Self` and type variables replaced by the types that they stand for."""
        if isinstance(type_, List) and type_[1] in WIDTHS:
            return type_
        if isinstance(type_, tuple):
            if type_[0] == "of":
                raise Refused(f"the type {type_}")
            found = compound(type_[0], *(self.known(part, owner, bounds) for part in type_[1:]))
            if found[0] == "list" and found[1] not in WIDTHS:
                raise Refused(f"an array of {found[1]}")
            return found
        if type_ == "Self" and owner:
            type_ = owner
        if bounds and type_ in bounds:
            trait = bounds[str(type_)]
            if trait not in self.impls:
                raise Refused(f"the bound {trait}")
            type_ = self.impls[trait][0]
        if type_ in INTEGERS or type_ == "bool" or type_ in self.types:
            return type_
        raise Refused(f"the type {type_}")

    def number(self, node: Expr | None) -> int:
        """The value of a constant expression."""
        if isinstance(node, Integer):
            return node.value
        if isinstance(node, Name) and node.name in self.consts:
            return self.number(self.consts[node.name].value)
        if isinstance(node, Binary) and node.operator == "+":
            return self.number(node.left) + self.number(node.right)
        raise Refused(f"the length of an array: {node and node.form}")

    def signature(self, function: Function) -> tuple[list[tuple[str, Type, str | None]], Type]:
        """The parameters (name, type, mode) and the result."""
        def known(type_: Type) -> Type:
            return self.known(type_, function.owner, function.bounds)
        return [(name, known(type_), mode) for name, type_, mode in function.parameters], known(function.result)


def put(table: dict[str, T], name: str, item: T) -> None:
    if name in table:
        raise Refused(f"two items are named {name}")
    table[name] = item
