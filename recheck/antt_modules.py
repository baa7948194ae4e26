# SPDX-License-Identifier: Apache-2.0 OR BSD-3-Clause
"""Reads modules of definitions, and finds what a name in one stands for."""
import re
from collections.abc import Iterable
from dataclasses import dataclass, field
from pathlib import Path
from typing import Any

from antt_parser import Block, Parser, blocks, parsed
from antt_tree import Apply, Binder, Name, Pi, Refused, Term, type_of

# The words of the library, by the module that they come from, with their names in Prelude.v.
LIBRARY: dict[str, dict[str, str]] = {
    "Prelude": {"ℕ": "N", "ℤ": "int", "⊤": "unit", "Bool": "bool", "true": "true", "false": "false", "not": "negb",
                "List": "list", "[]": "[]", "Option": "option", "Some": "Some", "None": "None", "pos": "pos",
                "negsuc": "negsuc", "min": "N.min", "nat_le": "N.leb", "nat_lt": "N.ltb", "bit_and": "N.land",
                "bit_or": "N.lor", **{word: word for word in """length take drop slice_index unwrap_or is_some sum_by
                count_by IsTrue IsFalse FitsSigned""".split()}},
    "Bool": {"beq": "Bool.eqb", "IsFalse": "IsFalse"},
    "Int": {word: word for word in "w16 w32 w64 to_le_bytes from_le_bytes cast_unsigned cast_signed bit_at".split()},
    "List": {"list_all": "forallb", "list_any": "list_any"},
    "Option": {"option_or": "option_or", "option_map_or": "option_map_or"},
    "Str": {"bytes_eq": "bytes_eq"},
}
Members = dict[str, Term]


@dataclass(eq=False)
class Word:
    """A word of the library."""
    name: str
    coq: str


@dataclass(eq=False, kw_only=True)
class Declared:
    """What a file declares. `coq` is its name in Coq, once it has one."""
    name: str
    module: "Module"
    comment: list[str] = field(default_factory=list)
    coq: str = ""


@dataclass(eq=False, kw_only=True)
class Definition(Declared):
    """Each of `clauses` has its patterns and its value. A `group` has the definitions that use one another."""
    type: Term
    clauses: list[tuple[list[Term], Term]] = field(default_factory=list)
    group: list["Entity"] = field(default_factory=list)


@dataclass(eq=False, kw_only=True)
class Record(Declared):
    parameters: list[Binder]
    members: Members


@dataclass(eq=False, kw_only=True)
class Data(Declared):
    parameters: list[Binder]
    variants: dict[str, "Variant"] = field(default_factory=dict)
    is_of_rust: bool = False


@dataclass(eq=False, kw_only=True)
class Variant(Declared):
    type: Term
    parent: Data


Entity = Definition | Record | Data | Variant


class Module:
    """The names that a file declares, where its other names come from, and why a declaration that was not read was
    refused."""
    def __init__(self, path: str) -> None:
        self.path = path
        self.names: dict[str, Entity] = {}
        self.imports: dict[str, tuple[str, str]] = {}
        self.broken: dict[str, str] = {}

    def put(self, entity: Entity) -> None:
        if entity.name in self.names:
            raise Refused(f"two {entity.name}")
        self.names[entity.name] = entity

    # ---- reading

    def read(self, found: Iterable[Block]) -> None:
        for comment, lines in found:
            words = [word for word in lines[0].split() if word not in ("pub", "abbrev", "unfoldable")]
            try:
                self.block(comment, lines, words[0])
            except Refused as refused:  # only what is asked for has to be known
                if words[0] == "use":
                    raise
                name = words[1] if words[0] in ("data", "record") else words[0]
                self.broken[name] = f"{self.path}: {name}: {refused}"

    def block(self, comment: list[str], lines: list[str], word: str) -> None:
        if word == "use":
            self.use(" ".join(lines))
        elif word == "mutual":
            self.mutual(comment, lines[1:])
        elif word in ("data", "record"):
            self.type(comment, lines, word)
        elif word != "mod":
            self.definition(comment, "\n".join(lines))

    def use(self, text: str) -> None:
        match = re.fullmatch(r"(?:unfoldable )?(?:pub )?use Rattle\.([\w.]+)\.\{(.*)\}", text)
        if not match:
            raise Refused(text)
        source = match[1].replace(".specs.", ".", 1)
        for name in filter(None, (name.strip() for name in match[2].split(","))):
            old, _, new = name.partition(" as ")
            if "◌" in name and (not source.startswith("std.") or new):
                raise Refused(f"the operator {name} of {source}")
            self.imports[new or old] = (source, old)

    def mutual(self, comment: list[str], lines: list[str]) -> None:
        before = set(self.names)
        self.read(blocks([line[2:] for line in lines]))
        group = [entity for name, entity in self.names.items() if name not in before]
        for entity in group:
            if isinstance(entity, Definition):
                entity.group = group
        group[0].comment = comment

    def type(self, comment: list[str], lines: list[str], kind: str) -> None:
        """`data` or `record`: its parameters, and its variants or fields, which begin at the second column"""
        at = next(at for at, line in enumerate(lines) if line.endswith(" where"))
        head = Parser(" ".join(lines[:at + 1]).partition(f"{kind} ")[2].rpartition(" where")[0])
        name, parameters = head.name(), head.binders()
        head.eat(":")
        head.eat("Type")
        members = members_of(lines[at + 1:])
        if kind == "record":
            self.put(Record(name=name, module=self, comment=comment, parameters=parameters, members=members))
            return
        data = Data(name=name, module=self, comment=comment, parameters=parameters)
        self.put(data)
        for variant, type_ in members.items():
            data.variants[variant] = Variant(name=variant, module=self, type=type_, parent=data)
            self.put(data.variants[variant])

    def definition(self, comment: list[str], text: str) -> None:
        """A signature, or a clause of the definition that has it"""
        signature = re.match(r"(?:unfoldable )?(?:abbrev )?(?:pub )?([\w']+) :(?=\s)", text)
        if signature:
            self.put(Definition(name=signature[1], module=self, comment=comment, type=parsed(text[signature.end():])))
            return
        clause = Parser(text)
        name, patterns = clause.name(), []
        definition = self.names.get(name)
        if not isinstance(definition, Definition):
            raise Refused(f"a clause of {name}")
        while not clause.has("="):
            patterns.append(clause.atom())
        definition.clauses.append((patterns, clause.all()))


def members_of(lines: list[str]) -> Members:
    joined: list[str] = []
    for line in lines:
        if line.startswith("   "):
            joined[-1] += " " + line
        else:
            joined.append(line)
    found: Members = {}
    for text in joined:
        member = Parser(text.replace("pub ", "", 1))
        name = member.name()
        member.eat(":")
        if name in found:
            raise Refused(f"two {name}")
        found[name] = member.all()
    return found


class Modules:
    """The modules of some crates' specs, beside the types of a crate in Rust."""
    def __init__(self, root: Path, crate: Any) -> None:
        self.root, self.crate = root, crate
        self.modules: dict[str, Module] = {}
        self.of_rust: dict[str, Record | Data] = {}
        self.names: set[str] = set()  # of all modules
        self.taken: set[str] = set()  # the names in Coq that are given

    def module(self, path: str) -> Module:
        if path not in self.modules:
            crate, *rest = path.split(".")
            module = self.modules[path] = Module(path)
            file = self.root.joinpath(crate, "specs", *rest).with_suffix(".antt")
            module.read(blocks(file.read_text(encoding="utf-8").splitlines()))
            self.names |= set(module.names)
            for source, _ in module.imports.values():
                if source.split(".")[0] != "std" and ".declared." not in source:
                    self.module(source)
        return self.modules[path]

    def lookup(self, module: Module, name: str) -> Entity | Word | None:
        if name in module.broken:
            raise Refused(module.broken[name])
        if name in module.names:
            return module.names[name]
        if name in module.imports:
            source, old = module.imports[name]
            if source.startswith("std."):
                return word(source.rpartition(".")[2], old)
            if ".declared." in source:
                return self.declared(source, old)
            return self.lookup(self.module(source), old)
        return word("Prelude", "[]") if name == "[]" else None

    def found(self, module: Module, name: str) -> Entity | Word:
        entity = self.lookup(module, name)
        if not entity:
            raise Refused(f"{module.path}: {name} is not in scope")
        return entity

    def declared(self, source: str, name: str) -> Entity:
        """A type of Rust, or a variant of one"""
        path = [part for part in source.split(".") if part != "TheVariants"]
        entity = self.type_of_rust(path[-1])
        if "TheVariants" not in source:
            return entity
        if not isinstance(entity, Data):
            raise Refused(f"{path[-1]} has no variants")
        return entity.variants[name]

    def type_of_rust(self, name: str) -> Record | Data:
        if name not in self.crate.types:
            raise Refused(f"Rust has no type {name}")
        if name not in self.of_rust:
            self.of_rust[name] = self.made_of_rust(name)
            self.taken.add(name)
        return self.of_rust[name]

    def made_of_rust(self, name: str) -> Record | Data:
        """A struct or an enum, as the definitions see it, with the names that rust2coq.py gives it"""
        item, module = self.crate.types[name], Module("rust")
        module.imports = {word: ("std.specs.Prelude", word) for word in ("ℕ", "ℤ", "Bool", "List")}

        def seen(type_: Any) -> Term:
            type_ = self.crate.known(type_)
            if isinstance(type_, tuple):
                return Apply(Name("List"), (seen(type_[1]),))
            if type_ in self.crate.types:
                module.imports[type_] = (f"rust.declared.{type_}", type_)
                return Name(type_)
            return Name({"i64": "ℤ", "bool": "Bool"}.get(type_, "ℕ"))

        if item.kind == "struct":
            members = {member: seen(type_) for member, type_ in item.fields}
            return Record(name=name, module=module, coq=name, parameters=[], members=members)
        data = Data(name=name, module=module, coq=name, parameters=[], is_of_rust=True)
        module.names[name] = data
        for variant, held in item.variants:
            type_: Term = Pi(Binder(("_",), seen(held)), Name(name)) if held else Name(name)
            coq = f"{name}_{variant}"
            self.taken.add(coq)
            data.variants[variant] = Variant(name=variant, module=module, coq=coq, type=type_, parent=data)
        return data


def word(source: str, name: str) -> Word:
    if name not in LIBRARY.get(source, {}):
        raise Refused(f"the word {name} of {source}")
    return Word(name, LIBRARY[source][name])


def telescope(entity: Definition | Variant) -> tuple[list[tuple[str, Term, bool]], Term]:
    """The parameters (name, type, whether it is hidden), and the type of the result."""
    parameters, type_ = [], entity.type
    while isinstance(type_, Pi):
        parameters += [(name, type_of(type_.binder), type_.binder.is_hidden) for name in type_.binder.names]
        type_ = type_.body
    return parameters, type_
