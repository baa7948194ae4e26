# SPDX-License-Identifier: Apache-2.0 OR BSD-3-Clause
"""Reads a file of Rust word by word: all its items, except those that are left out."""
import re
from pathlib import Path
from typing import Iterable

from parse_expressions import ExpressionParser
from rust_items import Const, Enum, Function, Impl, Item, Parameter, Struct, Trait
from rust_tokens import Refused
from rust_tree import UNIT, Type

# Attributes that change no call, including lints. No run has the feature serde.
ATTRIBUTES = re.compile(r"""inline(\((always|never)\))?|repr\(C\)|derive\([\w, ]*\)|must_use(="[^"]*")?|cold
    |rustfmt::skip|no_std|(allow|deny|forbid)\([\w:, ]*\)|doc=include_str!\("[./\w]*"\)
    |cfg_attr\(feature="serde",\ derive\(serde::Deserialize,\ serde::Serialize\)\)""", re.X)
DERIVES = {"Clone", "Copy", "Debug", "Default", "PartialEq", "Eq"}
OPENS = {"{": 1, "(": 1, "[": 1, "}": -1, ")": -1, "]": -1}


class Parser(ExpressionParser):
    """Reads one file. `left_out` has the items that are not read, each as the words of its tokens."""
    def __init__(self, text: str, file: Path | str, left_out: Iterable[list[str]] = ()) -> None:
        super().__init__(text, file)
        self.left_out = list(left_out)
        self.modules: set[str] = set()                 # the names of `mod`
        self.imports: list[tuple[list[str], str]] = []  # the paths of `use`, each with its name in this file

    def file_items(self) -> list[Item]:
        """All items of the file. Each is read, or is left out."""
        while self.next == "#" and self.peek(1) == "!":
            self.at += 2
            self.attribute()
        found = self.items()
        if self.next:
            self.refuse("an item")
        if self.left_out:
            raise Refused(f"{self.file}: it has not what is left out: {' '.join(self.left_out[0])}")
        return found

    def item_ahead(self) -> tuple[list[str], int]:
        """The words of the item ahead, with its attributes but without its docs, and where it ends."""
        at, depth, keyword = self.at, 0, ""
        while self.tokens[at].kind != "end":
            token = self.tokens[at]
            if token.kind == "sign":
                depth += OPENS.get(token.text, 0)
            elif depth == 0 and token.kind == "name" and token.text != "pub":
                keyword = keyword or token.text
            at += 1
            if depth == 0 and (token.text == ";" or token.text == "}" and keyword != "use"):
                break
        return [token.word for token in self.tokens[self.at:at] if token.kind != "doc"], at

    def is_left_out(self) -> bool:
        """Whether the item ahead is left out. If so, it is behind now."""
        if not self.left_out:
            return False
        words, end = self.item_ahead()
        if words not in self.left_out:
            return False
        self.left_out.remove(words)
        self.at = end
        return True

    def items(self) -> list[Item]:
        found: list[Item] = []
        while self.next not in ("", "}"):
            if self.is_left_out():
                continue
            doc, derived = self.doc_and_attributes()
            public = self.visibility()
            item = self.item(doc, derived)
            if item:
                item.public = public
                found.append(item)
        return found

    def visibility(self) -> bool:
        """Whether everybody sees it."""
        if not self.has("pub"):
            return False
        if not self.has("("):
            return True
        if not (self.has("crate") or self.has("super")):
            self.refuse("pub(..)")
        self.eat(")")
        return False

    def doc_and_attributes(self) -> tuple[list[str], set[str]]:
        doc: list[str] = []
        derived: set[str] = set()
        while True:
            token = self.tokens[self.at]
            if token.kind == "doc":
                doc.append(token.text[3:].strip())
                self.at += 1
            elif self.has("#"):
                text = self.attribute()
                if text.startswith("derive"):
                    derived |= set(re.findall(r"\w+", text[7:]))
                    if derived - DERIVES - {"repr(C)"}:
                        self.refuse(f"the attribute {text}")
                if text == "repr(C)":
                    derived.add(text)
            else:
                return doc, derived

    def attribute(self) -> str:
        self.eat("[")
        text = ""
        while not self.has("]"):
            text += self.next + (" " if self.next == "," else "")
            self.at += 1
        if not ATTRIBUTES.fullmatch(text):
            self.refuse(f"the attribute {text}")
        return text

    def item(self, doc: list[str], derived: set[str]) -> Item | None:
        line = self.line()
        if self.has("use"):
            self.use()
        elif self.has("mod"):
            self.modules.add(self.name())
            self.eat(";")
        elif self.has("struct"):
            name, generics = self.name(), self.generics()
            return Struct(line, name, doc, derived, generics, [] if self.has(";") else self.braced(self.field))
        elif self.has("enum"):
            return Enum(line, self.name(), doc, derived, self.generics(), self.braced(self.variant))
        elif self.has("trait"):
            name = self.name()
            methods, _ = self.methods(name, True)
            return Trait(line, name, methods)
        elif self.has("impl"):
            return self.implementation(line)
        elif self.has("const"):
            name = self.name()
            self.eat(":")
            type_ = self.type()
            self.eat("=")
            value = self.expression()
            self.eat(";")
            return Const(line, name, type_, value, doc, self.file)
        elif self.has("fn"):
            return self.function(None, False, doc)
        else:
            self.refuse("an item")
        return None

    def use(self) -> None:
        """Paths, of which each brings in an item. A constant may have another name in the file: `as`."""
        path = [self.segment()]
        while self.has("::"):
            if self.has("{"):
                for name in self.until("}", self.segment):
                    whole = path if name == "self" else [*path, name]
                    self.imports.append((whole, whole[-1]))
                self.eat(";")
                return
            path.append("*" if self.has("*") else self.segment())
        name = self.name() if self.has("as") else path[-1]
        if name == path[-1] or path[0] == "std":
            self.imports.append((path, name))
        else:
            self.renamed[name] = path
        self.eat(";")

    def segment(self) -> str:
        for word in ("super", "self", "crate"):
            if self.has(word):
                return word
        return self.name()

    def generics(self) -> dict[str, str]:
        """The type variables, each with its bound."""
        found: dict[str, str] = {}

        def one() -> None:
            name = self.name()
            if name in found:
                self.refuse(f"the type variable {name}")
            found[name] = "::".join(self.path()) if self.has(":") else ""
            if self.next == "+":
                self.refuse(f"a bound of {name}")
        if self.has("<"):
            self.until(">", one)
        return found

    def field(self) -> tuple[str, Type]:
        self.doc_and_attributes()
        self.visibility()
        name = self.name()
        self.eat(":")
        return name, self.type()

    def variant(self) -> tuple[str, Type | None]:
        self.doc_and_attributes()
        name, value = self.name(), None
        if self.has("("):
            value = self.type()
            self.has(",")
            self.eat(")")
        return name, value

    def implementation(self, line: int) -> Impl:
        generics, start, trait = self.generics(), self.at, None
        path = self.path()
        if self.has("for"):
            trait = "::".join(path)
        else:
            self.at = start
        if self.next in ("&", "[", "("):
            self.refuse("an implementation")
        found = Impl(line, generics, trait, self.type(), [])
        found.methods, found.associated = self.methods(found.owner, False)
        for method in found.methods:
            method.header = found.header
            method.public |= trait is not None   # as the trait
        return found

    def methods(self, owner: str, is_trait: bool) -> tuple[list[Function], Type | None]:
        """The methods of a trait or of an implementation, and the type that it gives for `E`."""
        found, associated = [], None
        self.eat("{")
        while not self.has("}"):
            if self.is_left_out():
                continue
            doc, _ = self.doc_and_attributes()
            public = self.visibility()
            if self.next == "type" and self.peek(1) == "E" and associated is None:
                self.at += 2
                if is_trait and self.has(":"):
                    self.path()
                if not is_trait:
                    self.eat("=")
                    associated = self.type()
                self.eat(";")
            elif self.has("fn"):
                found.append(self.function(owner, is_trait, doc))
                found[-1].public = public
            else:
                self.refuse("an item")
        return found, associated

    def function(self, owner: str | None, is_in_trait: bool, doc: list[str]) -> Function:
        line, start = self.tokens[self.at - 1].line, self.at
        name, bounds = self.name(), self.generics()
        self.eat("(")
        parameters = self.until(")", self.parameter)
        result = self.type() if self.has("->") else UNIT
        found = Function(line, name, owner, bounds, parameters, result, doc, self.file)
        if is_in_trait:
            if not self.has(";"):
                self.refuse(f"the trait {owner} has a body or more than methods")
        else:
            found.body = self.block()
        found.text = " ".join(token.text for token in self.tokens[start:self.at])
        return found

    def parameter(self) -> Parameter:
        mode = None
        if self.has("&"):
            mode = "mut" if self.has("mut") else None
            self.eat("self")
            return "self", "Self", mode
        if self.has("mut"):
            mode = "own"
        if self.has("self"):
            return "self", "Self", mode
        name = self.name()
        self.eat(":")
        if self.next == "&" and self.peek(1) == "mut":
            if mode:
                self.refuse("a mutable reference that may be changed")
            self.at += 2
            mode = "mut"
        return name, self.type(), mode
