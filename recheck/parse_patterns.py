# SPDX-License-Identifier: Apache-2.0 OR BSD-3-Clause
"""Reads types, patterns and literals of Rust."""
from typing import Callable, TypeVar

from rust_expressions import Boolean, Integer
from rust_tokens import Cursor
from rust_tree import (
    INTEGERS, AnyPattern, Either, Expr, List, ListPattern, LiteralPattern, Pattern, RangePattern, RecordPattern, Rest,
    TuplePattern, Type, Variable, VariantPattern, compound)

T = TypeVar("T")


class PatternParser(Cursor):
    def expression(self, records: bool = True) -> Expr:
        raise NotImplementedError

    # -- types
    def type(self) -> Type:
        if self.has("&"):
            if self.next == "mut":
                self.refuse("a mutable reference outside a parameter")
            return self.type()
        if self.has("["):
            item = self.type()
            length = self.expression() if self.has(";") else None
            self.eat("]")
            return List(item, length)
        if self.has("("):
            return compound("tuple", *self.until(")", self.type))
        path = "::".join(self.path())
        arguments = self.until(">", self.type) if self.has("<") else []
        if (path, len(arguments)) in (("Option", 1), ("Result", 2)):
            return compound(path.lower(), *arguments)
        if path == "Vec" and len(arguments) == 1:
            return List(arguments[0], None)
        return compound("of", path, *arguments) if arguments else path

    def braced(self, one: Callable[[], T]) -> list[T]:
        self.eat("{")
        return self.until("}", one)

    # -- patterns
    def pattern(self) -> Pattern:
        line, choices = self.line(), [self.one_pattern()]
        while self.has("|"):
            choices.append(self.one_pattern())
        return choices[0] if len(choices) == 1 else Either(line, choices)

    def one_pattern(self) -> Pattern:
        line, token = self.line(), self.tokens[self.at]
        if self.has("("):
            parts = self.until(")", self.one_pattern)
            return TuplePattern(line, parts) if parts else AnyPattern(line)
        if self.has("["):
            parts = self.until("]", self.list_part)
            if any(isinstance(part, Rest) for part in parts[:-1]):
                self.refuse("a rest that is not last")
            return ListPattern(line, parts)
        if self.has("_"):
            return AnyPattern(line)
        if token.kind == "number" or token.text in ("true", "false"):
            low: Pattern = LiteralPattern(line, self.literal())
        else:
            named = self.named_pattern(line)
            if not isinstance(named, Variable):
                return named
            low = named
        if self.has("..="):
            return RangePattern(line, low, self.one_pattern())
        if self.next in ("..", "..."):
            self.refuse("a pattern")
        return low

    def named_pattern(self, line: int) -> Pattern:
        changes, path = self.has("mut"), [self.name()]
        while self.has("::"):
            path.append(self.name())
        found: Pattern = Variable(line, path[0], changes)
        if self.has("("):
            inner = self.one_pattern()
            self.eat(")")
            if not isinstance(inner, (Variable, AnyPattern)):
                self.refuse("a pattern in a pattern")
            found = VariantPattern(line, path, inner)
        elif self.next == "{":
            found = RecordPattern(line, path, self.braced(lambda: Variable(self.line(), self.name())))
        elif self.next == "@":
            self.refuse("a pattern")
        elif len(path) > 1 or path == ["None"]:
            found = VariantPattern(line, path, None)
        if changes and not isinstance(found, Variable):
            self.refuse("a pattern")
        return found

    def list_part(self) -> Pattern:
        line = self.line()
        if self.peek(1) == "@":
            name = self.name()
            self.eat("@")
            self.eat("..")
            return Rest(line, name)
        if self.next == "..":
            self.refuse("a rest without a name")
        part = self.one_pattern()
        if not isinstance(part, (Variable, AnyPattern)) and not (
                isinstance(part, LiteralPattern) and isinstance(part.value, Integer)):
            self.refuse("a pattern in a pattern")
        return part

    def literal(self) -> Integer | Boolean:
        token, line = self.tokens[self.at], self.line()
        self.at += 1
        if token.kind == "number":
            if token.suffix and token.suffix not in INTEGERS:
                self.refuse(f"the number {token.word}")
            text = token.text.replace("_", "")
            return Integer(line, int(text, 10 if text.isdigit() else 0), token.suffix)
        return Boolean(line, token.text)
