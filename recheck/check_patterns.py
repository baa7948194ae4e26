# SPDX-License-Identifier: Apache-2.0 OR BSD-3-Clause
"""Binds the variables of patterns, and finds the types of places that are changed."""
from rust_expressions import Field, Integer, Name
from rust_items import Enum, Struct
from rust_tree import (
    AnyPattern, Either, Expr, ListPattern, LiteralPattern, Pattern, RangePattern, RecordPattern, Rest, TuplePattern,
    Type, Variable, VariantPattern)
from rust_types import Scopes, actual, is_a


class PatternChecker(Scopes):
    def expr(self, node: Expr, want: Type | None = None) -> Type:
        raise NotImplementedError

    def pattern(self, node: Pattern, type_: Type, role: str) -> None:
        """Binds its variables. In a `match`, a name may also be that of a constant or of a variant."""
        type_ = actual(type_)
        if isinstance(node, AnyPattern):
            return
        if isinstance(node, Variable):
            self.variable(node, type_, role)
        elif isinstance(node, LiteralPattern) and role in ("match", "part"):
            self.unify(node, self.expr(node.value, type_), type_)
        elif isinstance(node, RangePattern) and role == "match":
            for end in (node.low, node.high):
                self.pattern(end, type_, "match")
                if not isinstance(end.value if isinstance(end, LiteralPattern) else end, (Variable, Integer)):
                    self.refuse(node, "a range")
        elif isinstance(node, Either) and role == "match":
            self.either(node, type_)
        elif isinstance(node, VariantPattern) and role == "match":
            inner = self.variant_type(node, node.path, type_)
            if (inner is None) != (node.inner is None):
                self.refuse(node, "the fields of a variant")
            if node.inner and inner is not None:
                self.pattern(node.inner, inner, "inner")
        elif isinstance(node, TuplePattern) and role in ("match", "let"):
            self.tuple_pattern(node, type_, role)
        elif isinstance(node, ListPattern) and role in ("match", "let"):
            self.list_pattern(node, type_, role)
        elif isinstance(node, RecordPattern) and role == "let":
            self.record_pattern(node, type_)
        else:
            self.refuse(node, f"the pattern {node.form}")

    def variable(self, node: Variable, type_: Type, role: str) -> None:
        if node.name in self.crate.consts:
            if node.name not in self.crate.scopes[self.where]:
                self.refuse(node, f"the constant {node.name}, which is not in scope")
            if role != "match" or node.changes:
                self.refuse(node, "a constant as a pattern")
            node.constant = Name(node.line, node.name)
            self.unify(node, self.expr(node.constant), type_)
        elif role == "match":
            self.refuse(node, f"the variable {node.name} as an arm")
        else:
            self.bind(node, type_, "own" if node.changes else None)

    def either(self, node: Either, type_: Type) -> None:
        for choice in node.choices:
            if isinstance(choice, VariantPattern) and isinstance(choice.inner, Variable):
                self.refuse(node, "a variable in one of several patterns")
            if isinstance(choice, (AnyPattern, Either, ListPattern, TuplePattern)):
                self.refuse(node, "one of several patterns")
            self.pattern(choice, type_, "match")

    def tuple_pattern(self, node: TuplePattern, type_: Type, role: str) -> None:
        if not is_a(type_, "tuple") or len(type_) != len(node.parts) + 1:
            self.refuse(node, "a tuple")
        for part, part_type in zip(node.parts, type_[1:]):
            if not isinstance(part, (AnyPattern, LiteralPattern if role == "match" else Variable)):
                self.refuse(node, "a pattern in a pattern")
            self.pattern(part, part_type, "match" if role == "match" else "inner")

    def list_pattern(self, node: ListPattern, type_: Type, role: str) -> None:
        if not is_a(type_, "list"):
            self.refuse(node, "a list")
        for part in node.parts:
            if isinstance(part, Rest):
                self.bind(part, type_)
            elif isinstance(part, LiteralPattern) and role != "match":
                self.refuse(node, "a number in a pattern that has to match")
            else:
                self.pattern(part, type_[1], "part")

    def record_pattern(self, node: RecordPattern, type_: Type) -> None:
        item = self.crate.types.get(str(type_))
        if not isinstance(item, Struct) or node.path != [type_]:
            self.refuse(node, "the pattern of a struct")
        fields = dict(item.fields)
        if sorted(part.name for part in node.parts) != sorted(fields):
            self.refuse(node, f"the fields of {type_}")
        for part in node.parts:
            self.pattern(part, self.crate.known(fields[part.name]), "inner")

    def variant_type(self, node: Pattern | Expr, path: list[str], type_: Type) -> Type | None:
        """The type of a variant's value, or None if it has none."""
        if is_a(type_, "option") and path in (["Some"], ["None"]):
            return type_[1] if path == ["Some"] else None
        if is_a(type_, "result") and path in (["Ok"], ["Err"]):
            return type_[1] if path == ["Ok"] else type_[2]
        if len(path) == 2 and (path[0] if path[0] != "Self" else self.owner) == type_:
            item = self.crate.types.get(str(type_))
            if isinstance(item, Enum) and path[1] in dict(item.variants):
                value = dict(item.variants)[path[1]]
                return None if value is None else self.crate.known(value)
        self.refuse(node, f"the variant {'::'.join(path)} of {type_}")

    # -- places
    def place(self, node: Expr) -> Type:
        """The type of a place that is changed: a variable and fields of it."""
        if isinstance(node, Name):
            node.local = self.find(node.name)
            if not node.local or node.local.mode not in ("mut", "own"):
                self.refuse(node, f"{node.name} is changed")
            node.type = node.local.type
        elif isinstance(node, Field):
            self.place(node.value)
            node.type = self.field_type(node)
        else:
            self.refuse(node, "a place that is changed")
        return node.type

    def field_type(self, node: Field) -> Type:
        type_ = actual(node.value.type)
        item = self.crate.types.get(type_) if isinstance(type_, str) else None
        if not isinstance(item, Struct) or node.name not in dict(item.fields):
            self.refuse(node, f"the field {node.name} of {type_}")
        return self.crate.known(dict(item.fields)[node.name])
