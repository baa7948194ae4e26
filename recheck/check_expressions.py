# SPDX-License-Identifier: Apache-2.0 OR BSD-3-Clause
"""Resolves the names of a body and infers its types, as rustc does."""
from typing import Sequence

from check_calls import CallChecker
from parse_expressions import COMPARISONS
from rust_changes import changes
from rust_expressions import (
    Array, Assign, Binary, Block, Boolean, Call, Cast, Deref, Done, Field, For, If, Index, Integer, Let, Match,
    Method, Name, Not, Part, PathName, Record, Ref, RefMut, Repeat, Return, Slice, Statement, Try, TupleOf, Value,
    While)
from rust_items import Const, Function, Struct
from rust_tree import (
    INTEGERS, NEVER, UNIT, WIDTHS, Expr, TuplePattern, Type, Unknown, Variable, VariantPattern, compound)
from rust_types import actual, is_a, listed


def leaves(node: Expr) -> bool:
    """Whether it certainly returns from the function."""
    if isinstance(node, Block):
        return any(isinstance(part, (Done, Value)) and leaves(part.value) for part in node.statements)
    if isinstance(node, If):
        return leaves(node.then) and leaves(node.other)
    if isinstance(node, Match):
        return all(leaves(arm.body) for arm in node.arms)
    return isinstance(node, Return)


class Checker(CallChecker):
    def function(self, function: Function) -> None:
        parameters, self.result = self.crate.signature(function)
        function.locals = [self.declare(function, *parameter) for parameter in parameters]
        assert function.body
        body = self.expr(function.body, self.result)
        if body != NEVER:
            self.unify(function.body, body, self.result)

    def constant(self, const: Const) -> Type:
        type_ = self.crate.known(const.value_type)
        self.unify(const.value, self.expr(const.value, type_), type_)
        if changes(const.value) or any(isinstance(part, (Call, Method, Return, Try)) for part in const.value.walk()):
            self.refuse(const, f"the constant {const.name}")
        return type_

    # -- statements
    def block(self, node: Block, want: Type | None) -> Type:
        def run() -> Type:
            result = UNIT
            for statement in node.statements:
                result = self.statement(statement, want)
            return result
        return self.scoped(run)

    def statement(self, node: Statement, want: Type | None) -> Type:
        if isinstance(node, Value):
            return self.expr(node.value, want)
        if isinstance(node, Done):
            self.expr(node.value, UNIT if isinstance(node.value, (If, Match, Block)) else None)
            return NEVER if leaves(node.value) else UNIT
        if isinstance(node, Let):
            self.let(node)
        elif isinstance(node, For):
            self.unify(node, self.unify(node, self.expr(node.low), self.expr(node.high, node.low.type)), "usize")
            self.in_loop(node.variable, "usize", "let", node.body)
        elif isinstance(node, While):
            if not isinstance(node.pattern, VariantPattern) or node.pattern.path != ["Some"]:
                self.refuse(node, "a loop")
            self.in_loop(node.pattern, self.expr(node.value), "match", node.body)
        return UNIT

    def let(self, node: Let) -> None:
        if isinstance(node.value, Method) and node.value.name == "split_at_mut":
            self.views(node, node.value)
        elif isinstance(node.value, RefMut):
            self.borrow(node, node.value.value)
        else:
            given = self.known(node.given) if node.given else None
            self.pattern(node.pattern, self.expr(node.value, given), "let")

    def in_loop(self, pattern: Variable | VariantPattern, type_: Type, role: str, body: Block) -> None:
        def run() -> None:
            self.pattern(pattern, type_, role)
            self.unify(body, self.expr(body, UNIT), UNIT)
        self.loops += 1
        self.scoped(run)
        self.loops -= 1

    def views(self, node: Let, value: Method) -> None:
        """`let (start, rest) = place.split_at_mut(middle)`: two views of the place, which no other name reaches"""
        parts = node.pattern.parts if isinstance(node.pattern, TuplePattern) else []
        variables = [part for part in parts if isinstance(part, Variable)]
        if len(parts) != 2 or len(variables) != 2 or len(value.arguments) != 1:
            self.refuse(node, "split_at_mut")
        type_ = self.unify(node, self.place(value.value), listed())
        self.unify(node, self.expr(value.arguments[0], "usize"), "usize")
        for part in variables:
            self.bind(part, type_, "view")
            part.local.place = value.value

    def borrow(self, node: Let, place: Expr) -> None:
        """`let name = &mut place;`: until its last use, no other name reaches the place"""
        if not isinstance(node.pattern, Variable) or node.pattern.changes or node.given:
            self.refuse(node, "a mutable reference in a variable")
        type_ = self.place(place)
        if type_ not in INTEGERS and type_ != "bool":
            self.refuse(node, f"a mutable reference to {type_} in a variable")
        self.bind(node.pattern, type_, "borrowed")
        node.pattern.local.place = place

    # -- expressions
    def expr(self, node: Expr, want: Type | None = None) -> Type:
        """The type of an expression. `want` is one that would fit."""
        node.type = self.typed(node, want)
        return node.type

    def typed(self, node: Expr, want: Type | None) -> Type:
        match node:
            case Integer():
                return self.integer(node, want)
            case Boolean():
                return "bool"
            case Name():
                return self.name(node)
            case PathName():
                return self.variant(node)
            case Ref():
                return self.base(node.value) if isinstance(node.value, Name) else self.expr(node.value, want)
            case Deref():
                return self.base(node.value)
            case RefMut():
                self.refuse(node, "a mutable reference outside an argument")
            case Field():
                self.base(node.value)
                return self.field_type(node)
            case Part():
                type_ = actual(self.base(node.value))
                if not is_a(type_, "tuple") or len(type_) != 3:
                    self.refuse(node, f".{node.at} of {type_}")
                return type_[1 + node.at]
            case Index() | Slice():
                return self.indexed(node)
            case Not() | Cast():
                return self.converted(node, want)
            case Block():
                return self.block(node, want)
            case If():
                self.unify(node, self.expr(node.condition, "bool"), "bool")
                then = self.expr(node.then, want)
                return self.join(node, then, self.expr(node.other, want or then))
            case Match():
                return self.match(node, want)
            case Return() | Try():
                return self.leaving(node)
            case TupleOf() | Array() | Repeat():
                return self.parts(node, actual(want) if want is not None else None)
            case Record():
                return self.record(node)
            case Assign():
                return self.assign(node)
            case Binary():
                return self.binary(node, want)
            case Call():
                return self.call(node, want)
            case Method():
                return self.method(node, want)
        self.refuse(node, f"a {node.form} here")

    def integer(self, node: Integer, want: Type | None) -> Type:
        if node.suffix:
            return node.suffix
        found = actual(want) if want is not None else None
        return found if isinstance(found, Unknown) or isinstance(found, str) and found in INTEGERS else Unknown(True)

    def variant(self, node: PathName) -> Type:
        head = self.owner if node.path[0] == "Self" and self.owner else node.path[0]
        if self.variant_type(node, node.path, head) is not None:
            self.refuse(node, "a variant without its value")
        return head

    def indexed(self, node: Index | Slice) -> Type:
        type_ = self.unify(node, self.base(node.value), listed())
        self.ends(node, [node.index] if isinstance(node, Index) else node.ends())
        return type_[1] if isinstance(node, Index) and isinstance(type_, tuple) else type_

    def converted(self, node: Not | Cast, want: Type | None) -> Type:
        if isinstance(node, Not):
            type_ = actual(self.expr(node.value, want))
            if type_ != "bool" and type_ not in WIDTHS:
                self.refuse(node, f"! of {type_}")
            return type_
        to, of = self.crate.known(node.to), actual(self.expr(node.value))
        if of not in INTEGERS or to not in WIDTHS:
            self.refuse(node, f"{of} as {to}")
        return to

    def join(self, node: Expr, one: Type, other: Type) -> Type:
        """The type of what is one or the other"""
        if one == NEVER:
            return other
        return one if other == NEVER else self.unify(node, one, other)

    def match(self, node: Match, want: Type | None) -> Type:
        type_, result = self.base(node.value), NEVER
        for arm in node.arms:
            def run() -> Type:
                self.pattern(arm.pattern, type_, "match")
                if arm.guard:
                    self.unify(arm, self.expr(arm.guard, "bool"), "bool")
                    if changes(arm.guard):
                        self.refuse(arm, "a guard that changes something")
                return self.expr(arm.body, want)
            result = self.join(arm.body, result, self.scoped(run))
        return result

    def leaving(self, node: Return | Try) -> Type:
        if self.loops:
            self.refuse(node, f"a {'return' if isinstance(node, Return) else '?'} in a loop")
        if isinstance(node, Return):
            self.unify(node, self.expr(node.value, self.result) if node.value else UNIT, self.result)
            return NEVER
        type_, result = actual(self.expr(node.value)), actual(self.result)
        if not is_a(type_, "result") or not is_a(result, "result"):
            self.refuse(node, f"a ? of {type_}")
        self.unify(node, type_[2], result[2])
        return type_[1]

    # -- values with parts
    def parts(self, node: TupleOf | Array | Repeat, want: Type | None) -> Type:
        if isinstance(node, TupleOf):
            wants: Sequence[Type | None] = [None] * len(node.parts)
            if is_a(want, "tuple") and len(want) == len(node.parts) + 1:
                wants = want[1:]
            return compound("tuple", *(self.expr(part, one) for part, one in zip(node.parts, wants)))
        item: Type = want[1] if is_a(want, "list") else Unknown(True)
        if isinstance(node, Repeat):
            if not isinstance(node.value, Integer):
                self.refuse(node, "a repeated value")
            self.unify(node, self.expr(node.count, "usize"), "usize")
        for part in node.parts if isinstance(node, Array) else [node.value]:
            self.unify(part, self.expr(part, item), item)
        return listed(item)

    def record(self, node: Record) -> Type:
        node.name = self.owner if node.path == ["Self"] and self.owner else "::".join(node.path)
        item = self.crate.types.get(node.name)
        if not isinstance(item, Struct):
            self.refuse(node, f"the struct {node.name}")
        if sorted(field for field, _ in node.fields) != sorted(field for field, _ in item.fields):
            self.refuse(node, f"the fields of {node.name}")
        for field, value in node.fields:
            type_ = self.crate.known(dict(item.fields)[field])
            self.unify(value, self.expr(value, type_), type_)
        return node.name

    # -- assignments and operators
    def assign(self, node: Assign) -> Type:
        """The value is evaluated before the place, as Rust does for assignments of numbers"""
        inner = node.place.value if isinstance(node.place, Deref) else None
        local = self.find(inner.name) if isinstance(inner, Name) else None
        if inner and local and local.mode == "mut":
            node.place = inner   # all that a parameter refers to
        elif local and local.mode == "borrowed" and local.place:
            node.place = local.place
        elif isinstance(node.place, Name) and (found := self.find(node.place.name)) and found.mode == "mut":
            self.refuse(node, "a reference that is changed")
        if isinstance(node.place, Index):
            type_ = self.unify(node, self.place(node.place.value), listed())
            self.ends(node, [node.place.index])
            type_ = type_[1] if isinstance(type_, tuple) else type_
        elif local and local.mode == "borrowed":
            type_ = local.type   # the place was found when it was borrowed: its names may be hidden by now
        else:
            type_ = self.place(node.place)
        self.unify(node, self.expr(node.value, type_), type_)
        if node.operator:
            if isinstance(node.place, Index):
                self.refuse(node, f"{node.operator}= at an index")
            if changes(node.value):
                self.refuse(node, f"{node.operator}= of what changes something")
            node.sum = Binary(node.line, node.operator, node.place, node.value)
            self.operands(node.sum, type_, type_)
        return UNIT

    def binary(self, node: Binary, want: Type | None) -> Type:
        if node.operator in ("&&", "||"):
            for side in (node.left, node.right):
                self.unify(node, self.expr(side, "bool"), "bool")
            return "bool"
        left = self.expr(node.left, None if node.operator in COMPARISONS else want)
        return self.operands(node, left, self.expr(node.right, left))

    def operands(self, node: Binary, left: Type, right: Type) -> Type:
        """The type of an operator's result"""
        operator, node.operands = node.operator, self.unify(node, left, right)
        known = actual(node.operands)
        if operator in ("==", "!="):
            fits = isinstance(known, Unknown) or known in INTEGERS or known == "bool" or is_a(known, "list")
        elif operator in COMPARISONS:
            fits = isinstance(known, Unknown) or known in INTEGERS
        elif operator in ("&", "|", "^"):
            fits = isinstance(known, Unknown) or known in WIDTHS or known == "bool"
        else:
            fits = isinstance(known, Unknown) or known in WIDTHS or known == "i64" and operator in ("+", "-")
        if not fits:
            self.refuse(node, f"{operator} of {known}")
        return "bool" if operator in COMPARISONS else node.operands
