# SPDX-License-Identifier: Apache-2.0 OR BSD-3-Clause
"""Resolves the names of a body of the shell. A call of an object becomes a question, and a method that takes a closure
becomes what the method does with the closure."""
from dataclasses import dataclass

from check_expressions import Checker
from rust_changes import changes
from rust_expressions import (
    Arm, Ask, Assign, Boolean, Call, Closure, Copy, Integer, Invoke, Match, Meaning, Method, Name, PathName, RefMut,
    Replace, Return, Slice, Span, Try, UpTo)
from rust_tree import UNIT, AnyPattern, Expr, Pattern, Type, Variable, VariantPattern
from rust_types import actual, is_a, listed
from shell_crate import ShellCrate
from shell_names import OBJECTS


@dataclass(eq=False)
class Matched(Meaning):
    """A method that is a match of its value"""
    match: Match


@dataclass(eq=False)
class MapErr(Meaning):
    variant: str


class OkOr(Meaning):
    """`ok_or(error)`"""


class Same(Meaning):
    """What gives the list that it is called on"""


@dataclass(eq=False)
class Each(Meaning):
    """`map` of a range"""
    closure: Closure


@dataclass(eq=False)
class Tries(Meaning):
    """`(0..high).try_for_each(|_| body)`"""
    high: Expr
    body: Expr


@dataclass(eq=False)
class CopyUpTo(Meaning):
    """`place.get_mut(..count)?.copy_from_slice(bytes)`"""
    copy: Copy
    count: Expr


def wrapped(name: str, value: Expr) -> Call:
    return Call(value.line, [name], [value])


class ShellChecker(Checker):
    crate: ShellCrate

    def typed(self, node: Expr, want: Type | None) -> Type:
        if not isinstance(node, Span):
            return super().typed(node, want)
        self.ends(node, [node.low, node.high])
        return ("iterator", "usize")

    def call(self, node: Call, want: Type | None) -> Type:
        if node.path == ["std", "mem", "replace"]:
            place, value = self.arguments(node, 2)
            if not isinstance(place, RefMut):
                self.refuse(node, "std::mem::replace")
            type_ = self.place(place.value)
            self.unify(node, self.expr(value, type_), type_)
            if changes(value):
                self.refuse(node, "std::mem::replace")
            node.meaning = Replace(place.value, value)
            return type_
        if node.path == ["vm_moment"] and not node.arguments and "vm_moment" in self.crate.functions:
            node.meaning = Ask("SystemTime_now", [])
            return "u64"
        return super().call(node, want)

    def method(self, node: Method, want: Type | None) -> Type:
        forms = {"map_err": self.map_err, "ok_or": self.ok_or, "and_then": self.and_then, "map": self.map,
                 "map_or": self.map_or, "collect": self.same, "to_vec": self.same, "try_for_each": self.tries,
                 "copy_from_slice": self.copy_up_to}
        if node.name in forms:
            return forms[node.name](node, want)
        type_ = actual(self.base(node.value))
        if isinstance(type_, str) and type_ in OBJECTS:
            return self.asks(node, type_)
        return super().method(node, want)

    def asks(self, node: Method, trait: str) -> Type:
        """A call of an object. It does not change the port: a mutable reference reaches the object alone."""
        method = self.crate.methods(trait).get(node.name)
        if not method or len(method[0]) != len(node.arguments):
            self.refuse(node, f"the method {node.name} of {trait}")
        parameters, result = method
        for argument, type_ in zip(node.arguments, parameters):
            self.unify(argument, self.expr(argument, type_), type_)
        node.meaning = Ask(f"{trait}_{node.name}", [node.value, *node.arguments])
        return result

    # -- methods of Option and Result, and of ranges
    def arguments(self, node: Call | Method, count: int) -> list[Expr]:
        if len(node.arguments) != count:
            self.refuse(node, f"the arguments of {node.name if isinstance(node, Method) else '::'.join(node.path)}")
        return node.arguments

    def of(self, node: Method, head: str) -> tuple[Type, ...]:
        """The type of what the method is called on, which has this head"""
        type_ = actual(self.base(node.value))
        if not is_a(type_, head):
            self.refuse(node, f"{node.name} of {type_}")
        return type_

    def map_err(self, node: Method, want: Type | None) -> Type:
        """Only with a variant that holds a value, such as Error::Trigger"""
        type_, (variant,) = self.of(node, "result"), self.arguments(node, 1)
        if not isinstance(variant, PathName) or self.variant_type(node, variant.path, variant.path[0]) != type_[2]:
            self.refuse(node, "map_err")
        node.meaning = MapErr("_".join(variant.path))
        return ("result", type_[1], variant.path[0])

    def ok_or(self, node: Method, want: Type | None) -> Type:
        type_, (error,) = self.of(node, "option"), self.arguments(node, 1)
        if not isinstance(error, (PathName, Name)):
            self.refuse(node, "ok_or")
        node.meaning = OkOr()
        return ("result", type_[1], self.expr(error))

    def and_then(self, node: Method, want: Type | None) -> Type:
        type_, (given,) = self.of(node, "result"), self.arguments(node, 1)
        closure = self.closure(given)
        return self.matched(node, type_, ("Ok", closure.parameter, closure.body), self.kept(node, "Err"))

    def map(self, node: Method, want: Type | None) -> Type:
        """Of a Result, or of a range. A function that is named is called with the value"""
        (given,) = self.arguments(node, 1)
        type_ = actual(self.base(node.value))
        if isinstance(given, PathName):
            call = Call(node.line, given.path, [Name(node.line, "value")])
            given = Closure(node.line, Variable(node.line, "value"), call)
        closure = self.closure(given)
        node.arguments = [closure]
        if is_a(type_, "result"):
            mapped = "Ok", closure.parameter, wrapped("Ok", closure.body)
            return self.matched(node, want, mapped, self.kept(node, "Err"))
        if not is_a(type_, "iterator"):
            self.refuse(node, f"map of {type_}")
        node.meaning, item = Each(closure), type_[1]
        return ("iterator", self.scoped(lambda: self.inside(closure, item)))

    def inside(self, closure: Closure, type_: Type) -> Type:
        """The type of what a closure returns, which calls no object and changes nothing"""
        self.pattern(closure.parameter, type_, "inner")
        found = self.expr(closure.body)
        for part in closure.body.walk():
            meaning = part.meaning if isinstance(part, (Call, Method)) else None
            if isinstance(meaning, Ask) or isinstance(meaning, Invoke) and meaning.key in self.crate.own:
                self.refuse(closure, "a closure that calls the shell")
        if changes(closure.body):
            self.refuse(closure, "a closure that changes something")
        return found

    def map_or(self, node: Method, want: Type | None) -> Type:
        self.of(node, "option")
        default, given = self.arguments(node, 2)
        closure = self.closure(given)
        if not isinstance(default, Boolean):
            self.refuse(node, "map_or")
        return self.matched(node, want, ("Some", closure.parameter, closure.body), ("None", None, default))

    def kept(self, node: Method, name: str) -> tuple[str, Pattern, Expr]:
        """The arm that leaves a value as it is"""
        return name, Variable(node.line, "same"), wrapped(name, Name(node.line, "same"))

    def matched(self, node: Method, want: Type | None, *arms: tuple[str, Pattern | None, Expr]) -> Type:
        found = Match(node.line, node.value, [Arm(node.line, VariantPattern(node.line, [name], inner), None, body)
                                              for name, inner, body in arms])
        node.meaning = Matched(found)
        found.type = self.match(found, want)
        return found.type

    def same(self, node: Method, want: Type | None) -> Type:
        self.arguments(node, 0)
        type_ = self.of(node, "iterator" if node.name == "collect" else "list")
        node.meaning = Same()
        return listed(type_[1])

    def copy_up_to(self, node: Method, want: Type | None) -> Type:
        """`None` is returned if there are fewer places"""
        part = node.value.value if isinstance(node.value, Try) else None
        if not isinstance(part, Method) or part.name != "get_mut":
            return self.copy(node, node.value)
        (ends,) = self.arguments(part, 1)
        if not isinstance(ends, UpTo) or not isinstance(ends.high, Name) or not is_a(actual(self.result), "option"):
            self.refuse(node, "get_mut")
        found = self.copy(node, Slice(node.line, part.value, None, ends.high))
        assert isinstance(node.meaning, Copy)
        node.meaning = CopyUpTo(node.meaning, ends.high)
        return found

    def tries(self, node: Method, want: Type | None) -> Type:
        """Of a range of numbers from 0 whose end is an u8, and of a closure that changes nothing"""
        (closure,) = self.arguments(node, 1)
        if not isinstance(node.value, Span) or not isinstance(closure, Closure):
            self.refuse(node, "try_for_each")
        if not isinstance(closure.parameter, AnyPattern):
            self.refuse(node, "try_for_each")
        low, high = node.value.low, node.value.high
        if not isinstance(low, Integer) or low.value or self.expr(high, "u8") != "u8":
            self.refuse(node, "the range of try_for_each")
        self.closure(closure)
        type_ = actual(self.expr(closure.body, want))
        if not is_a(type_, "result") or type_[1] != UNIT or changes(closure.body):
            self.refuse(node, f"try_for_each of {type_}")
        node.meaning = Tries(high, closure.body)
        return type_

    def closure(self, node: Expr) -> Closure:
        """A closure leaves itself with `return` and `?`, and may change what it captures. Neither is known."""
        if not isinstance(node, Closure):
            self.refuse(node, "a closure")
        if any(isinstance(part, (Return, Try, Assign, RefMut)) for part in node.body.walk()):
            self.refuse(node, "a closure")
        return node
