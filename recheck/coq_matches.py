# SPDX-License-Identifier: Apache-2.0 OR BSD-3-Clause
"""Writes each `match` as Coq."""
from typing import Callable

from coq_types import Env, indented
from coq_values import Then, ValueWriter
from rust_expressions import Arm, Boolean, Match, TupleOf
from rust_items import Enum
from rust_tree import (
    INTEGERS, AnyPattern, Either, ListPattern, LiteralPattern, Local, Pattern, RangePattern, Rest, TuplePattern, Type,
    Variable, VariantPattern)
from rust_types import actual, is_a


def choices(pattern: Pattern) -> list[Pattern]:
    return pattern.choices if isinstance(pattern, Either) else [pattern]


class MatchWriter(ValueWriter):
    def match(self, node: Match, env: Env, then: Then) -> str:
        if isinstance(node.value, TupleOf):
            self.known(node.value)
            return self.each(node.value.parts, env, lambda values, after: self.by_parts(node, values, after, then))

        def chosen(value: str, after: Env) -> str:
            type_ = self.known(node.value)
            if self.variants(type_):
                return self.by_variant(node, value, type_, after, then)
            if type_ == "bool" or type_ in INTEGERS or is_a(type_, "list"):
                return self.in_turn(node, value, type_, after, then)
            self.refuse(node, f"a match of {type_}")
        return self.expr(node.value, env, chosen)

    def variants(self, type_: Type) -> list[tuple[str, str, bool]]:
        """The variants of a type, each with its name in Coq and whether it holds a value"""
        if is_a(type_, "option"):
            return [("Some", "Some", True), ("None", "None", False)]
        if is_a(type_, "result"):
            return [("Ok", "Ok", True), ("Err", "Err", True)]
        item = self.crate.types.get(type_) if isinstance(type_, str) else None
        members = item.variants if isinstance(item, Enum) else []
        return [(name, f"{type_}_{name}", held is not None) for name, held in members]

    def guarded(self, arm: Arm, env: Env, then: Then, otherwise: Callable[[], str]) -> str:
        if not arm.guard:
            return self.expr(arm.body, env, then)
        return self.expr(arm.guard, env, lambda condition, after:
                         f"if {condition} then\n  {indented(self.expr(arm.body, after, then))}\n"
                         f"else\n  {indented(otherwise())}")

    def by_parts(self, node: Match, values: list[str], env: Env, then: Then, at: int = 0) -> str:
        """The arms of a match of a tuple. If none fits, which rustc rules out, it counts as a panic"""
        if at == len(node.arms):
            return "None"
        arm, types = node.arms[at], actual(node.value.type)

        def rest() -> str:
            return self.by_parts(node, values, env, then, at + 1)
        if isinstance(arm.pattern, AnyPattern):
            return self.guarded(arm, env, then, rest)
        if not isinstance(arm.pattern, TuplePattern) or not isinstance(types, tuple):
            self.refuse(arm, f"the pattern {arm.pattern.form}")
        tests = [self.test(part, value, type_) for part, value, type_ in zip(arm.pattern.parts, values, types[1:])
                 if not isinstance(part, AnyPattern)]
        test = " && ".join(tests) or "true"
        return f"if ({test})%bool then\n  {indented(self.guarded(arm, env, then, rest))}\nelse\n  {indented(rest())}"

    def by_variant(self, node: Match, value: str, type_: Type, env: Env, then: Then) -> str:
        """For each variant, the first arm that fits"""
        lines = []
        for variant, full, holds in self.variants(type_):
            argument = self.fresh("value") if holds else ""
            taken = self.arm_of(node, 0, variant, argument, env, then)
            lines.append(f"| {full}{' ' * holds}{argument} =>\n  {indented(taken)}")
        return f"match {value} with\n" + "\n".join(lines) + "\nend"

    def arm_of(self, node: Match, at: int, variant: str, argument: str, env: Env, then: Then) -> str:
        if at == len(node.arms):
            self.refuse(node, f"no arm for {variant}")
        arm = node.arms[at]

        def rest() -> str:
            return self.arm_of(node, at + 1, variant, argument, env, then)
        for choice in choices(arm.pattern):
            if isinstance(choice, AnyPattern):
                return self.guarded(arm, env, then, rest)
            if not isinstance(choice, VariantPattern):
                self.refuse(arm, f"the pattern {choice.form}")
            if choice.path[-1] == variant:
                bound = {choice.inner.local: argument} if isinstance(choice.inner, Variable) else {}
                return self.guarded(arm, {**env, **bound}, then, rest)
        return rest()

    def in_turn(self, node: Match, value: str, type_: Type, env: Env, then: Then, at: int = 0) -> str:
        """The arms one after the other, for numbers and lists"""
        if at == len(node.arms):
            self.refuse(node, "a match without a last arm")
        arm = node.arms[at]

        def rest() -> str:
            return self.in_turn(node, value, type_, env, then, at + 1)
        if isinstance(arm.pattern, AnyPattern):
            return self.guarded(arm, env, then, rest)
        if isinstance(arm.pattern, ListPattern):
            text, bound = self.list_pattern(arm.pattern)
            return (f"match {value} with\n| {text} =>\n  {indented(self.guarded(arm, {**env, **bound}, then, rest))}\n"
                    f"| _ =>\n  {indented(rest())}\nend")
        tests = [self.test(choice, value, type_) for choice in choices(arm.pattern)]
        test = tests[0] if len(tests) == 1 else "(" + " || ".join(tests) + ")%bool"
        return f"if {test} then\n  {indented(self.guarded(arm, env, then, rest))}\nelse\n  {indented(rest())}"

    def test(self, pattern: Pattern, value: str, type_: Type) -> str:
        """Whether a value is the value of a pattern"""
        if isinstance(pattern, LiteralPattern) and isinstance(pattern.value, Boolean):
            return f"(Bool.eqb {value} {pattern.value.value})"
        equal, below = ("int_eqb", "int_leb") if type_ == "i64" else ("N.eqb", "N.leb")
        if isinstance(pattern, RangePattern):
            low, high = self.number_of(pattern.low), self.number_of(pattern.high)
            return f"(andb ({below} {low} {value}) ({below} {value} {high}))"
        return f"({equal} {value} {self.number_of(pattern)})"

    def number_of(self, pattern: Pattern) -> str:
        if isinstance(pattern, Variable) and pattern.constant:
            return self.expr(pattern.constant, {}, lambda text, env: text)
        if not isinstance(pattern, LiteralPattern):
            self.refuse(pattern, f"the pattern {pattern.form}")
        return self.expr(pattern.value, {}, lambda text, env: text)

    def list_pattern(self, pattern: ListPattern) -> tuple[str, dict[Local, str]]:
        """The pattern of a list, and the names of its variables"""
        parts: list[str] = []
        bound: dict[Local, str] = {}
        last = "nil"
        for part in pattern.parts:
            if isinstance(part, LiteralPattern):
                parts.append(self.number_of(part))
            elif isinstance(part, (Variable, Rest)):
                name = bound[part.local] = self.fresh(part.name)
                if isinstance(part, Rest):
                    last = name
                else:
                    parts.append(name)
            else:
                parts.append("_")
        return "(" + " :: ".join([*parts, last]) + ")", bound
