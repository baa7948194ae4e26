# SPDX-License-Identifier: Apache-2.0 OR BSD-3-Clause
"""Translates Rust functions without I/O, and all that they call, to Coq.

It reads a small part of Rust, which recheck/README.md describes, and refuses everything else. A function becomes one of
the same name, with `rs_` before it. It returns `Some` of its result and of the new values of its `&mut` parameters,
or `None` where Rust panics. Coq names of variables contain a `'`, which no Rust name can, so they hide no other name.

Each job has its files: rust_*.py and parse_*.py read a crate to a tree, check_*.py resolve names and types, and
coq_*.py write Coq, in the order in which Rust evaluates.
"""
from typing import Callable, Iterable

from check_expressions import Checker
from coq_matches import MatchWriter
from coq_types import Env, indented
from coq_values import Then
from rust_crate import Crate
from rust_changes import changes, roots
from rust_expressions import Block, Done, For, Let, Method, RefMut, Statement, Value, While
from rust_items import Function
from rust_tokens import Refused
from rust_tree import AnyPattern, ListPattern, Pattern, RecordPattern, TuplePattern, Variable, VariantPattern

__all__ = ["Crate", "Refused", "coq_name", "translate"]


def coq_name(key: str) -> str:
    return "rs_" + key.replace("::", "_")


def tuple_of(names: list[str]) -> str:
    return f"({', '.join(names)})" if len(names) > 1 else names[0]


class Writer(MatchWriter):
    """Writes functions, with all that they call, as Coq."""
    def __init__(self, crate: Crate) -> None:
        super().__init__(crate)
        self.written: dict[str, str] = {}
        self.open: list[str] = []    # what is being written
        self.out: list[str] = []
        self.changed = []

    def coq_name(self, key: str) -> str:
        return coq_name(key)

    # -- items
    def function(self, key: str) -> str:
        """The name of a function, which is written by now, and so is all that it calls"""
        return self.write(key, "function", lambda: self.definition(key, self.crate.functions[key]))

    def constant(self, name: str) -> str:
        return self.write(name, "constant", lambda: self.constant_definition(name))

    def write(self, key: str, what: str, definition: Callable[[], str]) -> str:
        if key in self.written:
            return self.written[key]
        if key in self.open:
            raise Refused(f"{key} calls itself" if what == "function" else f"{key} rests on itself")
        if not (key in self.crate.functions if what == "function" else key in self.crate.consts):
            raise Refused(f"there is no {what} {key}")
        saved = self.where, self.changed
        self.open.append(key)
        self.out.append(definition())
        self.open.pop()
        self.where, self.changed = saved
        self.written[key] = self.coq_name(key)
        return self.written[key]

    def definition(self, key: str, function: Function) -> str:
        self.where, before, self.count = function.file, self.count, 0
        checker = self.checker(function)
        checker.function(function)
        assert function.body
        self.changed = [local for local in function.locals if local.mode == "mut"]
        env = {local: f"{local.name}'" for local in function.locals}
        parameters = "".join(f" ({env[local]} : {self.type(local.type)})" for local in function.locals)
        result = " * ".join(map(self.type, [checker.result, *(local.type for local in self.changed)]))
        text = self.expr(function.body, env, self.leave)
        self.count = before
        head = f"{self.comment(function.doc)}(* {function.file}:{function.line} *)\n"
        return f"{head}{self.definition_head(key, parameters, result)} :=\n  {indented(text)}."

    def checker(self, function: Function) -> Checker:
        return Checker(self.crate, function, function.file)

    def definition_head(self, key: str, parameters: str, result: str) -> str:
        return f"Definition {self.coq_name(key)}{parameters} : option ({result})"

    def constant_definition(self, name: str) -> str:
        item = self.crate.consts[name]
        self.where = item.file
        type_ = Checker(self.crate, None, item.file).constant(item)
        text = self.expr(item.value, {}, lambda value, env: f"Some {value}")
        text = text[5:] if text.startswith("Some ") else f"constant ({indented(text)})"
        return f"{self.comment(item.doc)}Definition {self.coq_name(name)} : {self.type(type_)} := {text}."

    # -- statements
    def block(self, node: Block, env: Env, then: Then) -> str:
        return self.statements(node.statements, env, then)

    def statements(self, statements: list[Statement], env: Env, then: Then) -> str:
        if not statements:
            return then("tt", env)
        first = statements[0]

        def rest(after: Env) -> str:
            return self.statements(statements[1:], after, then)
        if isinstance(first, Value):
            return self.expr(first.value, env, then)
        if isinstance(first, Done):
            return self.expr(first.value, env, lambda value, after: rest(after))
        if isinstance(first, Let):
            return self.let(first, env, rest)
        assert isinstance(first, (For, While))
        return self.loop(first, env, rest)

    def let(self, node: Let, env: Env, rest: Callable[[Env], str]) -> str:
        pattern = node.pattern
        if isinstance(node.value, Method) and node.value.name == "split_at_mut":
            return self.split(node.value, pattern, env, rest)
        if isinstance(node.value, RefMut):
            return rest(env)

        def bound(value: str, after: Env) -> str:
            type_ = self.type(node.value.type, node)
            if isinstance(pattern, AnyPattern):
                return rest(after)
            if isinstance(pattern, Variable):
                name = self.fresh(pattern.name)
                return f"let {self.typed(name, type_)} := {value} in\n{rest({**after, pattern.local: name})}"
            if isinstance(pattern, ListPattern):
                text, listed = self.list_pattern(pattern)
                return f"match {value} with\n| {text} =>\n  {indented(rest({**after, **listed}))}\n| _ => None\nend"
            if isinstance(pattern, RecordPattern):
                fields = {part.local: f"({pattern.path[0]}_{part.name} {value})" for part in pattern.parts}
                return rest({**after, **fields})
            assert isinstance(pattern, TuplePattern)
            names = {part.local: self.fresh(part.name) for part in pattern.parts if isinstance(part, Variable)}
            shown = [names[part.local] if isinstance(part, Variable) else "_" for part in pattern.parts]
            return f"let '({', '.join(shown)}) := {value} in\n{rest({**after, **names})}"
        return self.expr(node.value, env, bound)

    def typed(self, name: str, type_: str) -> str:
        """A new variable, with its type where Coq has to know it"""
        return name

    def split(self, value: Method, pattern: Pattern, env: Env, rest: Callable[[Env], str]) -> str:
        assert isinstance(pattern, TuplePattern)
        start, end = (part.local for part in pattern.parts if isinstance(part, Variable))

        def bound(middle: str, after: Env) -> str:
            size = f"(length {self.read(value.value, after)})"
            start.start, start.stop, end.start, end.stop = "0", middle, middle, size
            return f"if N.leb {middle} {size} then\n  {indented(rest(after))}\nelse None"
        return self.expr(value.arguments[0], env, bound)

    # -- loops
    def loop(self, node: For | While, env: Env, rest: Callable[[Env], str]) -> str:
        """A loop folds the variables that it changes"""
        changing = {*roots(node.body), *(roots(node.value) if isinstance(node, While) else ())}
        changed = [local for local in env if local in changing]
        if not changed:
            self.refuse(node, "a loop that changes nothing")
        names, ends = [self.fresh(local.name) for local in changed], [self.fresh(local.name) for local in changed]
        inner, after = {**env, **dict(zip(changed, names))}, rest({**env, **dict(zip(changed, ends))})

        def state(env: Env) -> str:
            return tuple_of([env[local] for local in changed])

        def fold(head: str, body: str) -> str:
            shown, bound = ("'" * (len(changed) > 1) + tuple_of(found) for found in (names, ends))
            return f"let* {bound} := {head}{shown} =>\n  {indented(body)}) {state(env)} in\n{after}"
        if isinstance(node, While):
            return fold("while_some 1000 (fun ", self.turn(node, inner, state))
        if changes(node.low) or changes(node.high):
            self.refuse(node, "a loop's ends")
        variable, turn = node.variable, node.body

        def looped(ends: list[str], env: Env) -> str:
            index = self.fresh(variable.name)
            body = self.expr(turn, {**inner, variable.local: index}, lambda value, env: f"Some {state(env)}")
            return fold(f"for_range {ends[0]} {ends[1]} (fun {index} ", body)
        return self.each([node.low, node.high], env, looped)

    def turn(self, node: While, env: Env, state: Callable[[Env], str]) -> str:
        """One turn of a `while let`: whether there was one, and the variables after it"""
        found = self.fresh("some")
        inner = node.pattern.inner if isinstance(node.pattern, VariantPattern) else None
        bound = {inner.local: found} if isinstance(inner, Variable) else {}

        def turned(value: str, env: Env) -> str:
            body = self.expr(node.body, {**env, **bound}, lambda value, env: f"Some (true, {state(env)})")
            ended = f"Some (false, {state(env)})"
            return f"match {value} with\n| Some {found} =>\n  {indented(body)}\n| None => {ended}\nend"
        return self.expr(node.value, env, turned)


HEAD = "(* Made by recheck/rust2coq.py from rust/superio/src. *)\n"


def translate(crate: Crate, functions: Iterable[str]) -> tuple[str, str]:
    """The types of a crate and these functions, as two Coq files."""
    writer = Writer(crate)
    types = HEAD + "Require Export Recheck.Prelude.\n\n" + writer.types() + "\n"
    for function in functions:
        writer.function(function)
    code = HEAD + "Require Export Recheck.Prelude Recheck.Machine Recheck.Types.\n\n"
    return types, code + "\n\n".join(writer.out) + "\n"
