# SPDX-License-Identifier: Apache-2.0 OR BSD-3-Clause
"""Translates the shell, the Rust types that own a monitor's objects, to Coq.

It reads what rust2coq.py reads and a few forms more, which recheck/README.md lists, and refuses everything else. A
function becomes one of the same name, with `vm_` before it, which gives what it does: the calls of objects, each with
what follows its answer, and at the end its result and the new values of its `&mut` parameters (Acts.v). A call of a
function without I/O is one of the function that rust2coq.py made.
"""
from typing import Callable, Iterable, NoReturn

import rust2coq
from check_shell import CopyUpTo, Each, MapErr, Matched, OkOr, Same, ShellChecker, Tries
from coq_types import Env, indented
from coq_values import Then
from rust_expressions import Ask, Call, For, Let, Match, Method, Replace, Span, While
from rust_items import Enum, Function, Struct
from rust_tokens import Refused
from rust_tree import Expr, ListPattern, Node, Type, Variable
from rust_types import actual, is_a
from shell_crate import ShellCrate
from shell_names import OBJECTS, OPAQUE

__all__ = ["ShellCrate", "coq_name", "translate"]

VARIABLES = ["T", "EV", "W", "E", "Fault"]


def coq_name(key: str) -> str:
    return ("vm_" + key[2:] if key.startswith("Vm") else key).replace("::", "_")


class ShellWriter(rust2coq.Writer):
    """Writes functions of the shell. `core` are the Coq names of the functions without I/O."""
    crate: ShellCrate

    def __init__(self, crate: ShellCrate, core: set[str]) -> None:
        super().__init__(crate)
        self.core = core
        self.holds = {name: self.variables(name) for name in crate.own if name in crate.types}

    def is_own(self, name: str) -> bool:
        return name in self.crate.own

    def coq_name(self, key: str) -> str:
        if self.is_own(key):
            return coq_name(key)
        name = super().coq_name(key)
        if name not in self.core:
            raise Refused(f"{key} is not translated")
        return name

    def word(self, key: str | None) -> str:
        return "let+" if key is not None and self.is_own(key) else "let^"

    def comment(self, doc: list[str]) -> str:
        """The doc comment up to its first heading"""
        heads = [at for at, line in enumerate(doc) if line.startswith("#")]
        return super().comment(doc[:heads[0] - 1] if heads else doc)

    # -- types
    def type(self, type_: Type, node: Node | None = None) -> str:
        type_ = actual(type_)
        text = super().type(("list", type_[1]) if is_a(type_, "iterator") else type_, node)
        if text in OPAQUE:
            return OPAQUE[text]
        variables, stands = self.holds.get(text, []), self.instances()
        return f"({' '.join([text, *(stands.get(one, one) for one in variables)])})" if variables else text

    def instances(self) -> dict[str, str]:
        """What stands for the type variables of Coq in the function that is at work"""
        return {OBJECTS[trait]: other for trait, other in self.crate.instance.items()}

    def variables(self, type_: Type) -> list[str]:
        """The types of objects, of a refusal or of a writer's fault that a type of the shell holds"""
        if isinstance(type_, str) and type_ in OPAQUE:
            return [OPAQUE[type_]]
        parts: Iterable[Type] = ()
        if isinstance(type_, tuple):
            parts = type_[1:]
        elif isinstance(type_, str) and self.is_own(type_):
            parts = [self.crate.known(held) for _, held in self.crate.types[type_].members if held]
        found = {variable for part in parts for variable in self.variables(part)}
        return [variable for variable in VARIABLES if variable in found]

    def declared(self, name: str, item: Struct | Enum) -> str:
        variables = self.holds[name]
        parameters = f" ({' '.join(variables)} : Type)" if variables else ""
        text = self.comment(item.doc) + self.declaration(name, item, parameters, " ".join([name, *variables]))
        made = [f"{name}_{member}" for member, _ in item.members]
        if isinstance(item, Struct):
            made.insert(0, f"mk_{name}")
        if variables:
            return text + "".join(f"\nArguments {one} {{{' '.join(variables)}}}." for one in made)
        return f"{text}\n{self.valid(name, item)}" if isinstance(item, Struct) and item.members else text

    # -- calls of objects
    def calls(self) -> str:
        """The calls that objects get, and what each may answer"""
        found = [(f"{trait}_{name}", variable, *method) for trait, variable in OBJECTS.items()
                 for name, method in self.crate.methods(trait).items()]
        lines = [f"| {name} : " + " -> ".join([variable, *map(self.type, parameters), "Call T EV W"])
                 for name, variable, parameters, _ in found]
        answers = [f"  | {name} {' '.join('_' for _ in [variable, *parameters])} => {self.type(result)}"
                   for name, variable, parameters, result in found]
        names = [name for name, *_ in found] + ["SystemTime_now"]
        return "\n".join([
            "(* A call of an object, or a question for the host's time. *)",
            "Inductive Call (T EV W : Type) : Type :=", *lines, "| SystemTime_now : Call T EV W.",
            *(f"Arguments {name} {{T EV W}}." for name in names), "",
            "(* What it may answer. *)",
            "Definition Answer {T EV W : Type} (E Fault : Type) (call : Call T EV W) : Type :=", "  match call with",
            *answers, "  | SystemTime_now => N", "  end.", "",
            "Definition Shell (T EV W E Fault : Type) : Type -> Type := Acts (@Answer T EV W E Fault)."])

    # -- functions
    def constant(self, name: str) -> str:
        return super().constant(name) if self.is_own(name) else self.coq_name(name)

    def function(self, key: str) -> str:
        return super().function(key) if self.is_own(key) else self.coq_name(key)

    def definition(self, key: str, function: Function) -> str:
        before, self.crate.instance = self.crate.instance, self.crate.instance_of(function)
        text = super().definition(key, function)
        self.crate.instance = before
        return text

    def checker(self, function: Function) -> ShellChecker:
        return ShellChecker(self.crate, function, function.file)

    def definition_head(self, key: str, parameters: str, result: str) -> str:
        stands = self.instances()
        free = " ".join(variable for variable in VARIABLES if variable not in stands)
        shell = " ".join(["Shell", *(stands.get(variable, variable) for variable in VARIABLES)])
        return f"Definition {self.coq_name(key)} {{{free} : Type}}{parameters} : {shell} ({result})"

    def leave(self, value: str, env: Env) -> str:
        return "Returns" + super().leave(value, env).removeprefix("Some")

    # -- expressions
    def expr(self, node: Expr, env: Env, then: Then) -> str:
        if not isinstance(node, Span):
            return super().expr(node, env, then)
        return self.each([node.low, node.high], env, lambda values, after:
                         then(f"(span {values[0]} {values[1]})", after))

    def call(self, node: Call | Method, env: Env, then: Then) -> str:
        meaning = node.meaning
        if isinstance(meaning, Ask):
            return self.ask(meaning, env, then)
        if isinstance(meaning, Replace):
            return self.replace(meaning, env, then)
        if not isinstance(node, Method):
            return super().call(node, env, then)
        if isinstance(meaning, Matched):
            return self.expr(meaning.match, env, then)
        if isinstance(meaning, MapErr):
            variant = meaning.variant
            return self.expr(node.value, env, lambda value, after: then(f"(map_err {variant} {value})", after))
        if isinstance(meaning, OkOr):
            return self.each([node.value, node.arguments[0]], env, lambda values, after:
                             then(f"(ok_or {values[0]} {values[1]})", after))
        if isinstance(meaning, Same):
            return self.expr(node.value, env, then)
        if isinstance(meaning, Each):
            return self.mapped(node, meaning, env, then)
        if isinstance(meaning, Tries):
            return self.tried(meaning, env, then)
        if isinstance(meaning, CopyUpTo):
            count = self.expr(meaning.count, env, lambda value, env: value)
            copied = self.copy(meaning.copy, node.arguments[0], env, then)
            return (f"if N.leb {count} (length {self.read(meaning.copy.target, env)}) then\n  {indented(copied)}\n"
                    f"else {self.leave('None', env)}")
        return super().call(node, env, then)

    def ask(self, meaning: Ask, env: Env, then: Then) -> str:
        def asked(values: list[str], after: Env) -> str:
            answer = self.fresh("answer")
            return f"let? {answer} := {' '.join([meaning.question, *values])} in\n{then(answer, after)}"
        return self.each(meaning.arguments, env, asked)

    def replace(self, meaning: Replace, env: Env, then: Then) -> str:
        def replaced(value: str, after: Env) -> str:
            old = self.fresh("old")
            return f"let {old} := {self.read(meaning.place, after)} in\n" + self.update(
                meaning.place, value, after, lambda env: then(old, env))
        return self.expr(meaning.value, env, replaced)

    def tried(self, meaning: Tries, env: Env, then: Then) -> str:
        body = self.expr(meaning.body, env, lambda value, after: f"Returns {value}")

        def tried(times: str, after: Env) -> str:
            result = self.fresh("result")
            return f"let+ {result} := try_times {times} (\n  {indented(body)}) in\n{then(result, after)}"
        return self.expr(meaning.high, env, tried)

    def mapped(self, node: Method, meaning: Each, env: Env, then: Then) -> str:
        closure = meaning.closure

        def mapped(items: str, after: Env) -> str:
            item, results = self.fresh("item"), self.fresh("items")
            bound = {closure.parameter.local: item} if isinstance(closure.parameter, Variable) else {}
            body = self.expr(closure.body, {**after, **bound}, lambda value, env: f"Returns {value}")
            return f"let+ {results} := each (fun {item} =>\n  {indented(body)}) {items} in\n{then(results, after)}"
        return self.expr(node.value, env, mapped)

    def by_variant(self, node: Match, value: str, type_: Type, env: Env, then: Then) -> str:
        return super().by_variant(node, f"({value} : {self.type(type_)})", type_, env, then)

    def typed(self, name: str, type_: str) -> str:
        return f"{name} : {type_}"

    # -- what the shell has no need of
    def loop(self, node: For | While, env: Env, rest: Callable[[Env], str]) -> NoReturn:
        self.refuse(node, "a loop")

    def by_parts(self, node: Match, values: list[str], env: Env, then: Then, at: int = 0) -> NoReturn:
        self.refuse(node, "a match of a tuple")

    def let(self, node: Let, env: Env, rest: Callable[[Env], str]) -> str:
        if isinstance(node.pattern, ListPattern):
            self.refuse(node, "the pattern of a list")
        return super().let(node, env, rest)


def translate(crate: ShellCrate, functions: Iterable[str], code: str) -> str:
    """The types of the shell and these functions, as one Coq file. `code` is the file of the functions without I/O."""
    writer = ShellWriter(crate, {line.split()[1] for line in code.split("\n") if line.startswith("Definition rs_")})
    types, calls = writer.types(), writer.calls()
    for function in functions:
        writer.function(function)
    head = ("(* Made by recheck/shell2coq.py from rust/vm-superio/src. *)\n"
            "Require Export Recheck.Prelude Recheck.Machine Recheck.Types Recheck.Code Recheck.Acts.\n")
    return "\n\n".join([head, types, calls, *writer.out]) + "\n"
