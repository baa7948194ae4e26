# SPDX-License-Identifier: Apache-2.0 OR BSD-3-Clause
"""The types in a body, and the variables that are in scope. What has no single type here is refused."""
from pathlib import Path
from typing import Callable, NoReturn, TypeGuard, TypeVar

from rust_crate import BUILTIN, Crate
from rust_items import Function
from rust_tokens import Refused
from rust_tree import INTEGERS, NEVER, Local, Node, Rest, Type, Unknown, Variable, compound

T = TypeVar("T")


def actual(type_: Type) -> Type:
    """The type as far as it is known."""
    while isinstance(type_, Unknown) and type_.is_ is not None:
        type_ = type_.is_
    return compound(type_[0], *map(actual, type_[1:])) if isinstance(type_, tuple) else type_


def is_a(type_: Type | None, head: str) -> TypeGuard[tuple[Type, ...]]:
    return isinstance(type_, tuple) and type_[0] == head


def listed(item: Type | None = None) -> Type:
    return ("list", item or Unknown(True))


class Scopes:
    """The types and variables of the body of a function, or of a constant."""
    def __init__(self, crate: Crate, function: Function | None, where: Path) -> None:
        self.crate, self.where, self.loops = crate, where, 0
        self.owner = function.owner if function else None
        self.result: Type = NEVER   # of the function
        self.scopes: list[dict[str, Local]] = [{}]

    def refuse(self, node: Node, what: str) -> NoReturn:
        raise Refused(f"{self.where}:{node.line}: {what}")

    def unify(self, node: Node, one: Type, other: Type) -> Type:
        """The type that both are."""
        one, other = actual(one), actual(other)
        if one is other or one == other:
            return one
        if isinstance(other, Unknown):
            one, other = other, one
        if isinstance(one, Unknown):
            if one.integer and not isinstance(other, Unknown) and other not in INTEGERS:
                self.refuse(node, f"a number is {other}")
            if isinstance(other, Unknown) and one.integer:
                other.integer = True
            one.is_ = other
            return other
        if isinstance(one, tuple) and isinstance(other, tuple) and one[0] == other[0] and len(one) == len(other):
            return compound(one[0], *(self.unify(node, a, b) for a, b in zip(one[1:], other[1:])))
        self.refuse(node, f"{one} is not {other}")

    def known(self, type_: Type) -> Type:
        return self.crate.known(type_, self.owner)

    # -- names
    def find(self, name: str) -> Local | None:
        for scope in reversed(self.scopes):
            if name in scope:
                return scope[name]
        return None

    def bind(self, node: Variable | Rest, type_: Type, mode: str | None = None) -> None:
        node.local = self.declare(node, node.name, type_, mode)

    def declare(self, node: Node, name: str, type_: Type, mode: str | None) -> Local:
        if name in self.crate.consts or name in self.crate.variants or name in BUILTIN - {"self"}:
            self.refuse(node, f"the variable {name}")
        self.scopes[-1][name] = Local(name, type_, mode)
        return self.scopes[-1][name]

    def scoped(self, run: Callable[[], T]) -> T:
        self.scopes.append({})
        result = run()
        self.scopes.pop()
        return result
