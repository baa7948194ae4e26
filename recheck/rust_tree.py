# SPDX-License-Identifier: Apache-2.0 OR BSD-3-Clause
"""The tree of a Rust file: what all nodes have, types and patterns."""
import re
from dataclasses import dataclass, field
from typing import Any, Iterable, Iterator, Optional, Tuple, Union

WIDTHS = {"u8": 8, "u16": 16, "u32": 32, "u64": 64, "usize": 32}  # usize: at least
INTEGERS = {*WIDTHS, "i64"}


class Unknown:
    """A type that is not known yet, of a literal or of an empty `None`."""
    def __init__(self, integer: bool) -> None:
        self.is_: Optional[Type] = None
        self.integer = integer

    def __repr__(self) -> str:
        return "a number" if self.integer else "a type"


# `bool`, `u8`, a name of a type; or a word and types: ("option", one), ("result", one, other), ("list", one),
# ("tuple", ..), ("of", name, ..) for a type with arguments, ("iterator", one), and ("never",) of what leaves a
# function.
Type = Union[str, Unknown, Tuple["Type", ...]]
UNIT: Type = ("tuple",)
NEVER: Type = ("never",)


def compound(head: Type, *parts: Type) -> Tuple[Type, ...]:
    """A type with parts."""
    found: Tuple[Type, ...] = (head, *parts)
    return found


class List(Tuple[Any, ...]):
    """The type of a slice, or of an array of this length. Both are lists: rustc has seen to the lengths."""
    length: "Optional[Expr]"

    def __new__(cls, item: Type, length: "Optional[Expr]") -> "List":
        parts: tuple[Any, ...] = ("list", item)
        new = super().__new__(cls, parts)
        new.length = length
        return new


@dataclass(eq=False)
class Node:
    """A part of a tree."""
    line: int

    def walk(self) -> "Iterator[Node]":
        """It and all nodes in it."""
        yield self
        yield from walk(vars(self).values())

    @property
    def form(self) -> str:
        """What a message calls it."""
        return re.sub(r"(?<!^)(?=[A-Z])", " ", type(self).__name__).lower()


def walk(values: Iterable[object]) -> Iterator[Node]:
    for value in values:
        if isinstance(value, Node):
            yield from value.walk()
        elif isinstance(value, (list, tuple)) and not isinstance(value, List):
            yield from walk(value)


@dataclass(eq=False)
class Expr(Node):
    """Its type is found later, when names are resolved, as all that is `init=False`."""
    type: Type = field(init=False, repr=False)


@dataclass(eq=False)
class Local:
    """A variable. `mode` is `mut` for a mutable reference, `own` if it may be changed, `borrowed` for a mutable
    reference to `place`, or `view` for one of two parts of an array, `place`, from `start` to `stop`."""
    name: str
    type: Type
    mode: str | None
    place: "Optional[Expr]" = None
    start: str = ""
    stop: str = ""


# ---- patterns

@dataclass(eq=False)
class Pattern(Node):
    pass


@dataclass(eq=False)
class AnyPattern(Pattern):
    """`_`, or `()`."""


@dataclass(eq=False)
class Variable(Pattern):
    """A new variable, or the name of a constant."""
    name: str
    changes: bool = False
    local: Local = field(init=False, repr=False)
    constant: "Optional[Expr]" = field(init=False, default=None)


@dataclass(eq=False)
class Rest(Pattern):
    """`name @ ..`"""
    name: str
    local: Local = field(init=False, repr=False)


@dataclass(eq=False)
class LiteralPattern(Pattern):
    value: Expr


@dataclass(eq=False)
class RangePattern(Pattern):
    low: Pattern
    high: Pattern


@dataclass(eq=False)
class Either(Pattern):
    choices: list[Pattern]


@dataclass(eq=False)
class VariantPattern(Pattern):
    path: list[str]
    inner: Pattern | None


@dataclass(eq=False)
class TuplePattern(Pattern):
    parts: list[Pattern]


@dataclass(eq=False)
class ListPattern(Pattern):
    parts: list[Pattern]


@dataclass(eq=False)
class RecordPattern(Pattern):
    path: list[str]
    parts: list[Variable]
