# SPDX-License-Identifier: Apache-2.0 OR BSD-3-Clause
"""The tree of a Rust file: expressions, calls and statements."""
from dataclasses import dataclass, field

from rust_tree import Expr, Local, Node, Pattern, Type, Variable


@dataclass(eq=False)
class Integer(Expr):
    value: int
    suffix: str | None


@dataclass(eq=False)
class Boolean(Expr):
    value: str


@dataclass(eq=False)
class Name(Expr):
    """A variable, a constant or `None`."""
    name: str
    local: Local | None = field(init=False, default=None)


@dataclass(eq=False)
class PathName(Expr):
    path: list[str]


@dataclass(eq=False)
class Ref(Expr):
    value: Expr


@dataclass(eq=False)
class RefMut(Expr):
    value: Expr


@dataclass(eq=False)
class Deref(Expr):
    value: Expr


@dataclass(eq=False)
class Not(Expr):
    value: Expr


@dataclass(eq=False)
class Field(Expr):
    value: Expr
    name: str


@dataclass(eq=False)
class Part(Expr):
    """`pair.0`"""
    value: Expr
    at: int


@dataclass(eq=False)
class Try(Expr):
    value: Expr


@dataclass(eq=False)
class Index(Expr):
    value: Expr
    index: Expr


@dataclass(eq=False)
class Slice(Expr):
    value: Expr
    low: Expr | None
    high: Expr | None

    def ends(self) -> list[Expr]:
        return [end for end in (self.low, self.high) if end]


@dataclass(eq=False)
class Cast(Expr):
    value: Expr
    to: Type


@dataclass(eq=False)
class Binary(Expr):
    operator: str
    left: Expr
    right: Expr
    operands: Type = field(init=False, repr=False)


@dataclass(eq=False)
class TupleOf(Expr):
    parts: list[Expr]


@dataclass(eq=False)
class Array(Expr):
    parts: list[Expr]


@dataclass(eq=False)
class Repeat(Expr):
    value: Expr
    count: Expr


@dataclass(eq=False)
class Record(Expr):
    path: list[str]
    fields: list[tuple[str, Expr]]
    name: str = field(init=False, repr=False)


@dataclass(eq=False)
class Return(Expr):
    value: Expr | None


@dataclass(eq=False)
class If(Expr):
    condition: Expr
    then: Expr
    other: Expr


@dataclass(eq=False)
class Arm(Node):
    pattern: Pattern
    guard: Expr | None
    body: Expr


@dataclass(eq=False)
class Match(Expr):
    value: Expr
    arms: list[Arm]


@dataclass(eq=False)
class Assign(Expr):
    """`operator` is `+` of `+=`, and empty of `=`. `sum` is what is assigned then."""
    place: Expr
    operator: str
    value: Expr
    sum: Binary | None = field(init=False, default=None)


@dataclass(eq=False)
class Closure(Expr):
    parameter: Pattern
    body: Expr


@dataclass(eq=False)
class UpTo(Expr):
    """`..high`, an argument"""
    high: Expr


@dataclass(eq=False)
class Span(Expr):
    """`(low..high)`"""
    low: Expr
    high: Expr


# ---- calls, and what each is found to be

class Meaning:
    """What a call is."""


@dataclass(eq=False)
class Invoke(Meaning):
    """A function of the crate, and how its arguments are passed."""
    key: str
    arguments: list[Expr]
    modes: list[str | None]


@dataclass(eq=False)
class Make(Meaning):
    """A variant with a value, by its name in Coq."""
    variant: str


@dataclass(eq=False)
class Convert(Meaning):
    """`u32::from(..)` and `u32::from_le_bytes(..)` of a value of this type"""
    of: Type


@dataclass(eq=False)
class Library(Meaning):
    """A method of the library, on a value of this type."""
    of: Type


@dataclass(eq=False)
class Copy(Meaning):
    """`target[ends].copy_from_slice(bytes)`"""
    target: Expr
    ends: Slice | None


@dataclass(eq=False)
class Replace(Meaning):
    """`replace(&mut place, value)` of the library"""
    place: Expr
    value: Expr


@dataclass(eq=False)
class Ask(Meaning):
    """A call of an object, or a question for the time, by its name in Coq"""
    question: str
    arguments: list[Expr]


@dataclass(eq=False)
class Call(Expr):
    path: list[str]
    arguments: list[Expr]
    meaning: Meaning | None = field(init=False, default=None)


@dataclass(eq=False)
class Method(Expr):
    value: Expr
    name: str
    arguments: list[Expr]
    meaning: Meaning | None = field(init=False, default=None)


# ---- statements

@dataclass(eq=False)
class Statement(Node):
    pass


@dataclass(eq=False)
class Let(Statement):
    pattern: Pattern
    given: Type | None
    value: Expr


@dataclass(eq=False)
class For(Statement):
    variable: Variable
    low: Expr
    high: Expr
    body: "Block"


@dataclass(eq=False)
class While(Statement):
    """`while let pattern = value { body }`"""
    pattern: Pattern
    value: Expr
    body: "Block"


@dataclass(eq=False)
class Done(Statement):
    """An expression whose value nobody takes."""
    value: Expr


@dataclass(eq=False)
class Value(Statement):
    """The value of a block."""
    value: Expr


@dataclass(eq=False)
class Block(Expr):
    statements: list[Statement]
