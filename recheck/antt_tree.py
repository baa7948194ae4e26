# SPDX-License-Identifier: Apache-2.0 OR BSD-3-Clause
"""The trees of terms of definitions."""
from dataclasses import dataclass, fields, is_dataclass
from typing import Container


class Refused(Exception):
    """The source has something that the translator does not know."""


@dataclass(frozen=True)
class Number:
    value: int


@dataclass(frozen=True)
class Name:
    text: str


@dataclass(frozen=True)
class Apply:
    head: "Term"
    arguments: tuple["Term", ...]


@dataclass(frozen=True)
class Operation:
    operator: str
    left: "Term"
    right: "Term"


@dataclass(frozen=True)
class Binder:
    """`(a b : T)`, or with braces if it is hidden. In a lambda there may be no type."""
    names: tuple[str, ...]
    type: "Term | None"
    is_hidden: bool = False


@dataclass(frozen=True)
class Pi:
    """A function's type. Without a name for what it is given, the binder's only name is `_`."""
    binder: Binder
    body: "Term"


@dataclass(frozen=True)
class Sigma:
    binder: Binder
    body: "Term"


@dataclass(frozen=True)
class Lambda:
    binders: tuple[Binder, ...]
    body: "Term"


@dataclass(frozen=True)
class Let:
    name: str
    type: "Term | None"
    value: "Term"
    body: "Term"


@dataclass(frozen=True)
class If:
    condition: "Term"
    then: "Term"
    other: "Term"


@dataclass(frozen=True)
class Tuple:
    parts: tuple["Term", ...]


@dataclass(frozen=True)
class Field:
    owner: "Term"
    name: str


@dataclass(frozen=True)
class Fields:
    """A record: `base` with these fields changed, or a new record."""
    base: "Term | None"
    given: tuple[tuple[str, "Term"], ...]


Term = Number | Name | Apply | Operation | Pi | Sigma | Lambda | Let | If | Tuple | Field | Fields
IGNORED = Name("_")


def type_of(binder: Binder) -> Term:
    """The type of a binder that has one, as all have outside a lambda."""
    if binder.type is None:
        raise Refused(f"{' '.join(binder.names)} without a type")
    return binder.type


def mentions(part: object, names: Container[str]) -> bool:
    """Whether one of these names is in a term."""
    if isinstance(part, Name):
        return part.text in names
    if isinstance(part, tuple):
        return any(mentions(one, names) for one in part)
    return is_dataclass(part) and any(mentions(getattr(part, field.name), names) for field in fields(part))
