# SPDX-License-Identifier: Apache-2.0 OR BSD-3-Clause
"""The tree of a Rust file: items."""
from dataclasses import dataclass, field
from pathlib import Path
from typing import Any, ClassVar, Optional, Tuple

from rust_expressions import Block
from rust_tree import Expr, Local, Node, Type

Parameter = Tuple[str, Type, Optional[str]]   # its name, its type, and how it is passed: see Local


@dataclass(eq=False)
class Item(Node):
    public: bool = field(init=False, default=False)


@dataclass(eq=False)
class TypeItem(Item):
    """A struct or an enum. `generics` are the type variables, each with its bound."""
    name: str
    doc: list[str]
    derived: set[str]
    generics: dict[str, str]
    members: list[tuple[str, Any]]   # fields or variants with the type of what they hold, which a variant may not have


@dataclass(eq=False)
class Struct(TypeItem):
    kind: ClassVar[str] = "struct"

    @property
    def fields(self) -> list[tuple[str, Type]]:
        return self.members


@dataclass(eq=False)
class Enum(TypeItem):
    kind: ClassVar[str] = "enum"

    @property
    def variants(self) -> list[tuple[str, Optional[Type]]]:
        return self.members


@dataclass(eq=False)
class Const(Item):
    name: str
    value_type: Type
    value: Expr
    doc: list[str]
    file: Path


@dataclass(eq=False)
class Function(Item):
    """`text` are its words from its name on. `header` is the type of its `impl`."""
    name: str
    owner: str | None
    bounds: dict[str, str]
    parameters: list[Parameter]
    result: Type
    doc: list[str]
    file: Path
    body: Block | None = field(init=False, default=None)
    text: str = field(init=False, default="")
    header: Type = field(init=False, default="")
    locals: list[Local] = field(init=False, default_factory=list)


@dataclass(eq=False)
class Trait(Item):
    name: str
    methods: list[Function]


@dataclass(eq=False)
class Impl(Item):
    """`associated` is the type that it gives for the type `E` of its trait."""
    generics: dict[str, str]
    trait: str | None
    header: Type
    methods: list[Function]
    associated: Type | None = field(init=False, default=None)

    @property
    def owner(self) -> str:
        """The type without its arguments."""
        return str(self.header[1] if isinstance(self.header, tuple) else self.header)
