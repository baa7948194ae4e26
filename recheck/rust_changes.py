# SPDX-License-Identifier: Apache-2.0 OR BSD-3-Clause
"""Which variables a part of a function changes."""
from typing import Iterator

from rust_expressions import Assign, Call, Copy, Field, Index, Invoke, Method, Name, Ref, RefMut, Replace, Slice
from rust_tree import Local, Node


def root(place: Node) -> Local:
    """The variable that a place is in."""
    while not isinstance(place, Name):
        assert isinstance(place, (Field, RefMut, Ref, Index, Slice)), place
        place = place.value
    assert place.local
    return root(place.local.place) if place.local.mode == "view" and place.local.place else place.local


def roots(node: Node) -> Iterator[Local]:
    """The variables that it changes."""
    for part in node.walk():
        if isinstance(part, Assign):
            yield root(part.place.value if isinstance(part.place, Index) else part.place)
        elif isinstance(part, (Call, Method)):
            meaning = part.meaning
            if isinstance(meaning, Copy):
                yield root(meaning.target)
            elif isinstance(meaning, Replace):
                yield root(meaning.place)
            elif isinstance(meaning, Invoke):
                yield from (root(argument) for argument, mode in zip(meaning.arguments, meaning.modes) if mode == "mut")


def changes(node: Node) -> bool:
    return next(roots(node), None) is not None
