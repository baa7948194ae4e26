# SPDX-License-Identifier: Apache-2.0 OR BSD-3-Clause
"""Resolves the paths of `use`, as rustc does: through modules, and through what they bring in from elsewhere."""
from pathlib import Path
from typing import Iterable, Mapping, Sequence

Module = tuple[str, ...]   # the names on the way from the root of its crate
Found = tuple["Paths", Module, "str | None"]


class Paths:
    """The modules of a crate, each with its items, by what a path from the root says. `others` are the crates, each
    with the name under which all modules of this crate reach it."""
    def __init__(self, others: Mapping[str, "Paths"] | None = None) -> None:
        self.items: dict[Module, set[str]] = {(): set()}
        self.uses: dict[Module, list[tuple[list[str], str]]] = {(): []}
        self.others = dict(others or {})

    def add(self, module: Module, items: Iterable[str], uses: list[tuple[list[str], str]]) -> None:
        self.items[module] = set(items)
        self.uses[module] = uses

    def resolve(self, module: Module, path: Sequence[str], depth: int = 0) -> Found | None:
        """The crate, the module and the name of the item at this path, or of the module itself without a name."""
        if depth > 20:
            return None
        start, rest = module, list(path)
        if path[0] == "crate":
            start, rest = (), rest[1:]
        elif path[0] == "self":
            rest = rest[1:]
        while path[0] == "super" and rest and rest[0] == "super":
            if not start:
                return None
            start, rest = start[:-1], rest[1:]
        place: Found | None = (self, start, None)
        for name in rest:
            if not place or place[2]:
                return None
            place = place[0].step(place[1], name, depth + 1)
        return place

    def step(self, module: Module, name: str, depth: int = 0) -> Found | None:
        """What a module has under this name: one of its own, or what it brings in."""
        if (*module, name) in self.items:
            return self, (*module, name), None
        if name in self.items[module]:
            return self, module, name
        if not module and name in self.others:
            return self.others[name], (), None
        for path, brought in self.uses[module]:
            if brought == name and path != [name]:
                return self.resolve(module, path, depth)
        for path, _ in self.uses[module]:
            if path[-1] == "*" and path[0] != name:
                source = self.resolve(module, path[:-1], depth)
                found = source[0].step(source[1], name, depth + 1) if source and not source[2] and depth < 20 else None
                if found:
                    return found
        return None


def module_of(file: Path) -> Module:
    """The module that a file is."""
    return file.parent.parts if file.name in ("mod.rs", "lib.rs") else (*file.parent.parts, file.stem)
