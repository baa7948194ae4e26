# SPDX-License-Identifier: Apache-2.0 OR BSD-3-Clause
"""The functions of Rattle's and Rust's sources, with their clauses."""
import re
from dataclasses import dataclass
from functools import lru_cache

# What is no code: comments, strings, characters.
NO_CODE = re.compile(r'//[^\n]*|/\*.*?\*/|r(#*)".*?"\1|"(?:\\.|[^"\\])*"|\'(?:\\.|[^\'\\\n])\'', re.S)
BLOCK = re.compile(r"^ *(?:pub )?(?:unsafe )?(impl|trait)\b([^{;]*)\{", re.M)
HEAD = re.compile(r"(\bpub (?:const |unsafe |extern +)*)?\bfn (\w+)")
# What follows a head: a clause, or else the body or what stands in its place.
CLAUSE_OR_BODY = re.compile(r"\b(requires|ensures)(\*?)\s*(\w*)\s*\{|\{|;$", re.M)
NESTED = re.compile(r"<[^<>]*>")


@dataclass(frozen=True)
class Function:
    """A function of a source: its path, whether a user of the crate can call it, the header of its `impl`, where it
    begins and ends, and the names of its clauses, which may be empty. The main clause is the one that a goal is about
    which names none: the only one, or else the only one with a star."""
    path: tuple
    is_public: bool
    header: str
    start: int
    end: int
    has_body: bool
    clauses: tuple
    main_clause: str

    @property
    def name(self):
        return self.path[-1]

    def lines(self, text):
        """The first and last line, with the attributes and comments above the head."""
        above = re.search(r"(?:^ *(?:#\[|//).*\n)*\Z", text[:text.rfind("\n", 0, self.start) + 1], re.M)
        return text.count("\n", 0, above.start()) + 1, text.count("\n", 0, self.end) + 1

    def is_named(self, path):
        """Whether `path` is the end of this function's path. It may leave out the modules between."""
        rest = iter(self.path[:-1])
        return self.path[-1] == path[-1] and all(part in rest for part in path[:-1])

    def __str__(self):
        return "::".join(self.path)


def code_of(text):
    """A source with blanks in place of all that is no code."""
    return NO_CODE.sub(lambda found: "\n".join([" " * len(line) for line in found[0].split("\n")]), text)


def without_generics(text):
    """A piece of code without what stands in angle brackets."""
    while NESTED.search(text):
        text = NESTED.sub("", text)
    return text


def end_of_braces(code, at):
    """The place after the brace that closes the one at a place."""
    depth = 0
    for brace in re.compile("[{}]").finditer(code, at):
        depth += 1 if brace[0] == "{" else -1
        if depth == 0:
            return brace.end()
    return len(code)


def owner_of(header):
    """The type whose functions a block with this header has."""
    words = without_generics(header.replace("->", "")).split()
    return re.sub(r"\W.*", "", words[words.index("for") + 1] if "for" in words else words[0])


@lru_cache(maxsize=None)   # several tests ask for the same while they are collected, in each process of a run
def functions_of(text):
    """The functions of a source, in the order of their heads."""
    return tuple(found_functions(text))


def found_functions(text):
    code = code_of(text)
    blocks = [(found.start(), end_of_braces(code, found.end() - 1), *found.groups()) for found in BLOCK.finditer(code)]
    for head in HEAD.finditer(code):
        clauses, at = [], head.end()
        while (found := CLAUSE_OR_BODY.search(code, at)) and found[1]:
            at = end_of_braces(code, found.end() - 1)
            clauses += [(found[2], found[3])] if found[1] == "ensures" else []
        has_body = bool(found) and found[0] == "{"
        end = end_of_braces(code, found.start()) if has_body else found.start() if found else len(code)
        kind, header = next((block[2:] for block in reversed(blocks) if block[0] <= head.start() < block[1]), ("", ""))
        is_public = bool(head[1] or kind == "trait" or " for " in header)
        path = (owner_of(header), head[2]) if header else (head[2],)
        names, starred = [name for _, name in clauses], [name for star, name in clauses if star]
        main = names[0] if len(names) == 1 else starred[0] if len(starred) == 1 else ""
        header = header if kind == "impl" else ""
        yield Function(path, is_public, header, head.start(), end, has_body, tuple(names), main)
