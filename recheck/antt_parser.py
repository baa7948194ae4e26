# SPDX-License-Identifier: Apache-2.0 OR BSD-3-Clause
"""Reads files of definitions: their blocks, and the tokens and terms of a block."""
import re
from typing import NoReturn

from antt_tree import (Apply, Binder, Field, Fields, If, Lambda, Let, Name, Number, Operation, Pi, Refused, Sigma, Term,
                       Tuple)

# Each operator with its precedence and its associativity, as the language's library gives them.
OPERATORS = {"→": (-1, "r"), "↔": (0, ""), "⊎": (1, "r"), "×": (2, "r"), "≡": (4, ""), "||": (30, "l"), "&&": (35, "l"),
             "==": (40, ""), "≤": (50, ""), "<": (50, ""), "+": (65, "l"), "-": (65, "l"), "+ℤ": (65, "l"),
             "-ℤ": (65, "l"), "++": (65, "l"), "∷": (67, "r"), "*": (70, "l"), "/": (70, "l"), "%": (70, "l"),
             "^": (75, "r")}
NAME = r"[A-Za-z_ℕℤ⊤⊥][A-Za-z0-9_'ℕℤ]*"
TOKEN = re.compile(rf"""\s+ | (?P<number>0x[0-9A-F]+|[0-9]+)(?![\w']) | (?P<name>{NAME}(?:\.(?:{NAME}|[0-9]+))*)
    | (?P<field>\.(?:{NAME}|[0-9]+)) | (?P<empty>\[\]) 
    | (?P<sign>\+\+|\+ℤ|-ℤ|==|\|\||&&|[→↔⊎×≡≤<∷+\-*/%^λ(){{}},;:=.])""", re.X)
ENDS = {")", "}", ",", ";", "=", ":", "."}
WORDS = {"then", "else", "in", "if", "let", "record", "where"}
NO_ATOM = WORDS - {"record"}
Token = tuple[str, str]         # its kind, and its text
Block = tuple[list[str], list[str]]  # the comment above it, and its lines


def blocks(lines: list[str]) -> list[Block]:
    """The blocks of a file. A block begins at the left margin."""
    found: list[Block] = []
    comment: list[str] = []
    for line in lines:
        if line.startswith("--"):
            comment.append(line[2:].strip())
        elif not line.strip():
            comment = []
        else:
            text = line.partition("--")[0].rstrip()  # no string of a definition that is translated has a comment's sign
            if text and text[0] not in " }":
                found.append((comment, [text]))
                comment = []
            elif text:
                found[-1][1].append(text)
    return found


def tokens(text: str) -> list[Token]:
    found, at = [], 0
    while at < len(text):
        match = TOKEN.match(text, at)
        if not match:
            raise Refused(f"{text[at:at + 30]!r}")
        if match.lastgroup:
            if match.lastgroup == "name" and re.search(r"'[0-9]", match.group()):
                raise Refused(f"the name {match.group()}")
            found.append((match.lastgroup, match.group()))
        at = match.end()
    return found


class Parser:
    """Reads terms from a text."""
    def __init__(self, text: str) -> None:
        self.tokens, self.at = [*tokens(text), ("end", "")], 0

    @property
    def next(self) -> str:
        return self.tokens[self.at][1]

    def refuse(self, what: str) -> NoReturn:
        raise Refused(f"{what}: {' '.join(text for _, text in self.tokens[self.at:self.at + 8])}")

    def has(self, text: str) -> bool:
        if self.next == text and self.tokens[self.at][0] != "end":
            self.at += 1
            return True
        return False

    def eat(self, text: str) -> None:
        if not self.has(text):
            self.refuse(f"{text} expected")

    def name(self) -> str:
        kind, text = self.tokens[self.at]
        if kind != "name" or "." in text or text in WORDS:
            self.refuse("a name expected")
        self.at += 1
        return text

    def binder(self) -> Binder | None:
        """`(a b : T)` or `{a b : T}`, or None if none is ahead."""
        close = {"(": ")", "{": "}"}.get(self.next)
        if not close:
            return None
        ahead = self.at + 1
        while self.tokens[ahead][0] == "name":
            ahead += 1
        if ahead == self.at + 1 or self.tokens[ahead][1] != ":":
            return None
        self.at += 1
        names = []
        while not self.has(":"):
            names.append(self.name())
        type_ = self.term()
        self.eat(close)
        return Binder(tuple(names), type_, close == "}")

    def binders(self) -> list[Binder]:
        found = []
        while binder := self.binder():
            found.append(binder)
        return found

    def term(self, precedence: int = -1) -> Term:
        if binder := self.binder():
            return self.after_binder(binder, precedence)
        if self.has("λ"):
            parameters = []
            while not self.has("."):
                parameters.append(self.binder() or Binder((self.name(),), None))
            return Lambda(tuple(parameters), self.term())
        if self.has("let"):
            return self.let()
        if self.has("if"):
            condition = self.term()
            self.eat("then")
            then = self.term()
            self.eat("else")
            return If(condition, then, self.term())
        return self.operation(precedence)

    def after_binder(self, binder: Binder, precedence: int) -> Term:
        """A binder is followed by another, by an arrow, or by × in a pair whose second type may name the first part."""
        if self.is_at_binder():
            return Pi(binder, self.term(precedence))
        operator = self.next
        if operator not in ("→", "×") or precedence > OPERATORS[operator][0]:
            self.refuse("a binder")
        self.at += 1
        body = self.term(OPERATORS[operator][0])
        return Pi(binder, body) if operator == "→" else Sigma(binder, body)

    def is_at_binder(self) -> bool:
        start = self.at
        found = self.binder() is not None
        self.at = start
        return found

    def let(self) -> Term:
        name, type_ = self.name(), self.term() if self.has(":") else None
        self.eat("=")
        value = self.term()
        self.eat("in")
        return Let(name, type_, value, self.term())

    def operation(self, precedence: int) -> Term:
        left, previous = self.application(), None
        while self.next in OPERATORS and OPERATORS[self.next][0] >= precedence:
            operator = self.next
            level, associates = OPERATORS[operator]
            if level == previous and associates != "l":
                self.refuse("two operators that do not associate")
            self.at += 1
            right = self.term(level if associates == "r" else level + 1)
            left = Pi(Binder(("_",), left), right) if operator == "→" else Operation(operator, left, right)
            previous = level
        return left

    def application(self) -> Term:
        head, arguments = self.atom(), []
        while self.tokens[self.at][0] != "end" and self.next not in OPERATORS and self.next not in ENDS | NO_ATOM:
            arguments.append(self.atom())
        return Apply(head, tuple(arguments)) if arguments else head

    def atom(self) -> Term:
        kind, text = self.tokens[self.at]
        found: Term
        if kind == "number":
            self.at += 1
            return Number(int(text, 0))
        if kind == "empty":
            self.at += 1
            return Name("[]")
        if self.has("("):
            found = self.parenthesis()
        elif self.has("record"):
            found = self.record()
        elif kind == "name" and text not in NO_ATOM:
            self.at += 1
            head, *fields = text.split(".")
            found = Name(head)
            for field in fields:
                found = Field(found, field)
        else:
            self.refuse("a term")
        while self.tokens[self.at][0] == "field":
            found = Field(found, self.next[1:])
            self.at += 1
        return found

    def parenthesis(self) -> Term:
        parts = [self.term()]
        while self.has(","):
            parts.append(self.term())
        self.eat(")")
        return parts[0] if len(parts) == 1 else Tuple(tuple(parts))

    def record(self) -> Term:
        base = None if self.next == "{" else self.atom()
        self.eat("{")
        fields = []
        while not self.has("}"):
            name = self.name()
            self.eat("=")
            fields.append((name, self.term()))
            if self.next != "}":
                self.eat(";")
        return Fields(base, tuple(fields))

    def all(self) -> Term:
        """A term that is all that is left."""
        found = self.term()
        if self.tokens[self.at][0] != "end":
            self.refuse("more than a term")
        return found


def parsed(text: str) -> Term:
    return Parser(text).all()
