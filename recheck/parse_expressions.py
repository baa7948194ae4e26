# SPDX-License-Identifier: Apache-2.0 OR BSD-3-Clause
"""Reads expressions and statements of Rust."""
from parse_patterns import PatternParser
from rust_expressions import (
    Arm, Array, Assign, Binary, Block, Boolean, Call, Cast, Closure, Deref, Done, Field, For, If, Index, Integer, Let,
    Match, Method, Name, Not, Part, PathName, Record, Ref, RefMut, Repeat, Return, Slice, Span, Statement, Try, TupleOf,
    UpTo, Value, While)
from rust_tokens import KEYWORDS
from rust_tree import AnyPattern, Expr, Variable

COMPARISONS = ["==", "!=", "<", ">", "<=", ">="]
BINARY = [["||"], ["&&"], COMPARISONS, ["|"], ["^"], ["&"], ["<<", ">>"], ["+", "-"], ["*", "/", "%"]]
LEVELS = {operator: level for level, operators in enumerate(BINARY) for operator in operators}
ASSIGNING = {"=", "|=", "&=", "^=", "+=", "-=", "*=", "/=", "%="}


class ExpressionParser(PatternParser):
    # -- statements
    def block(self) -> Block:
        line = self.line()
        self.eat("{")
        found: list[Statement] = []
        while not self.has("}"):
            found.append(self.statement())
        if any(isinstance(statement, Value) for statement in found[:-1]):
            self.refuse("a value that is not last in its block")
        return Block(line, found)

    def statement(self) -> Statement:
        line = self.line()
        if self.has("let"):
            pattern = self.pattern()
            given = self.type() if self.has(":") else None
            self.eat("=")
            value = self.expression()
            self.eat(";")
            return Let(line, pattern, given, value)
        if self.has("for"):
            variable = Variable(line, self.name())
            self.eat("in")
            low = self.binary(3, False)
            self.eat("..")
            return For(line, variable, low, self.binary(3, False), self.block())
        if self.has("while"):
            self.eat("let")
            pattern = self.pattern()
            self.eat("=")
            return While(line, pattern, self.expression(False), self.block())
        if self.next in ("if", "match", "{"):
            value = self.primary(True)
            if self.next in (".", "?"):
                self.refuse("a call on a block")
            if self.has(";"):
                return Done(line, value)
            return Value(line, value) if self.next == "}" else Done(line, value)
        if self.next in KEYWORDS - {"self", "Self", "return", "true", "false"}:
            self.refuse("a statement")
        value = self.assigning()
        if self.has(";"):
            return Done(line, value)
        if self.next != "}":
            self.eat(";")
        return Value(line, value)

    def assigning(self) -> Expr:
        line, value = self.line(), self.expression()
        if self.next in ASSIGNING:
            operator = self.next
            self.at += 1
            return Assign(line, value, operator[:-1], self.expression())
        return value

    # -- expressions; `records` is whether `Name {` is a struct here
    def expression(self, records: bool = True) -> Expr:
        return self.binary(0, records)

    def binary(self, level: int, records: bool) -> Expr:
        """With the operators of this level of BINARY, and of those after it, which bind closer."""
        line, left, previous = self.line(), self.cast(records), ""
        while LEVELS.get(self.next, -1) >= level and self.tokens[self.at].kind == "sign":
            operator = self.next
            self.at += 1
            if previous in COMPARISONS and operator in COMPARISONS:
                self.refuse("a comparison of a comparison")
            right = self.binary(LEVELS[operator] + 1, records)
            left = self.shift(line, left, right) if operator in ("<<", ">>") else Binary(line, operator, left, right)
            previous = operator
        return left

    def shift(self, line: int, left: Expr, right: Expr) -> Expr:
        """Only of a literal by a literal, which is a number that the type can hold."""
        if not isinstance(left, Integer) or not isinstance(right, Integer) or left.suffix or right.suffix:
            self.refuse("a shift")
        return Integer(line, left.value << right.value, None)

    def cast(self, records: bool) -> Expr:
        line, value = self.line(), self.unary(records)
        while self.has("as"):
            value = Cast(line, value, self.type())
        return value

    def unary(self, records: bool) -> Expr:
        line = self.line()
        if self.has("!"):
            return Not(line, self.unary(records))
        if self.has("*"):
            return Deref(line, self.unary(records))
        if self.has("&"):
            return RefMut(line, self.unary(records)) if self.has("mut") else Ref(line, self.unary(records))
        if self.next in ("-", "&&", "|", "||", ".."):
            self.refuse("an expression")
        return self.postfix(records)

    def postfix(self, records: bool) -> Expr:
        value = self.primary(records)
        while True:
            line = self.line()
            if self.has("."):
                value = self.member(line, value)
            elif self.has("?"):
                value = Try(line, value)
            elif self.has("["):
                low = None if self.next == ".." else self.expression()
                if self.has(".."):
                    value = Slice(line, value, low, None if self.next == "]" else self.expression())
                else:
                    assert low
                    value = Index(line, value, low)
                self.eat("]")
            elif self.next == "(":
                self.refuse("a call of a value")
            else:
                return value

    def member(self, line: int, value: Expr) -> Expr:
        if self.next in ("0", "1"):
            self.at += 1
            return Part(line, value, int(self.peek(-1)))
        name = self.name()
        if self.next == "::":
            self.refuse("type arguments")
        return Method(line, value, name, self.until(")", self.argument)) if self.has("(") else Field(line, value, name)

    def argument(self) -> Expr:
        line = self.line()
        if self.has("|"):
            parameter = self.one_pattern()
            self.eat("|")
            return Closure(line, parameter, self.expression())
        return UpTo(line, self.expression()) if self.has("..") else self.expression()

    def primary(self, records: bool) -> Expr:
        token, line = self.tokens[self.at], self.line()
        if token.kind == "number" or token.text in ("true", "false"):
            return self.literal()
        if token.kind == "bytes":
            self.at += 1
            return Array(line, [Integer(line, code, "u8") for code in token.text[2:-1].encode()])
        if token.text == "{":
            return self.block()
        if self.has("("):
            return self.in_brackets(line)
        if self.has("["):
            return self.array(line)
        if self.has("return"):
            return Return(line, None if self.next in (";", "}", ",") else self.expression())
        if self.has("if"):
            return self.if_(line)
        if self.has("match"):
            value, arms = self.expression(False), []
            self.eat("{")
            while not self.has("}"):
                arms.append(self.arm())
            return Match(line, value, arms)
        return self.named(line, records)

    def named(self, line: int, records: bool) -> Expr:
        """What begins with a name."""
        if self.has("self"):
            return Name(line, "self")
        if self.next in self.renamed:
            self.at += 1
            return Name(line, self.renamed[self.peek(-1)][-1])
        path = self.path()
        if self.has("!"):
            return self.macro(path, line)
        if self.has("("):
            return Call(line, path, self.until(")", self.argument))
        if records and self.next == "{" and path[-1][0].isupper():
            return Record(line, path, self.braced(self.given_field))
        return Name(line, path[0]) if len(path) == 1 else PathName(line, path)

    def in_brackets(self, line: int) -> Expr:
        parts: list[Expr] = []
        while not self.has(")"):
            parts.append(self.expression())
            if len(parts) == 1 and self.has(".."):
                high = self.expression()
                self.eat(")")
                return Span(line, parts[0], high)
            if len(parts) == 1 and self.has(")"):
                return parts[0]
            if self.next != ")":
                self.eat(",")
        return TupleOf(line, parts)

    def array(self, line: int) -> Expr:
        parts: list[Expr] = []
        while not self.has("]"):
            parts.append(self.expression())
            if len(parts) == 1 and self.has(";"):
                count = self.expression()
                self.eat("]")
                return Repeat(line, parts[0], count)
            if self.next != "]":
                self.eat(",")
        return Array(line, parts)

    def if_(self, line: int) -> Expr:
        pattern = None
        if self.has("let"):
            pattern = self.pattern()
            self.eat("=")
        condition, then = self.expression(False), self.block()
        other: Expr = Block(line, [])
        if self.has("else"):
            at = self.line()
            other = self.if_(at) if self.has("if") else self.block()
        if pattern:
            return Match(line, condition, [Arm(line, pattern, None, then), Arm(line, AnyPattern(line), None, other)])
        return If(line, condition, then, other)

    def arm(self) -> Arm:
        line, pattern = self.line(), self.pattern()
        guard = self.expression() if self.has("if") else None
        self.eat("=>")
        if self.next in ("if", "match", "{"):
            body = self.primary(True)
            if self.next not in (",", "}") and self.tokens[self.at].kind == "sign" and self.next not in ("[", "("):
                self.refuse("a block that goes on")
            self.has(",")
        else:
            body = self.assigning()
            if self.next != "}":
                self.eat(",")
        return Arm(line, pattern, guard, body)

    def macro(self, path: list[str], line: int) -> Expr:
        if path != ["matches"]:
            self.refuse(f"the macro {'::'.join(path)}")
        self.eat("(")
        value = self.expression()
        self.eat(",")
        pattern = self.pattern()
        self.has(",")
        self.eat(")")
        return Match(line, value, [Arm(line, pattern, None, Boolean(line, "true")),
                                   Arm(line, AnyPattern(line), None, Boolean(line, "false"))])

    def given_field(self) -> tuple[str, Expr]:
        line, name = self.line(), self.name()
        return name, self.expression() if self.has(":") else Name(line, name)
