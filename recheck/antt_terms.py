# SPDX-License-Identifier: Apache-2.0 OR BSD-3-Clause
"""Terms and patterns of definitions, in Coq. Each has its text, and its type if that is known."""
from collections.abc import Callable, Iterable, Mapping
from dataclasses import dataclass, replace
from functools import reduce
from itertools import zip_longest
from typing import NamedTuple

import antt_tree as tree
from antt_modules import LIBRARY, Data, Definition, Entity, Module, Modules, Record, Variant, Word, telescope
from antt_tree import IGNORED, Name, Refused, Term, type_of
from antt_types import Global, Pair, Type, first_argument, record_of, resolved, unfolded
from coq_layout import parenthesized

OPERATOR = {"↔": "iff_type {} {}", "⊎": "sum {} {}", "×": "prod {} {}", "≡": "{} = {}", "≤": "{} <= {}", "<": "{} < {}",
            "||": "{} || {}", "&&": "{} && {}", "==": "{} =? {}", "∷": "{} :: {}", "++": "{} ++ {}", "+": "{} + {}",
            "-": "{} - {}", "+ℤ": "int_add {} {}", "-ℤ": "int_sub {} {}", "*": "{} * {}", "/": "{} / {}",
            "%": "{} mod {}", "^": "{} ^ {}"}
SAME_TYPE = {"take": 1, "drop": 1, "option_or": 0}  # the result has the type of this argument
CONSTRUCTORS = {"true", "false", "Some", "None", "pos", "negsuc", "[]"}
NOT_PATTERNS = ("zero", "suc", "tt", "refl", "Ok", "Err", "inl", "inr")
OF_COQ = set("""as at cofix else end exists exists2 fix for forall fun if IF in let match mod return Set Prop SProp Type
    then using where with int_add int_sub iff_type sum prod""".split())
OF_COQ |= {name for words in LIBRARY.values() for name in words.values()}


class Typed(NamedTuple):
    """A text of Coq, and its type."""
    coq: str
    type: Type = None

    @property
    def atom(self) -> str:
        return parenthesized(self.coq)


Variables = Mapping[str, Typed]


def part(pair: Typed, type_: Type, field: str) -> Typed:
    """`.0` or `.1` of a pair. The parts of three or more are not the parts of nested pairs"""
    if not isinstance(type_, Pair) or isinstance(type_.second, Pair) or field not in ("0", "1"):
        raise Refused(f".{field} of {pair.coq}")
    return Typed(f"fst {pair.atom}", type_.first) if field == "0" else Typed(f"snd {pair.atom}", type_.second)


@dataclass(frozen=True)
class Scope:
    """Where a term stands: its module and its variables. `name_of` gives the Coq name of something that is declared,
    and may first write its declaration."""
    modules: Modules
    name_of: Callable[[Entity | Word], str]
    module: Module
    variables: Variables

    def inside(self, variables: Variables) -> "Scope":
        return replace(self, variables={**self.variables, **variables})

    def variable(self, name: str) -> str:
        """A variable's name in Coq, where it must hide no other."""
        return name + "'0" if name in OF_COQ or name in self.modules.names else name

    def bound(self, names: Iterable[str], type_: Type) -> dict[str, Typed]:
        return {name: Typed(self.variable(name), type_) for name in names}

    def type(self, term: Term) -> Type:
        return resolved(self.modules, self.module, term, self.variables)

    # ---- terms

    def text(self, term: Term, want: Type = None) -> str:
        return self.term(term, want).coq

    def atom(self, term: Term, want: Type = None) -> str:
        return self.term(term, want).atom

    def term(self, term: Term, want: Type = None) -> Typed:
        """`want` is the type that it has to have, for a record that does not say its own."""
        match term:
            case tree.Number(value):
                return Typed(str(value))
            case Name(name):
                return self.variables.get(name) or self.name(name)
            case tree.Apply(head, arguments):
                return self.apply(head, arguments)
            case tree.Operation(operator, left, right):
                return self.operation(operator, left, right)
            case tree.If(condition, then, other):
                texts = self.text(condition), self.text(then, want), self.text(other, want)
                return Typed("if {} then {} else {}".format(*texts), want)
            case tree.Let(name, given, value, body):
                return self.let(name, given, value, body, want)
            case tree.Tuple(parts):
                *firsts, last = [self.text(one) for one in parts]
                return Typed(reduce(lambda rest, first: f"({first}, {rest})", reversed(firsts), last))
            case tree.Field(owner, field):
                return self.field(owner, field)
            case tree.Fields(base, fields):
                return self.fields(base, fields, want)
            case tree.Lambda(binders, body):
                return self.function(binders, body)
            case tree.Pi(binder, body):
                return self.pi(binder, body)
            case tree.Sigma(binder, body):
                return self.sigma(binder, body)

    def name(self, name: str) -> Typed:
        if name == "Type":
            return Typed("Type")
        entity, type_ = self.modules.found(self.module, name), None
        if isinstance(entity, Definition):
            parameters, result = telescope(entity)
            type_ = None if parameters else resolved(self.modules, entity.module, result)
        return Typed(self.name_of(entity), type_)

    def apply(self, head: Term, arguments: tuple[Term, ...]) -> Typed:
        if head == Name("Type"):
            return Typed("Type")  # its level is not Coq's
        if not isinstance(head, Name) or head.text in self.variables:
            return Typed(" ".join(map(self.atom, (head, *arguments))))
        entity = self.modules.found(self.module, head.text)
        wants, type_ = self.taken(entity, len(arguments))
        found = [self.term(one, want) for one, want in zip_longest(arguments, wants[:len(arguments)])]
        if isinstance(entity, Word) and entity.name in SAME_TYPE:
            type_ = found[SAME_TYPE[entity.name]].type
        return Typed(" ".join([self.name_of(entity), *(one.atom for one in found)]), type_)

    def taken(self, entity: Entity | Word, count: int) -> tuple[list[Type], Type]:
        """The types of its arguments, and the type of the result."""
        if isinstance(entity, (Definition, Variant)):
            parameters, result = telescope(entity)
            wants = [resolved(self.modules, entity.module, type_) for _, type_, hidden in parameters if not hidden]
            return wants, resolved(self.modules, entity.module, result) if len(wants) == count else None
        if isinstance(entity, (Data, Record)):
            return [resolved(self.modules, entity.module, type_of(binder)) for binder in entity.parameters
                    for _ in binder.names if not binder.is_hidden], None
        return [], None

    def is_positive(self, term: Term) -> bool:
        """Whether it is a number above 0, a power of one, or a definition that is one."""
        match term:
            case tree.Number(value):
                return value > 0
            case tree.Operation("^", left, _):
                return self.is_positive(left)
            case Name(name) if name not in self.variables:
                entity = self.modules.found(self.module, name)
                return isinstance(entity, Definition) and [patterns for patterns, _ in entity.clauses] == [[]] and \
                    replace(self, module=entity.module, variables={}).is_positive(entity.clauses[0][1])
        return False

    def operation(self, operator: str, left: Term, right: Term) -> Typed:
        if operator in ("/", "%") and not self.is_positive(right):
            raise Refused(f"{operator} by what may be 0")
        one, other = self.term(left), self.term(right)
        return Typed(OPERATOR[operator].format(one.atom, other.atom),
                     (one.type or other.type) if operator in ("++", "∷") else None)

    def let(self, name: str, given: Term | None, value: Term, body: Term, want: Type) -> Typed:
        type_ = self.type(given) if given else None
        found = self.term(value, type_)
        inner = self.inside(self.bound([name], type_ or found.type))
        return Typed(f"let {self.variable(name)} := {found.coq} in {inner.text(body, want)}", want)

    def function(self, binders: Iterable[tree.Binder], body: Term) -> Typed:
        inner, shown = self, ""
        for binder in binders:
            type_ = f" : {self.text(binder.type)}" if binder.type else ""
            for name in binder.names:
                shown += f" ({self.variable(name)}{type_})" if type_ else f" {self.variable(name)}"
            inner = inner.inside(self.bound(binder.names, self.type(binder.type) if binder.type else None))
        return Typed(f"fun{shown} => {inner.text(body)}")

    def pi(self, binder: tree.Binder, body: Term) -> Typed:
        if binder.is_hidden:
            raise Refused("an implicit parameter in a term")
        type_ = type_of(binder)
        if binder.names == ("_",):
            return Typed(f"{self.atom(type_)} -> {self.text(body)}")
        inner = self.inside(self.bound(binder.names, self.type(type_)))
        return Typed(f"forall {' '.join(map(self.variable, binder.names))} : {self.text(type_)}, {inner.text(body)}")

    def sigma(self, binder: tree.Binder, body: Term) -> Typed:
        type_ = type_of(binder)
        text, shown = self.inside(self.bound(binder.names, self.type(type_))).text(body), self.text(type_)
        for name in reversed(binder.names):
            text = f"{{{self.variable(name)} : {shown} & {text}}}"
        return Typed(text)

    def field(self, owner: Term, field: str) -> Typed:
        if isinstance(owner, Name) and owner.text not in self.variables:
            data = self.modules.found(self.module, owner.text)
            if isinstance(data, Data) and data.is_of_rust:
                if field not in data.variants:
                    raise Refused(f"{owner.text} has no {field}")
                return Typed(self.name_of(data.variants[field]), Global(data))
        found = self.term(owner)
        if field.isdigit():
            return part(found, unfolded(self.modules, found.type), field)
        record = record_of(self.modules, found.type, found.coq)
        if field not in record.members:
            raise Refused(f"{record.name} has no {field}")
        parameters = [name for binder in record.parameters for name in binder.names]
        return Typed(f"{self.name_of(record)}_{field} {found.atom}",
                     resolved(self.modules, record.module, record.members[field], parameters))

    def fields(self, base: Term | None, fields: tuple[tuple[str, Term], ...], want: Type) -> Typed:
        given = dict(fields)
        if len(given) != len(fields):
            raise Refused("a field twice")
        old = self.term(base) if base else Typed("", want)
        record = record_of(self.modules, old.type, old.coq or "a literal")
        name, parts = self.name_of(record), []
        if given.keys() - record.members.keys() or not base and len(given) != len(record.members):
            raise Refused(f"the fields of {name}")
        for member, type_ in record.members.items():
            if member in given:
                parts.append(self.atom(given[member], resolved(self.modules, record.module, type_)))
            else:
                parts.append(f"({name}_{member} {old.atom})")
        return Typed(f"mk_{name} {' '.join(parts)}", old.type)

    # ---- patterns, which put their variables into `found`

    def pattern(self, term: Term, type_: Type, found: dict[str, Typed]) -> str:
        if term == IGNORED:
            return "_"
        if isinstance(term, tree.Number):
            return str(term.value)
        if isinstance(term, Name) and self.is_variable(term):
            if term.text in found:
                raise Refused(f"the variable {term.text} twice")
            found |= self.bound([term.text], type_)
            return self.variable(term.text)
        if isinstance(term, tree.Operation) and term.operator == "∷":
            item = first_argument(self.modules, type_)
            return f"{self.pattern_atom(term.left, item, found)} :: {self.pattern_atom(term.right, type_, found)}"
        if isinstance(term, tree.Field):
            return replace(self, variables={}).text(term)
        head, arguments = (term.head, term.arguments) if isinstance(term, tree.Apply) else (term, ())
        if not isinstance(head, Name):
            raise Refused("a pattern")
        entity = self.modules.found(self.module, head.text)
        types = self.types_in(entity, type_, len(arguments))
        if len(types) != len(arguments):
            raise Refused(f"the pattern {head.text}")
        parts = [self.pattern_atom(one, its_type, found) for one, its_type in zip(arguments, types)]
        return " ".join([self.name_of(entity), *parts])

    def pattern_atom(self, term: Term, type_: Type, found: dict[str, Typed]) -> str:
        return parenthesized(self.pattern(term, type_, found))

    def types_in(self, entity: Entity | Word, type_: Type, count: int) -> list[Type]:
        """The types of what a constructor holds."""
        if isinstance(entity, Variant):
            return [resolved(self.modules, entity.module, parameter) for _, parameter, _ in telescope(entity)[0]]
        if not is_constructor(entity):
            raise Refused(f"the pattern {entity.name}")
        return [first_argument(self.modules, type_)] if entity.name == "Some" else [None] * count

    def is_variable(self, pattern: Term) -> bool:
        if not isinstance(pattern, Name):
            return False
        if pattern.text in NOT_PATTERNS:
            raise Refused(f"the pattern {pattern.text}")
        entity = self.modules.lookup(self.module, pattern.text)
        return not entity or not is_constructor(entity)


def is_constructor(entity: Entity | Word) -> bool:
    return isinstance(entity, Variant) or isinstance(entity, Word) and entity.name in CONSTRUCTORS
