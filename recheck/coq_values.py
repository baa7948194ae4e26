# SPDX-License-Identifier: Apache-2.0 OR BSD-3-Clause
"""Writes expressions as Coq, in the order in which Rust evaluates. `then` takes the Coq value and the names after it,
and gives what follows."""
from typing import Callable, Sequence

from coq_types import Env, TypeWriter, indented
from parse_expressions import COMPARISONS
from rust_changes import root
from rust_expressions import (
    Array, Assign, Binary, Block, Boolean, Call, Cast, Convert, Copy, Deref, Field, If, Index, Integer, Invoke,
    Library, Make, Match, Method, Name, Not, Part, PathName, Record, Ref, RefMut, Repeat, Return, Slice, Try, TupleOf)
from rust_items import Struct
from rust_tree import WIDTHS, Expr, Local, Type
from rust_types import actual

Then = Callable[[str, Env], str]
COMPARISON = {"==": "{equal} {a} {b}", "!=": "negb ({equal} {a} {b})", "<": "{below} {a} {b}", ">": "{below} {b} {a}",
              "<=": "{up_to} {a} {b}", ">=": "{up_to} {b} {a}"}
# The functions of Coq for ==, < and <=.
COMPARERS = {"i64": ("int_eqb", "int_ltb", "int_leb"), "bool": ("Bool.eqb", "", "")}
OF_NUMBERS, OF_LISTS = ("N.eqb", "N.ltb", "N.leb"), ("bytes_eq", "", "")
ARITHMETIC = {"+": "add", "-": "sub", "*": "mul", "/": "div", "%": "rem"}
BITS = {"&": ("N.land", "andb"), "|": ("N.lor", "orb"), "^": ("N.lxor", "xorb")}
SLICES = ["all_index", "upto_index", "from_index", "range_index"]
# Methods of the library: `{}` is what it is called on, and its argument; `width` and `top` are those of its type.
LIBRARY = {"len": "(length {})", "is_empty": "(N.eqb (length {}) 0)", "unsigned_abs": "(unsigned_abs {})",
           "is_some": "(is_some {})", "is_none": "(negb (is_some {}))", "min": "(N.min {} {})", "max": "(N.max {} {})",
           "saturating_sub": "(N.sub {} {})", "saturating_add": "(N.min ({} + {}) {top})",
           "wrapping_add": "(N.modulo ({} + {}) {size})", "checked_add": "(int_add_checked 64 {} {})",
           "unwrap_or": "(unwrap_or {} {})", "to_le_bytes": "(to_le_bytes {width} {})"}


def place_of(argument: Expr) -> Expr:
    """What is passed as a mutable reference."""
    return argument.value if isinstance(argument, RefMut) else argument


class ValueWriter(TypeWriter):
    changed: list[Local]   # the parameters whose new values the function returns

    # -- what other parts of the writer do
    def function(self, key: str) -> str:
        raise NotImplementedError

    def constant(self, name: str) -> str:
        raise NotImplementedError

    def match(self, node: Match, env: Env, then: Then) -> str:
        raise NotImplementedError

    def block(self, node: Block, env: Env, then: Then) -> str:
        raise NotImplementedError

    def word(self, key: str | None) -> str:
        """The word that binds the result of this function."""
        return "let*"

    def leave(self, value: str, env: Env) -> str:
        parts = [value, *(env[local] for local in self.changed)]
        return "Some " + (f"({', '.join(parts)})" if len(parts) > 1 else value)

    # -- places
    def read(self, place: Expr, env: Env) -> str:
        if isinstance(place, Name) and place.local:
            local = place.local
            if local.mode == "view" and local.place:
                return f"(part_of {self.read(local.place, env)} {local.start} {local.stop})"
            return env[local]
        assert isinstance(place, Field)
        return f"({self.type_name(place.value)}_{place.name} {self.read(place.value, env)})"

    def type_name(self, node: Expr) -> str:
        return str(actual(node.type))

    def update(self, place: Expr, value: str, env: Env, then: Callable[[Env], str]) -> str:
        """The place's variable under a new name, with the new part, and what comes after"""
        if isinstance(place, Name) and place.local:
            local = place.local
            if local.mode == "view" and local.place:
                whole = self.read(local.place, env)
                return self.update(local.place, f"(with_part {whole} {local.start} {local.stop} {value})", env, then)
            name = self.fresh(place.name)
            return f"let {name} := {value} in\n{then({**env, local: name})}"
        assert isinstance(place, Field)
        owner, old = self.type_name(place.value), self.read(place.value, env)
        item = self.crate.types[owner]
        assert isinstance(item, Struct)
        parts = [value if field == place.name else f"({owner}_{field} {old})" for field, _ in item.fields]
        return self.update(place.value, f"(mk_{owner} {' '.join(parts)})", env, then)

    # -- expressions
    def expr(self, node: Expr, env: Env, then: Then) -> str:
        match node:
            case Integer():
                return then(self.integer(node), env)
            case Boolean():
                return then(node.value, env)
            case Name():
                return then(self.name(node, env), env)
            case PathName():
                return then(f"{self.type_name(node)}_{node.path[1]}", env)
            case Ref() | Deref():
                return self.expr(node.value, env, then)
            case Field() | Part() | Not() | Cast():
                return self.of_value(node, env, then)
            case TupleOf() | Array():
                return self.parts(node, env, then)
            case Repeat():
                self.known(node)
                return self.each([node.value, node.count], env, lambda values, after:
                                 then(f"(repeat {values[0]} (N.to_nat {values[1]}))", after))
            case Record():
                return self.record(node, env, then)
            case Index():
                return self.each([node.value, node.index], env, lambda values, after:
                                 self.bind(f"at_index {values[0]} {values[1]}", "item", lambda item: then(item, after)))
            case Slice():
                return self.slice(node, env, then)
            case If():
                return self.if_(node, env, then)
            case Match():
                return self.match(node, env, then)
            case Block():
                return self.block(node, env, then)
            case Return():
                return self.expr(node.value, env, self.leave) if node.value else self.leave("tt", env)
            case Try():
                return self.try_(node, env, then)
            case Assign():
                return self.assign(node, env, then)
            case Binary():
                return self.binary(node, env, then)
            case Call() | Method():
                return self.call(node, env, then)
        self.refuse(node, f"a {node.form} here")

    def each(self, nodes: Sequence[Expr], env: Env, then: Callable[[list[str], Env], str],
             values: tuple[str, ...] = ()) -> str:
        """The values of these, from left to right."""
        if not nodes:
            return then(list(values), env)
        return self.expr(nodes[0], env, lambda value, after: self.each(nodes[1:], after, then, (*values, value)))

    def bind(self, call: str, name: str, then: Callable[[str], str]) -> str:
        name = self.fresh(name)
        return f"{self.word(None)} {name} := {call} in\n{then(name)}"

    def integer(self, node: Integer) -> str:
        type_ = self.known(node)
        if node.value >= 2 ** WIDTHS.get(str(type_), 63):
            self.refuse(node, f"{node.value} is no {type_}")
        return f"(pos {node.value})" if type_ == "i64" else str(node.value)

    def name(self, node: Name, env: Env) -> str:
        if node.local:
            borrowed = node.local.place if node.local.mode == "borrowed" else None
            return self.read(borrowed, env) if borrowed else env[node.local]
        if node.name in self.crate.types:
            return f"mk_{node.name}"
        return "None" if node.name == "None" else self.constant(node.name)

    def of_value(self, node: Field | Part | Not | Cast, env: Env, then: Then) -> str:
        return self.expr(node.value, env, lambda value, after: then(self.taken(node, value), after))

    def taken(self, node: Field | Part | Not | Cast, value: str) -> str:
        """What is taken or made of a value"""
        if isinstance(node, Field):
            return f"({self.type_name(node.value)}_{node.name} {value})"
        if isinstance(node, Part):
            return f"({('fst', 'snd')[node.at]} {value})"
        if isinstance(node, Not):
            type_ = self.known(node)
            return f"(negb {value})" if type_ == "bool" else f"(not_bits {self.width(type_)} {value})"
        to = self.known(node)
        if self.known(node.value) == "i64":
            return f"(wrap_int {self.width(to)} {value})"
        return f"(N.modulo {value} {self.size(to)})"

    def parts(self, node: TupleOf | Array, env: Env, then: Then) -> str:
        if isinstance(node, Array):
            self.known(node)
            return self.each(node.parts, env, lambda values, after: then(f"[{'; '.join(values)}]", after))
        return self.each(node.parts, env, lambda values, after:
                         then(f"({', '.join(values)})" if values else "tt", after))

    def record(self, node: Record, env: Env, then: Then) -> str:
        """The fields in the order that stands there, which is the order of evaluation; then in the order of the type"""
        order = [field for field, _ in self.crate.types[node.name].members]

        def made(values: list[str], after: Env) -> str:
            by_name = {field: value for (field, _), value in zip(node.fields, values)}
            return then(f"(mk_{node.name} {' '.join(by_name[field] for field in order)})", after)
        return self.each([value for _, value in node.fields], env, made)

    def slice(self, node: Slice, env: Env, then: Then) -> str:
        def sliced(values: list[str], after: Env) -> str:
            if not node.ends():
                return then(values[0], after)
            name = SLICES[bool(node.high) + 2 * bool(node.low)]
            return self.bind(f"{name} {' '.join(values)}", "part", lambda part: then(part, after))
        return self.each([node.value, *node.ends()], env, sliced)

    def if_(self, node: If, env: Env, then: Then) -> str:
        def chosen(condition: str, after: Env) -> str:
            if condition in ("true", "false"):
                return self.expr(node.then if condition == "true" else node.other, after, then)
            yes, no = self.expr(node.then, after, then), self.expr(node.other, after, then)
            return f"if {condition} then\n  {indented(yes)}\nelse\n  {indented(no)}"
        return self.expr(node.condition, env, chosen)

    def try_(self, node: Try, env: Env, then: Then) -> str:
        def taken(value: str, after: Env) -> str:
            ok, error = self.fresh("ok"), self.fresh("error")
            return (f"match {value} with\n| Ok {ok} =>\n  {indented(then(ok, after))}\n"
                    f"| Err {error} => {self.leave(f'(Err {error})', after)}\nend")
        return self.expr(node.value, env, taken)

    def assign(self, node: Assign, env: Env, then: Then) -> str:
        """The value, and then the place"""
        def unit(after: Env) -> str:
            return then("tt", after)
        if not isinstance(node.place, Index):
            value = node.sum or node.value
            return self.expr(value, env, lambda value, after: self.update(node.place, value, after, unit))
        place = node.place.value
        return self.each([node.value, node.place.index], env, lambda values, after: self.bind(
            f"set_index {self.read(place, after)} {values[1]} {values[0]}", "list",
            lambda new: self.update(place, new, after, unit)))

    # -- operators
    def binary(self, node: Binary, env: Env, then: Then) -> str:
        if node.operator in ("&&", "||"):
            def rest(left: str, after: Env) -> str:
                more = self.expr(node.right, after, then)
                short = then({"&&": "false", "||": "true"}[node.operator], after)
                yes, no = (more, short) if node.operator == "&&" else (short, more)
                return f"if {left} then\n  {indented(yes)}\nelse\n  {indented(no)}"
            return self.expr(node.left, env, rest)
        self.type(node.operands, node)
        return self.each([node.left, node.right], env, lambda values, after:
                         self.operator(node, values[0], values[1], after, then))

    def operator(self, node: Binary, a: str, b: str, env: Env, then: Then) -> str:
        type_, operator = actual(node.operands), node.operator
        if operator in COMPARISONS:
            equal, below, up_to = OF_LISTS if isinstance(type_, tuple) else COMPARERS.get(str(type_), OF_NUMBERS)
            return then("(" + COMPARISON[operator].format(a=a, b=b, equal=equal, below=below, up_to=up_to) + ")", env)
        if operator in BITS:
            return then(f"({BITS[operator][type_ == 'bool']} {a} {b})", env)
        width = "" if operator in "/%" else f" {self.width(type_)}"
        call = f"{'int_' if type_ == 'i64' else ''}{ARITHMETIC[operator]}_checked{width} {a} {b}"
        return self.bind(call, "number", lambda number: then(number, env))

    # -- calls
    def call(self, node: Call | Method, env: Env, then: Then) -> str:
        meaning = node.meaning
        if isinstance(meaning, Invoke):
            return self.invoke(meaning, env, then)
        if isinstance(meaning, Copy):
            return self.copy(meaning, node.arguments[0], env, then)
        if isinstance(node, Method) and isinstance(meaning, Library):
            name, of = node.name, actual(meaning.of)
            return self.each([node.value, *node.arguments], env, lambda values, after:
                             self.library(name, of, values, after, then))
        if isinstance(meaning, Make):
            variant = meaning.variant
            return self.expr(node.arguments[0], env, lambda value, after: then(f"({variant} {value})", after))
        assert isinstance(node, Call) and isinstance(meaning, Convert)
        (to, name), of = node.path, meaning.of
        return self.expr(node.arguments[0], env, lambda value, after: then(self.converted(to, name, of, value), after))

    def converted(self, to: str, name: str, of: Type, value: str) -> str:
        if name == "from_le_bytes":
            number = f"(from_le_bytes {self.width(to)} {value})"
            return f"(cast_signed 64 {number})" if to == "i64" else number
        if of == "bool":
            value = f"(if {value} then 1 else 0)"
        return f"(pos {value})" if to == "i64" and of != "i64" else value

    def invoke(self, meaning: Invoke, env: Env, then: Then) -> str:
        """The arguments from left to right. A place that is changed is read last: nothing else reaches it"""
        name, passed = self.function(meaning.key), [*zip(meaning.arguments, meaning.modes)]
        places = [place_of(argument) for argument, mode in passed if mode == "mut"]

        def called(values: list[str], env: Env) -> str:
            left = iter(values)
            found = [self.read(place_of(argument), env) if mode == "mut" else next(left) for argument, mode in passed]
            result, new = self.fresh("result"), [self.fresh(root(place).name) for place in places]
            pattern = f"'({', '.join([result, *new])})" if new else result
            return f"{self.word(meaning.key)} {pattern} := {' '.join([name, *found])} in\n{put(0, env, result, new)}"

        def put(at: int, env: Env, result: str, new: list[str]) -> str:
            """The new values, into their places"""
            if at == len(places):
                return then(result, env)
            place = places[at]
            if isinstance(place, Name) and place.local and place.local.mode != "view":
                return put(at + 1, {**env, place.local: new[at]}, result, new)
            return self.update(place, new[at], env, lambda after: put(at + 1, after, result, new))
        return self.each([argument for argument, mode in passed if mode != "mut"], env, called)

    def library(self, name: str, of: Type, values: list[str], env: Env, then: Then) -> str:
        if name == "split_at":
            return self.bind(f"split_index {values[0]} {values[1]}", "parts", lambda parts: then(parts, env))
        if name == "to_le_bytes" and of == "i64":
            values = [f"(cast_unsigned 64 {values[0]})"]
        size = self.size(of)
        top = str(int(size) - 1) if size.isdigit() else f"({size} - 1)"
        return then(LIBRARY[name].format(*values, width=self.width(of), top=top, size=size), env)

    def copy(self, meaning: Copy, argument: Expr, env: Env, then: Then) -> str:
        """A view starts and ends at places of its array; a range of it has to stay inside"""
        target, ends = meaning.target, meaning.ends
        view = target.local if isinstance(target, Name) and target.local and target.local.mode == "view" else None
        place = view.place if view and view.place else target

        def copied(values: list[str], after: Env) -> str:
            whole = self.read(place, after)
            start, stop = (view.start, view.stop) if view else ("0", f"(length {whole})")
            *given, bytes_ = values
            low = given.pop(0) if ends and ends.low else "0"
            high = given.pop(0) if given else f"({stop} - {start})"
            return self.bind(f"copy_range {whole} {start} {stop} {low} {high} {bytes_}", "list",
                             lambda new: self.update(place, new, after, lambda env: then("tt", env)))
        return self.each([*(ends.ends() if ends else []), argument], env, copied)
