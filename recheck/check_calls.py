# SPDX-License-Identifier: Apache-2.0 OR BSD-3-Clause
"""Finds what each call is, and its type."""
from check_patterns import PatternChecker
from rust_changes import changes
from rust_expressions import Call, Convert, Copy, Invoke, Library, Make, Method, Name, RefMut, Slice
from rust_items import Enum, Struct
from rust_tree import INTEGERS, UNIT, WIDTHS, Expr, Type, Unknown, compound
from rust_types import actual, is_a, listed

# The methods of numbers that take another one of the type.
OF_NUMBERS = ("min", "max", "saturating_sub", "saturating_add", "wrapping_add")


class CallChecker(PatternChecker):
    def base(self, node: Expr) -> Type:
        """An expression whose value is used at once: a reference may be there"""
        if isinstance(node, Name):
            node.type = self.name(node, bare=False)
            return node.type
        return self.expr(node)

    def name(self, node: Name, bare: bool = True) -> Type:
        node.local = self.find(node.name)
        if node.local:
            if node.local.mode == "view" or bare and node.local.mode in ("mut", "borrowed"):
                self.refuse(node, f"the reference {node.name} as a value")
            return node.local.type
        if node.name == "None":
            return ("option", Unknown(False))
        item = self.crate.types.get(node.name)
        if isinstance(item, Struct) and not item.members:
            return node.name
        if node.name in self.crate.consts:
            return self.crate.known(self.crate.consts[node.name].value_type)
        self.refuse(node, f"the name {node.name}")

    # -- functions
    def call(self, node: Call, want: Type | None) -> Type:
        path, arguments = node.path, node.arguments
        if len(path) == 1 and self.find(path[0]):
            self.refuse(node, "a call of a variable")
        if path in (["Some"], ["Ok"], ["Err"]):
            return self.wrapped(node, want)
        if len(path) == 2 and path[0] in INTEGERS:
            return self.conversion(node)
        item = self.crate.types.get(path[0]) if len(path) == 2 else None
        if isinstance(item, Enum) and path[1] in dict(item.variants):
            inner = self.variant_type(node, path, path[0])
            if inner is None or len(arguments) != 1:
                self.refuse(node, "the value of a variant")
            self.unify(node, self.expr(arguments[0], inner), inner)
            node.meaning = Make(f"{path[0]}_{path[1]}")
            return path[0]
        head = self.owner if path[0] == "Self" and self.owner else path[0]
        key = "::".join([head, *path[1:]])
        if len(path) > 2 or len(path) == 2 and head not in self.crate.types:
            self.refuse(node, f"the path {'::'.join(path)}")
        if key not in self.crate.functions:
            self.refuse(node, f"the function {key}")
        return self.passes(node, key, arguments)

    def passes(self, node: Call | Method, key: str, arguments: list[Expr]) -> Type:
        """The type of the result of a function of the crate. A method may change the place that it is called on."""
        function = self.crate.functions[key]
        parameters, result = self.crate.signature(function)
        if len(parameters) != len(arguments):
            self.refuse(node, f"the arguments of {function.name}")
        for argument, (_, type_, mode) in zip(arguments, parameters):
            of_method = isinstance(node, Method) and argument is node.value and not isinstance(argument, RefMut)
            found = self.place(argument) if mode == "mut" and of_method else self.argument(argument, type_, mode)
            self.unify(argument, found, type_)
        node.meaning = Invoke(key, arguments, [mode for _, _, mode in parameters])
        return result

    def argument(self, node: Expr, type_: Type, mode: str | None) -> Type:
        local = self.find(node.name) if isinstance(node, Name) else None
        if mode != "mut":
            return self.base(node) if local else self.expr(node, type_)
        if isinstance(node, RefMut):
            node.type = self.place(node.value)
            if isinstance(node.value, Name) and node.value.local and node.value.local.mode == "mut":
                self.refuse(node, "a reference to a reference")
            return node.type
        if local and local.mode == "mut":
            return self.place(node)
        if isinstance(node, Name) and local and local.mode == "view":
            node.local, node.type = local, local.type
            return node.type
        self.refuse(node, "a mutable reference")

    def wrapped(self, node: Call, want: Type | None) -> Type:
        """`Some`, `Ok` and `Err` of a value"""
        name = node.path[0]
        if len(node.arguments) != 1:
            self.refuse(node, f"the value of {name}")
        head = "option" if name == "Some" else "result"
        settled = actual(want) if want is not None else None
        if not is_a(settled, head):
            settled = compound(head, *(Unknown(False) for _ in range(1 if name == "Some" else 2)))
        at = 2 if name == "Err" else 1
        inner = self.unify(node, self.expr(node.arguments[0], settled[at]), settled[at])
        node.meaning = Make(name)
        return compound(*settled[:at], inner, *settled[at + 1:])

    def conversion(self, node: Call) -> Type:
        """`u32::from(..)` of a type that it holds, and `u32::from_le_bytes`"""
        to, name = node.path
        if len(node.arguments) != 1:
            self.refuse(node, "the arguments of a conversion")
        of = actual(self.expr(node.arguments[0], listed("u8") if name == "from_le_bytes" else None))
        node.meaning = Convert(of)
        if name == "from_le_bytes" and of == listed("u8"):
            return to
        if name == "from" and (of in ("bool", to) or self.is_wider(to, of)):
            return to
        self.refuse(node, f"{to}::{name} of {of}")

    def is_wider(self, to: str, of: Type) -> bool:
        """Whether the library converts between these types of numbers. It converts few to or from usize, because the
        width of usize depends on the machine."""
        if to == "usize":
            return of in ("u8", "u16")
        return isinstance(of, str) and of in WIDTHS and of != "usize" and WIDTHS[of] < WIDTHS.get(to, 63)

    # -- methods
    def method(self, node: Method, want: Type | None) -> Type:
        if node.name == "copy_from_slice":
            return self.copy(node, node.value)
        type_ = actual(self.base(node.value))
        key = f"{type_}::{node.name}"
        if isinstance(type_, str) and key in self.crate.functions:
            parameters = self.crate.functions[key].parameters
            if not parameters or parameters[0][0] != "self":
                self.refuse(node, f"{node.name} is no method")
            return self.passes(node, key, [node.value, *node.arguments])
        node.meaning = Library(type_)
        found = self.of_library(node, type_)
        if found is None:
            self.refuse(node, f"the method {node.name} of {type_}")
        return found

    def of_library(self, node: Method, type_: Type) -> Type | None:
        name, arguments = node.name, node.arguments
        if not arguments:
            if is_a(type_, "list") and name in ("len", "is_empty"):
                return "usize" if name == "len" else "bool"
            if is_a(type_, "option") and name in ("is_some", "is_none"):
                return "bool"
            if type_ in INTEGERS and name == "to_le_bytes":
                return listed("u8")
            return "u64" if type_ == "i64" and name == "unsigned_abs" else None
        if len(arguments) != 1:
            return None
        if is_a(type_, "list") and name == "split_at":
            self.unify(node, self.expr(arguments[0], "usize"), "usize")
            return ("tuple", type_, type_)
        if is_a(type_, "option") and name == "unwrap_or":
            return self.unify(node, self.expr(arguments[0], type_[1]), type_[1])
        if type_ in WIDTHS and name in OF_NUMBERS or type_ == "i64" and name == "checked_add":
            self.unify(node, self.expr(arguments[0], type_), type_)
            return ("option", type_) if name == "checked_add" else type_
        return None

    def copy(self, node: Method, target: Expr) -> Type:
        """`place[low..high].copy_from_slice(bytes)`; the place may be a view"""
        if len(node.arguments) != 1:
            self.refuse(node, "the arguments of copy_from_slice")
        ends = target if isinstance(target, Slice) else None
        target = ends.value if ends else target
        node.meaning = Copy(target, ends)
        local = self.find(target.name) if isinstance(target, Name) else None
        if isinstance(target, Name) and local and local.mode == "view":
            target.local, target.type = local, local.type
        else:
            self.place(target)
        self.unify(node, target.type, listed())
        if ends:
            self.ends(node, ends.ends())
        self.unify(node, self.expr(node.arguments[0], target.type), target.type)
        if changes(node.arguments[0]):
            self.refuse(node, "a copy of what changes something")
        return UNIT

    def ends(self, node: Expr, ends: list[Expr]) -> None:
        """What says where a part of a list is."""
        for end in ends:
            self.unify(node, self.expr(end, "usize"), "usize")
            if changes(end):
                self.refuse(node, "an index that changes something")
