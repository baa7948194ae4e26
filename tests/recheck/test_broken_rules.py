# SPDX-License-Identifier: Apache-2.0 OR BSD-3-Clause
"""Each rule of translation has a case that fails if the rule is broken: what Coq computes is another number then, or
nothing.

BROKEN has edits of the translators, for each rule of the tables in recheck/README.md. The tests of the translators
compare the rules themselves with rustc's code, on the same cases.

For an edit, the cases are those for which the translators run the edited lines, or all if none does: these lines are
run once, at the import. Coq computes the first case that is translated in another way and, if that does not show the
edit, up to seven more.
"""
import importlib
import os
import re
import subprocess
import sys
from contextlib import contextmanager
from itertools import islice
from pathlib import Path

import kept
import pytest
import rust_cases
import shell_cases
from coq_text import RECHECK, words
from harness import LIMIT
from test_translator_of_shell import COQ, SCRIPTS

import coq
import rust2coq
import shell2coq

# The modules that each one imports.
IMPORTS = {file.stem: set(re.findall(r"^(?:from|import) (\w+)", file.read_text(), re.M))
           for file in RECHECK.glob("*.py")}
# How many cases are computed for a broken rule at first, and how many if these do not show it, of those whose
# translation it changes.
CASES_OF_ONE = (1, 8)

# The rule, the file, what stands there, and what breaks it.
BROKEN = [
    ("numbers", "rust_tree.py", '"u8": 8', '"u8": 9'),
    ("numbers", "rust_tree.py", '"u16": 16', '"u16": 15'),
    ("numbers", "rust_tree.py", '"u32": 32', '"u32": 33'),
    ("numbers", "rust_tree.py", '"u64": 64', '"u64": 65'),
    ("numbers", "rust_tree.py", '"usize": 32', '"usize": 31'),
    ("numbers", "coq_types.py", '"usize_bits" if', '"65" if'),
    ("numbers", "coq_types.py", '"(2 ^ usize_bits)" if', '"(2 ^ 65)" if'),
    ("numbers", "coq_values.py", '"(pos {node.value})" if type_ == "i64"', '"(negsuc {node.value})" if type_ == "i64"'),
    ("literals", "parse_patterns.py", "10 if text.isdigit() else 0)", "8 if text.isdigit() else 0)"),
    ("literals", "parse_patterns.py", "text.isdigit() else 0), token.suffix)", "text.isdigit() else 0), None)"),
    ("literals", "parse_expressions.py", "in token.text[2:-1].encode()", "in token.text[2:-1].lower().encode()"),
    ("literals", "parse_expressions.py", "left.value << right.value", "left.value << right.value - 1"),
    ("literals", "rust_tokens.py", "[0-9][0-9_]*)", "[0-9]+)"),
    ("inference", "check_expressions.py", "found in INTEGERS else Unknown(True)", 'found in INTEGERS else "u32"'),
    ("inference", "check_calls.py",
     "self.unify(node, self.expr(arguments[0], type_), type_)",
     "self.expr(arguments[0], type_)"),
    ("arrays", "coq_values.py", "'; '.join(values)", "'; '.join(values[::-1])"),
    ("arrays", "coq_values.py", "(N.to_nat {values[1]})", "(S (N.to_nat {values[1]}))"),
    ("structs", "coq_values.py", "by_name[field] for field in order", "by_name[field] for field in by_name"),
    ("structs", "coq_values.py", "value if field == place.name else", "value if field != place.name else"),
    ("variants", "coq_values.py",
     'f"{self.type_name(node)}_{node.path[1]}"',
     'f"{self.type_name(node)}_{self.crate.types[self.type_name(node)].members[0][0]}"'),
    ("constants", "rust2coq.py",
     'lambda value, env: f"Some {value}")\n        text',
     'lambda value, env: f"Some ({value} + 1)")\n        text'),
    ("functions", "coq_values.py", "' '.join([name, *found])", "' '.join([name, *found[::-1]])"),
    ("a trait with one implementation", "rust_crate.py", "type_ = self.impls[trait][0]", "type_ = [*self.types][0]"),
    ("&x", "coq_values.py",
     "case Ref() | Deref():\n                return self.expr(node.value, env, then)",
     'case Ref() | Deref():\n                return self.expr(node.value, env, lambda value, after: then(f"(N.succ '
     '{value})", after))'),
    ("&mut x", "coq_values.py",
     "put(at + 1, {**env, place.local: new[at]}, result, new)",
     "put(at + 1, env, result, new)"),
    ("&mut x", "coq_values.py",
     "parts = [value, *(env[local] for local in self.changed)]",
     "parts = [value, *(env[local] for local in self.changed[::-1])]"),
    ("&mut x", "coq_values.py",
     "return self.update(place, new[at], env, lambda after: put(at + 1, after, result, new))",
     "return put(at + 1, env, result, new)"),
    ("let r = &mut x.n", "check_expressions.py",
     "type_ = local.type   # the place",
     "type_ = self.place(node.place)   # the place"),
    ("p.0, p.1", "coq_values.py", "('fst', 'snd')", "('snd', 'fst')"),
    ("use as", "parse_expressions.py", "self.renamed[self.peek(-1)][-1]", "[*self.renamed.values()][0][0]"),
    ("+", "coq_values.py", '"+": "add"', '"+": "sub"'),
    ("-", "coq_values.py", '"-": "sub"', '"-": "add"'),
    ("*", "coq_values.py", '"*": "mul"', '"*": "add"'),
    ("/", "coq_values.py", '"/": "div"', '"/": "rem"'),
    ("%", "coq_values.py", '"%": "rem"', '"%": "div"'),
    ("+ of a width", "coq_values.py", 'f" {self.width(type_)}"\n        call', '" 65"\n        call'),
    ("+ of i64", "coq_values.py", "'int_' if type_ == 'i64' else ''", "''"),
    ("&", "coq_values.py", '"&": ("N.land", "andb")', '"&": ("N.lor", "andb")'),
    ("&", "coq_values.py", '"&": ("N.land", "andb")', '"&": ("N.land", "orb")'),
    ("|", "coq_values.py", '"|": ("N.lor", "orb")', '"|": ("N.lxor", "orb")'),
    ("|", "coq_values.py", '"|": ("N.lor", "orb")', '"|": ("N.lor", "andb")'),
    ("^", "coq_values.py", '"^": ("N.lxor", "xorb")', '"^": ("N.lor", "xorb")'),
    ("^", "coq_values.py", '"^": ("N.lxor", "xorb")', '"^": ("N.lxor", "orb")'),
    ("!", "coq_values.py", "(not_bits {self.width(type_)} {value})", "(not_bits 64 {value})"),
    ("!", "coq_values.py", 'f"(negb {value})" if type_ == "bool"', 'f"{value}" if type_ == "bool"'),
    ("==", "coq_values.py", '"==": "{equal}', '"==": "{up_to}'),
    ("!=", "coq_values.py", '"negb ({equal} {a} {b})"', '"{equal} {a} {b}"'),
    ("<", "coq_values.py", '"<": "{below} {a} {b}"', '"<": "{up_to} {a} {b}"'),
    (">", "coq_values.py", '">": "{below} {b} {a}"', '">": "{below} {a} {b}"'),
    ("<=", "coq_values.py", '"<=": "{up_to} {a} {b}"', '"<=": "{below} {a} {b}"'),
    (">=", "coq_values.py", '">=": "{up_to} {b} {a}"', '">=": "{below} {b} {a}"'),
    ("< of i64", "coq_values.py", '("int_eqb", "int_ltb", "int_leb")', '("int_eqb", "int_leb", "int_ltb")'),
    ("== of lists", "coq_values.py", '("bytes_eq", ', '("(fun a b => N.eqb (length a) (length b))", '),
    ("== of Booleans", "coq_values.py", '"bool": ("Bool.eqb", ', '"bool": ("xorb", '),
    ("&&", "coq_values.py", '{"&&": "false", "||": "true"}', '{"&&": "true", "||": "true"}'),
    ("||", "coq_values.py", '{"&&": "false", "||": "true"}', '{"&&": "false", "||": "false"}'),
    ("&&", "coq_values.py",
     'if node.operator == "&&" else (short, more)',
     'if node.operator == "||" else (short, more)'),
    ("&& decides", "coq_values.py",
     'if node.operator in ("&&", "||"):\n            def rest',
     "if False:\n            def rest"),
    ("priority", "parse_expressions.py", '["|"], ["^"], ["&"], ["<<"', '["&"], ["^"], ["|"], ["<<"'),
    ("priority", "parse_expressions.py", '["+", "-"], ["*", "/", "%"]]', '["*", "/", "%"], ["+", "-"]]'),
    ("priority", "parse_expressions.py",
     'BINARY = [["||"], ["&&"], COMPARISONS, ["|"]',
     'BINARY = [["||"], ["&&"], ["|"], COMPARISONS'),
    ("as", "coq_values.py", 'f"(N.modulo {value} {self.size(to)})"', "value"),
    ("as of i64", "coq_values.py", 'f"(wrap_int {self.width(to)} {value})"', 'f"(unsigned_abs {value})"'),
    ("a[i]", "coq_values.py", "at_index {values[0]} {values[1]}", "at_index {values[0]} ({values[1]} - 1)"),
    ("a[i..j]", "coq_values.py",
     '["all_index", "upto_index", "from_index", "range_index"]',
     '["all_index", "from_index", "upto_index", "range_index"]'),
    ("a[i..j]", "coq_values.py",
     '"from_index", "range_index"]',
     '"from_index", "(fun l a b => range_index l a (b - 1))"]'),
    ("x = e", "coq_values.py",
     "lambda value, after: self.update(node.place, value, after, unit))",
     "lambda value, after: unit(after))"),
    ("x += e", "check_expressions.py",
     "Binary(node.line, node.operator, node.place, node.value)",
     'Binary(node.line, "+", node.value, node.value)'),
    ("a[i] = e", "coq_values.py", '{values[1]} {values[0]}", "list"', '({values[1]} + 1) {values[0]}", "list"'),
    ("a[i] = e in order", "coq_values.py",
     '[node.value, node.place.index], env, lambda values, after: self.bind(\n            f"set_index '
     '{self.read(place, after)} {values[1]} {values[0]}"',
     '[node.place.index, node.value], env, lambda values, after: self.bind(\n            f"set_index '
     '{self.read(place, after)} {values[0]} {values[1]}"'),
    ("operands in order", "coq_values.py",
     "self.each([node.left, node.right], env, lambda values, after:\n" + " " * 25
     + "self.operator(node, values[0], values[1], after, then))",
     "self.each([node.right, node.left], env, lambda values, after: self.operator(node, *values[::-1], after, then))"),
    ("arguments in order", "coq_values.py",
     'return self.each([argument for argument, mode in passed if mode != "mut"], env, called)',
     'return self.each([argument for argument, mode in passed if mode != "mut"][::-1], env, lambda values, env: '
     "called(values[::-1], env))"),
    ("fields in order", "coq_values.py",
     "return self.each([value for _, value in node.fields], env, made)",
     "return self.each([value for _, value in node.fields][::-1], env, lambda values, after: made(values[::-1], "
     "after))"),
    ("tuples in order", "coq_values.py",
     "self.each(node.parts, env, lambda values, after:\n" + " " * 25 + "then(f\"({', '.join(values)})",
     "self.each(node.parts[::-1], env, lambda values, after:\n" + " " * 25 + "then(f\"({', '.join(values[::-1])})"),
    ("if", "coq_values.py",
     'f"if {condition} then\\n  {indented(yes)}',
     'f"if negb {condition} then\\n  {indented(yes)}'),
    ("if let", "parse_expressions.py",
     "Arm(line, pattern, None, then), Arm(line, AnyPattern(line), None, other)]",
     "Arm(line, AnyPattern(line), None, other), Arm(line, pattern, None, then)]"),
    ("match of variants", "coq_matches.py", "choice.path[-1] == variant", "choice.path[-1] != variant"),
    ("match of variants in order", "coq_matches.py",
     "arm = node.arms[at]\n\n        def rest() -> str:\n            return self.arm_of",
     "arm = node.arms[-1 - at]\n\n        def rest() -> str:\n            return self.arm_of"),
    ("match of numbers in order", "coq_matches.py",
     "arm = node.arms[at]\n\n        def rest() -> str:\n            return self.in_turn",
     "arm = node.arms[-1 - at]\n\n        def rest() -> str:\n            return self.in_turn"),
    ("match of a tuple in order", "coq_matches.py", "arm, types = node.arms[at],", "arm, types = node.arms[-1 - at],"),
    ("match of a tuple", "coq_matches.py", '" && ".join(tests)', '" || ".join(tests)'),
    ("match of alternatives", "coq_matches.py", '" || ".join(tests)', '" && ".join(tests)'),
    ("match of alternatives", "coq_matches.py",
     "pattern.choices if isinstance(pattern, Either)",
     "pattern.choices[:1] if isinstance(pattern, Either)"),
    ("match of Booleans", "coq_matches.py",
     '"(Bool.eqb {value} {pattern.value.value})"',
     '"(xorb {value} {pattern.value.value})"'),
    ("match of a range", "coq_matches.py", "({below} {value} {high}))", "(negb ({below} {high} {value})))"),
    ("match of a range", "coq_matches.py", "(andb ({below} {low} {value})", "(andb (negb ({below} {value} {low}))"),
    ("match of a list", "coq_matches.py", "parts.append(self.number_of(part))", 'parts.append("_")'),
    ("match of a list", "coq_matches.py",
     "last = name\n",
     'last = "_"\n                    bound[part.local] = bound[[*bound][0]]\n'),
    ("match of a list", "coq_matches.py", 'last = "nil"', 'last = "_"'),
    ("a guard", "coq_matches.py", "if not arm.guard:", "if True:"),
    ("a guard", "coq_matches.py", 'f"if {condition} then\\n', 'f"if negb {condition} then\\n'),
    ("a guard of a fitting arm", "coq_matches.py", "{indented(otherwise())}", "None"),
    ("return", "coq_values.py",
     "return self.expr(node.value, env, self.leave) if node.value",
     "return self.expr(node.value, env, then) if node.value"),
    ("return", "check_expressions.py", "return isinstance(node, Return)", "return False"),
    ("?", "coq_values.py", "{self.leave(f'(Err {error})', after)}", "None"),
    ("?", "coq_values.py", "{self.leave(f'(Err {error})', after)}", "{self.leave(f'(Err {error})', env)}"),
    ("for", "rust2coq.py", "for_range {ends[0]} {ends[1]}", "for_range {ends[0]} ({ends[1]} - 1)"),
    ("for", "rust2coq.py", "for_range {ends[0]} {ends[1]}", "for_range ({ends[0]} + 1) ({ends[1]} + 1)"),
    ("for", "rust2coq.py", "rest({**env, **dict(zip(changed, ends))})", "rest(env)"),
    ("while", "rust2coq.py", "Some (true, {state(env)})", "Some (false, {state(env)})"),
    ("while", "rust2coq.py", "while_some 1000 (fun ", "while_some 3 (fun "),
    ("split_at_mut", "rust2coq.py", '"0", middle, middle, size', 'middle, size, "0", middle'),
    ("split_at_mut", "rust2coq.py",
     'else None"\n        return self.expr(value.arguments',
     'else {rest(after)}"\n        return self.expr(value.arguments'),
    ("copy_from_slice", "coq_values.py", 'ends and ends.low else "0"', 'ends and ends.low else "1"'),
    ("copy_from_slice", "coq_values.py", "{start} {stop} {low} {high} {bytes_}", "0 {stop} {low} {high} {bytes_}"),
    ("copy_from_slice", "coq_values.py",
     "{start} {stop} {low} {high} {bytes_}",
     "{start} (length {whole}) {low} {high} {bytes_}"),
    ("copy_from_slice", "coq_values.py", 'f"({stop} - {start})"', "stop"),
    ("a view as an argument", "coq_values.py",
     "(part_of {self.read(local.place, env)} {local.start} {local.stop})",
     "(part_of {self.read(local.place, env)} 0 {local.stop})"),
    ("a view as an argument", "coq_values.py",
     "(with_part {whole} {local.start} {local.stop} {value})",
     "(with_part {whole} 0 {local.stop} {value})"),
    ("len", "coq_values.py", '"(length {})"', '"(N.pred (length {}))"'),
    ("is_empty", "coq_values.py", '"(N.eqb (length {}) 0)"', '"(N.eqb (length {}) 1)"'),
    ("split_at", "coq_values.py", "split_index {values[0]} {values[1]}", "split_index {values[0]} (1 + {values[1]})"),
    ("min", "coq_values.py", '"min": "(N.min {} {})"', '"min": "(N.max {} {})"'),
    ("max", "coq_values.py", '"max": "(N.max {} {})"', '"max": "(N.min {} {})"'),
    ("saturating_sub", "coq_values.py", '"(N.sub {} {})"', '"(N.sub {1} {0})"'),
    ("saturating_add", "coq_values.py", '"(N.min ({} + {}) {top})"', '"(N.min ({} + {}) {size})"'),
    ("wrapping_add", "coq_values.py", '"(N.modulo ({} + {}) {size})"', '"(N.modulo ({} + {}) {top})"'),
    ("checked_add", "coq_values.py", '"(int_add_checked 64 {} {})"', '"(Some (int_add {} {}))"'),
    ("unsigned_abs", "coq_values.py", '"(unsigned_abs {})"', '"(cast_unsigned 64 {})"'),
    ("unwrap_or", "coq_values.py", '"(unwrap_or {} {})"', '"(unwrap_or None {1})"'),
    ("is_some", "coq_values.py", '"is_some": "(is_some {})"', '"is_some": "(negb (is_some {}))"'),
    ("is_none", "coq_values.py", '"is_none": "(negb (is_some {}))"', '"is_none": "(is_some {})"'),
    ("from of bool", "coq_values.py", "then 1 else 0)", "then 0 else 1)"),
    ("from of a number", "coq_values.py",
     'f"(pos {value})" if to == "i64" and of != "i64"',
     'f"(negsuc {value})" if to == "i64" and of != "i64"'),
    ("from_le_bytes", "coq_values.py", "(from_le_bytes {self.width(to)} {value})", "(from_le_bytes 8 {value})"),
    ("from_le_bytes of i64", "coq_values.py", '"(cast_signed 64 {number})"', '"(pos {number})"'),
    ("to_le_bytes", "coq_values.py", '"(to_le_bytes {width} {})"', '"(rev (to_le_bytes {width} {}))"'),
    ("to_le_bytes of i64", "coq_values.py", "(cast_unsigned 64 {values[0]})", "(unsigned_abs {values[0]})"),
    ("matches!", "parse_expressions.py",
     'pattern, None, Boolean(line, "true"))',
     'pattern, None, Boolean(line, "false"))'),
    ("a call of an object", "shell2coq.py",
     'answer = self.fresh("answer")',
     'answer, values = self.fresh("answer"), [*values[:1], *("[7]" for _ in values[1:])]'),
    ("a call of an object", "shell2coq.py",
     '{then(answer, after)}"\n',
     '{then(answer, after)}" if values[1:] else then(\'(Ok tt)\', after)\n'),
    ("a call of an object in order", "shell2coq.py",
     'return "let+" if key is not None and self.is_own(key) else "let^"',
     'return "let^"'),
    ("moment()", "check_shell.py", 'if node.path == ["vm_moment"]', 'if node.path == ["moment"]'),
    ("and_then", "check_shell.py",
     '("Ok", closure.parameter, closure.body), self.kept(node, "Err"))',
     '("Err", closure.parameter, closure.body), self.kept(node, "Ok"))'),
    ("map of a result", "check_shell.py",
     'wrapped("Ok", closure.body)',
     'wrapped("Ok", getattr(closure.body, "left", closure.body))'),
    ("map_or", "check_shell.py", '("None", None, default))', '("None", None, Boolean(node.line, "true")))'),
    ("ok_or", "shell2coq.py", "(ok_or {values[0]} {values[1]})", "(ok_or None {values[1]})"),
    ("map_err", "check_shell.py", 'MapErr("_".join(variant.path))', 'MapErr("VmError_Trigger")'),
    ("try_for_each", "shell2coq.py", "try_times {times} (", "try_times (1 + {times}) ("),
    ("map of a range", "shell2coq.py", "(span {values[0]} {values[1]})", "(span {values[0]} (1 + {values[1]}))"),
    ("map of a range", "shell2coq.py", "{items} in\\n{then(results", "(rev {items}) in\\n{then(results"),
    ("replace", "shell2coq.py", "lambda env: then(old, env))", "lambda env: then(value, env))"),
    ("*x = e of a parameter", "coq_values.py",
     "{value} in\\n{then({**env, local: name})}",
     "{value} in\\n{then(env if local.mode == 'mut' else {**env, local: name})}"),
    ("get_mut", "shell2coq.py", "if N.leb {count} (length", "if N.leb 0 (length"),
    ("get_mut", "shell2coq.py", "else {self.leave('None', env)}", "else Panics"),
    ("let S { a, b } = e", "rust2coq.py",
     "({pattern.path[0]}_{part.name} {value})",
     "({pattern.path[0]}_{pattern.parts[0].name} {value})"),
    ("struct S;", "coq_values.py", 'return f"mk_{node.name}"', 'return "None"'),
]


def of_device(rust2coq, shell2coq, folder):
    return "".join(rust2coq.translate(rust2coq.Crate(folder / "crate"), ["case"]))


def of_shell(rust2coq, shell2coq, folder):
    core = rust2coq.Crate(folder / "core")
    return shell2coq.translate(shell2coq.ShellCrate(folder / "crate", core), ["VmDevice::case"], "") + COQ


# The shortest first, which show the fewest rules.
CASES = sorted([*((of_device, source) for source in rust_cases.RIGHT.values()),
                *((of_shell, source) for source in shell_cases.RIGHT.values())], key=lambda case: len(case[1]))


def write_cases(folder):
    """A folder for each case, with its crate and an empty one."""
    for at, (_, source) in enumerate(CASES):
        for name, text in (("crate", source), ("core", "")):
            (folder / str(at) / name).mkdir(parents=True)
            (folder / str(at) / name / "lib.rs").write_text(text)


@contextmanager
def translators(edit, folder):
    """The translators with this edit, in place of those without."""
    file, old, new = edit
    text, changed = (RECHECK / file).read_text(), {Path(file).stem}
    assert text.count(old) == 1, f"{file} has {old!r} {text.count(old)} times"
    folder.mkdir()
    (folder / file).write_text(text.replace(old, new))
    while more := {name for name, imported in IMPORTS.items() if imported & changed} - changed:
        changed |= more
    kept = {name: sys.modules.pop(name) for name in changed if name in sys.modules}
    sys.path.insert(0, str(folder))
    importlib.invalidate_caches()
    try:
        yield [importlib.import_module(name) for name in ("rust2coq", "shell2coq")]
    finally:
        sys.path.remove(str(folder))
        for name in changed:
            sys.modules.pop(name, None)
        sys.modules.update(kept)


def translated(modules, folder, at):
    """What the translators write for a case, or what they say."""
    try:
        return CASES[at][0](*modules, folder / str(at))
    except Exception as fault:  # noqa: BLE001: whatever fails, the case has no translation
        return fault


def traced(cases, at):
    """What the translators write for a case, and which lines of theirs it runs: each a file and a number."""
    ran, files = set(), {str(file): file.name for file in RECHECK.glob("*.py")}

    def line(frame, event, _):
        if event == "line":
            ran.add((files[frame.f_code.co_filename], frame.f_lineno))
        return line
    before = sys.gettrace()
    sys.settrace(lambda frame, *_: line if frame.f_code.co_filename in files else None)
    try:
        return translated((rust2coq, shell2coq), cases, at), ran
    finally:
        sys.settrace(before)


def lines_of(edit):
    """The lines that an edit changes."""
    file, old, _ = edit
    first = (RECHECK / file).read_text().partition(old)[0].count("\n") + 1
    return {(file, line) for line in range(first, first + old.count("\n") + 1)}


def changed_by(edit, right, ran, count, cases, folder):
    """Cases that are translated in another way with this edit, so many at most: their numbers and what is written."""
    edited = lines_of(edit)
    concerned = [at for at in range(len(CASES)) if not edited.isdisjoint(ran[at])] or range(len(CASES))
    with translators(edit, folder) as modules:
        found = ((at, translated(modules, cases, at)) for at in concerned)
        return [*islice((one for one in found if one[1] != right[one[0]]), count)]


def results(cases, folder):
    """What Coq computes of each translation, by its number, or that it is none."""
    lines = [words("Prelude", "Machine", "Acts")]
    for at, (kind, text) in enumerate(cases):
        name = f"Case{at}"
        if isinstance(text, Exception):
            continue
        body = "\n".join(line for line in text.splitlines() if not line.startswith("Require"))
        shown = "rs_case" if kind is of_device else f"(map show [{'; '.join(map(str, SCRIPTS))}])"
        lines.append(f"Module {name}.\n{body}\nTimeout {LIMIT} Compute ({at}, {shown}).\nEnd {name}.")
    run = subprocess.run(["coqtop", "-q", "-w", "none"], input="\n".join(lines), cwd=folder, env=os.environ | coq.HEAP,
                         capture_output=True, text=True)
    said = re.findall(r"^ +=\s+\((\d+),\s+(.*?)\)\s+:", run.stdout, re.M | re.S)
    return {int(at): " ".join(result.split()) for at, result in said}


@pytest.fixture
def compiled_once(tmp_path, monkeypatch):
    """An edited file has its importers imported again. Python compiles each of these once."""
    monkeypatch.setattr(sys, "pycache_prefix", str(tmp_path / "compiled"))
    monkeypatch.setattr(sys, "dont_write_bytecode", False)


@pytest.mark.needs("coq")
@pytest.mark.usefixtures("compiled_once")
def test_broken_rules(judged_by, tmp_path):
    kept.proof("each broken rule shows", judged_by, lambda _: assert_each_shows(tmp_path))


def assert_each_shows(tmp_path):
    cases = tmp_path / "cases"
    write_cases(cases)
    right, ran = zip(*(traced(cases, at) for at in range(len(CASES))))
    kinds = [kind for kind, _ in CASES]
    computed = results([*zip(kinds, right)], tmp_path)
    assert computed.keys() == {*range(len(CASES))}
    left = BROKEN
    for count in CASES_OF_ONE:
        changed = [(at, text, number) for number, (_, *edit) in enumerate(left)
                   for at, text in changed_by(edit, right, ran, count, cases, tmp_path / f"{count}-{number}")]
        found = results([(kinds[at], text) for at, text, _ in changed], tmp_path)
        shown = {number for place, (at, _, number) in enumerate(changed) if found.get(place) != computed[at]}
        left = [edit for number, edit in enumerate(left) if number not in shown]
    assert left == []
