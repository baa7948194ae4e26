# SPDX-License-Identifier: Apache-2.0 OR BSD-3-Clause
"""What the sources in Python have, by their syntax trees: nothing that the oldest Python lacks for which the package
is, and no text in the encoding of the locale."""
import ast
import re

import pytest
from harness import ROOT, at_least
from support import PACKAGE

# What Python got after 3.8, and what someone may use without a thought: names, and two ways to write an annotation.
NEWER = re.compile(r"\b(removeprefix|removesuffix|randbytes|bit_count|pairwise|batched|is_relative_to|StrEnum|Self|"
                   r"cache|datetime.UTC|TypeAlias|Annotated|ParamSpec|override|file_digest|zoneinfo|tomllib|"
                   r"strict(?==)|slots|kw_only|root_dir|with_stem|to_thread|TaskGroup|add_note|ExceptionGroup|NoneType|"
                   r"UnionType|waitstatus_to_exitcode|BooleanOptionalAction|ignore_cleanup_errors|enterContext)\b|"
                   r"\.parents\[[^]]*:|(?:: |-> |\[)(?:dict|list|set|tuple|type)\[|(?:: |-> )[\w.]+ \| ")

# Modules whose constants are numbers that `|` joins, and what has an index since Python 3.9 only.
FLAGS = {"os", "re", "select", "selectors", "stat"}
INDEXED = {"dict", "frozenset", "list", "set", "tuple", "type", "re.Match", "re.Pattern", "os.PathLike",
           "subprocess.Popen", "collections.deque", "collections.abc"}
OF_NUMBERS = ast.LShift, ast.RShift, ast.BitAnd, ast.BitXor, ast.Mult, ast.Sub


def is_number_or_set(node, numbers):
    """Whether an operand of `|` shows that it is a number or a set, and neither a mapping nor a type. `numbers` are the
    names to which a number is assigned."""
    if isinstance(node, ast.BinOp):
        return isinstance(node.op, OF_NUMBERS) or any(is_number_or_set(one, numbers) for one in (node.left, node.right))
    if isinstance(node, ast.IfExp):
        return is_number_or_set(node.body, numbers) or is_number_or_set(node.orelse, numbers)
    if isinstance(node, ast.Name):
        return node.id in numbers
    if isinstance(node, ast.Attribute):
        return ast.unparse(node.value) in FLAGS
    if isinstance(node, ast.Constant):
        return type(node.value) is int
    return isinstance(node, (ast.Set, ast.SetComp)) or isinstance(node, ast.UnaryOp) and isinstance(node.op, ast.Invert)


def is_bare(node, text):
    """Whether a tuple stands without parentheses."""
    return isinstance(node, ast.Tuple) and not ast.get_source_segment(text, node).startswith("(")


def is_newer(node, text, numbers):
    """Whether a node is what `ast` takes for syntax of Python 3.8, and is not, or does not work there."""
    if isinstance(node, (ast.BinOp, ast.AugAssign)) and isinstance(node.op, ast.BitOr):
        operands = (node.left, node.right) if isinstance(node, ast.BinOp) else (node.target, node.value)
        return not any(is_number_or_set(one, numbers) for one in operands)
    if isinstance(node, ast.Subscript):
        has_star = is_bare(node.slice, text) and any(isinstance(one, ast.Starred) for one in node.slice.elts)
        indexed = ast.unparse(node.value)
        return has_star or isinstance(node.slice, ast.NamedExpr) or not INDEXED.isdisjoint(
            [indexed, indexed.rpartition(".")[0]])
    if isinstance(node, ast.Set):
        return any(isinstance(one, ast.NamedExpr) for one in node.elts)
    if isinstance(node, (ast.For, ast.AsyncFor)):
        return is_bare(node.iter, text) and any(isinstance(one, ast.Starred) for one in node.iter.elts)
    if isinstance(node, (ast.FunctionDef, ast.AsyncFunctionDef, ast.ClassDef)):
        return any(not re.fullmatch(r"[\w.]+(?:\(.*\))?", ast.unparse(one), re.S) or
                   isinstance(one, ast.Call) and not re.fullmatch(r"[\w.]+", ast.unparse(one.func))
                   for one in node.decorator_list)
    return isinstance(node, ast.arg) and isinstance(node.annotation, ast.Starred)


def newer(text):
    """The parts of a source that Python 3.8 lacks. A text in an annotation is one too, as `typing` evaluates it."""
    try:
        tree = ast.parse(text, feature_version=(3, 8))
    except SyntaxError as error:
        return [str(error)]
    numbers = {target.id for node in ast.walk(tree) if isinstance(node, ast.Assign) and
               isinstance(node.value, ast.Constant) and type(node.value.value) is int
               for target in node.targets if isinstance(target, ast.Name)}
    found = [line for line in text.splitlines() if NEWER.search(line)]
    found += [ast.unparse(node) for node in ast.walk(tree) if is_newer(node, text, numbers)]
    annotations = [getattr(node, name, None) for node in ast.walk(tree) for name in ("annotation", "returns")]
    texts = [one.value for node in filter(None, annotations) for one in ast.walk(node)
             if isinstance(one, ast.Constant) and isinstance(one.value, str)]
    return found + [one for one in texts if " | " in one]


# The package, what else runs with it, and the tests that its sources have.
PACKAGED = [*(PACKAGE / "superio").glob("*.py"), PACKAGE / "setup.py", ROOT / "shell",
            *(ROOT / "examples" / "python").glob("*.py")]
OF_3_8 = at_least(21, [*PACKAGED, *(PACKAGE / name for name in re.findall(
    r"tests/\w+\.py", (PACKAGE / "MANIFEST.in").read_text("utf-8")))])


@pytest.mark.parametrize("path", OF_3_8, ids=lambda path: path.name)
def test_python_3_8_takes(path):
    assert newer(path.read_text("utf-8")) == []


@pytest.mark.parametrize("text", [
    "{**a, **b}", "a = 0\na |= b", "a << 8 | b", "a & ~b | c", "a | 1", "{a} | b", "b | (c if d else 0)", "re.M | a",
    "a[(*b, c)]", "a[b]", "for a in (*b, c): pass", "@a.b\ndef c(): pass", "@a.b(c | 1)\nclass D: pass",
    "with a as b, c as d: pass", "def a(b: Union[int, str], *c: int) -> Dict[str, int]: pass",
    "def a(b: 're.Match'): pass"])
def test_python_3_8_has(text):
    assert newer(text) == []


@pytest.mark.parametrize("text", [
    "a | b", "CLOCK | SERIAL", "registers.CLOCK | registers.SERIAL", "{} | a", "dict(a) | b", "a = {}\na |= b",
    "a.b |= c", "def a(b: int | None): pass", "def a(b: 'int | None'): pass", "def a() -> Dict[str, A | B]: pass",
    "a: B | None = 1", "A = Union[int, str] | None", "isinstance(a, int | str)",
    "from __future__ import annotations\na: b | c = 1",   # which typing would evaluate
    "match a:\n    case 1: pass", "with (a as b, c as d): pass", "try: pass\nexcept* ValueError: pass", "a[*b]",
    "a[*b, c]", "a[b := 1]", "{a := 1}", "for a in *b, c: pass", "@a[0]\ndef b(): pass", "@a().b\ndef c(): pass",
    "@a()()\nclass B: pass", "def a(*b: *c): pass", "A = list[int]", "A = Dict[str, list[int]]", "A = re.Pattern[str]",
    "A = collections.abc.Iterable[int]", "type A = int", "def a[T](b): pass", "f'{a['b']}'", "a.removeprefix('b')"])
def test_python_3_8_has_not(text):
    assert newer(text) != []


# What opens a file as text unless a mode has a "b": where its mode and its encoding stand, from 0, and the mode else.
OPENED = {"open": (1, 3, "r"), "fdopen": (1, 3, "r"), "TextIOWrapper": (None, 1, "r"),
          "NamedTemporaryFile": (0, 2, "w+b"), "TemporaryFile": (0, 2, "w+b"), "SpooledTemporaryFile": (1, 3, "w+b"),
          "read_text": (None, 0, "r"), "write_text": (None, 1, "w")}
BINARY = {"gzip", "bz2", "lzma"}     # whose `open` has bytes unless a mode has a "t"
OTHERS = {"os", "tarfile", "webbrowser", "zipfile"}   # whose `open` is another one
FUNCTIONS = {"read_text", "write_text"}   # which are methods of paths, and may be functions of ours


def openers(function):
    """What a call calls, by the name of `OPENED`: where the mode and the encoding stand, and the mode else."""
    if isinstance(function, ast.IfExp):
        return openers(function.body) + openers(function.orelse)
    if isinstance(function, ast.Name):
        return [OPENED[function.id]] if function.id in OPENED.keys() - FUNCTIONS else []
    if not isinstance(function, ast.Attribute) or function.attr not in OPENED:
        return []
    owner, (mode, encoding, default) = ast.unparse(function.value), OPENED[function.attr]
    if function.attr != "open":
        return [(mode, encoding, default)]
    if owner in OTHERS:
        return []
    if owner in BINARY:
        return [(mode, encoding, "rb")]
    return [OPENED["open"] if owner in ("io", "codecs", "builtins") else (0, 2, "r")]   # the latter that of a path


def in_the_locales_encoding(text):
    """The calls of a source that open a text, or the pipes of a program, in the encoding of the locale."""
    for call in (node for node in ast.walk(ast.parse(text)) if isinstance(node, ast.Call)):
        named = {word.arg: word.value for word in call.keywords}
        is_text = {getattr(named.get(name), "value", None) for name in ("text", "universal_newlines")}
        if True in is_text and "encoding" not in named:
            yield ast.unparse(call)
        for mode_place, encoding_place, default in openers(call.func):
            is_placed = mode_place is not None and mode_place < len(call.args)
            mode = named.get("mode", call.args[mode_place] if is_placed else ast.Constant(default))
            is_text = not (isinstance(mode, ast.Constant) and "b" in str(mode.value))
            if is_text and "encoding" not in named and None not in named and encoding_place >= len(call.args):
                yield ast.unparse(call)


def is_python(path):
    return path.suffix == ".py" or path.is_file() and path.read_bytes()[:22] == b"#!/usr/bin/env python3"


PROGRAMS = at_least(70, (path for path in [
    *PACKAGED, ROOT / "conftest.py", *sorted(ROOT.glob("tools/**/*")), *sorted(ROOT.glob("recheck/**/*"))]
    if is_python(path)))


@pytest.mark.parametrize("path", PROGRAMS, ids=lambda path: str(path.relative_to(ROOT)))
def test_a_text_has_an_encoding(path):
    assert [*in_the_locales_encoding(path.read_text("utf-8"))] == []


@pytest.mark.parametrize("text, count", [
    ("open(a)", 1), ("open(a, 'w')", 1), ("open(a, b)", 1), ("open(a, mode='a')", 1), ("open(a, 'rb')", 0),
    ("open(a, 'w', encoding='utf-8')", 0), ("open(a, 'r', 1, 'utf-8')", 0), ("os.open(a, os.O_RDONLY)", 0),
    ("os.fdopen(a)", 1), ("os.fdopen(a, 'wb')", 0), ("io.open(a)", 1), ("a.open()", 1), ("a.open('rb')", 0),
    ("a.open('w', encoding='ascii')", 0), ("a.read_text()", 1), ("a.read_text('utf-8')", 0), ("a.write_text(b)", 1),
    ("a.write_text(b, 'utf-8')", 0), ("write_text(a, b)", 0), ("a.read_bytes()", 0), ("lzma.open(a)", 0),
    ("lzma.open(a, 'rt')", 1), ("tarfile.open(a)", 0), ("(lzma.open if a else open)(b)", 1),
    ("(lzma.open if a else open)(b, 'rb')", 0), ("tempfile.NamedTemporaryFile()", 0), ("io.TextIOWrapper(a)", 1),
    ("subprocess.run(a, text=True)", 1), ("subprocess.run(a, encoding='utf-8')", 0), ("subprocess.run(a)", 0),
    ("a.format(text=b)", 0),
    ("tempfile.NamedTemporaryFile('w')", 1), ("tempfile.NamedTemporaryFile(mode='w', encoding='utf-8')", 0)])
def test_which_texts_have_none(text, count):
    assert len([*in_the_locales_encoding(text)]) == count
