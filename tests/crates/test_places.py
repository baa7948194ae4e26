# SPDX-License-Identifier: Apache-2.0 OR BSD-3-Clause
"""Each place of the proved crates that makes an error, takes memory or calls an object is named with a test that fails
if its code is wrong: in places.txt, or above a test in Rattle by a comment `/// Fails if this is wrong: PLACE`.

A place is named by its file, its function, its kind and its number among those of its kind there:

- `error`: it makes an error, or turns one into another.
- `memory`: a call that may be refused memory.
- `call`: it calls a trigger, an events object, a reader or a writer, or passes it to a function that does.

In places.txt a test in Rattle is named by crate, module and function, one of pytest by file and function. Where a wrong
body cannot show, the line has `clause` and the clause that it breaks, by function and name.
"""
import re
from collections import Counter

import pytest
from contracts import code_of, end_of_braces, functions_of
from harness import ROOT, at_least

CRATES = ROOT / "crates"
PROVED = ["superio_core", "superio_laws", "superio_console", "vm_superio", "superio_c", "board_objects", "superio_script",
          "superio", "superio_examples"]
SOURCES = {path.relative_to(CRATES).as_posix(): path.read_text(encoding="utf-8")
           for crate in PROVED for path in sorted((CRATES / crate / "src").rglob("*.rt"))}
# The crates whose traits a user's objects have.
WITH_OBJECTS = "vm_superio", "superio_examples"
TRAIT = re.compile(r"^pub trait \w+[^{;]*\{", re.M)
NO_BODY = re.compile(r"\b(?:(?:ensures|requires)\*?\s*\w*|ghost \w+ ?[:=])\s*\{|\bghost use [^;]*;|#!?\[[^\]]*\]")
# Functions that take an object by `&mut`.
TAKES = re.compile(r"\bfn (\w+)<[^(]*\((?![^()]*\bself\b)[^()]*\w: &mut [A-Z]{1,2}(?=[,)])")
PASSES = "|".join({name for text in SOURCES.values() for name in TAKES.findall(code_of(text))} - {"fmt"})


def calls_of_objects():
    """The names of the calls that a device makes on objects: those of the public traits."""
    for name, text in SOURCES.items():
        code = code_of(text)
        for trait in TRAIT.finditer(code) if name.startswith(WITH_OBJECTS) else ():
            yield from re.findall(r"\bfn (\w+)\(&mut self\b", code[trait.start():end_of_braces(code, trait.end() - 1)])


CALLED = "|".join(at_least(8, sorted({*calls_of_objects()})))
ERRORS = r"\b(?:Error|SavedStateError|LoadError|LineFault|ScriptFault|BusError)::[A-Z]\w*|\bSelf::(?:Memory|Invalid)\b"
KINDS = {
    "error": rf"\bErr\(|\.(?:map_err|ok_or)\(|(?<!fn )\bload_status\(|{ERRORS}",
    "memory": r"(?<!fn )(?<![\w:])(?!Vec::new\b)[\w:]+!?[(\[]\s*(?:in )?(?:rt\.alloc\(\)|alloc\b(?!:))"
              r"|\.push\((?=[^;]*\)\?)",
    "call": rf"(?<!\bself)\.(?:{CALLED})\(|\.flush\(\)|\.write_all\(|\bsink\.write\(|\breader\.read\("
            rf"|(?<![.:\w])(?<!fn )(?:{PASSES})\(",
}


def code(text):
    """A source with blanks in place of comments, strings, contracts and attributes."""
    code, at = code_of(text), 0
    while found := NO_BODY.search(code, at):
        end = end_of_braces(code, found.end() - 1) if found[0].endswith("{") else found.end()
        code = code[:found.start()] + re.sub(r"[^\n]", " ", code[found.start():end]) + code[end:]
        at = max(code.rfind(sign, 0, found.start()) for sign in ";{}") + 1   # before which no clause begins
    return code


def end_of_group(code, at):
    """The place after the parenthesis that closes the one at a place."""
    depth = 0
    for found in re.compile("[()]").finditer(code, at):
        depth += 1 if found[0] == "(" else -1
        if depth == 0:
            return found.end()
    return len(code)


def is_pattern(code, at, end):
    """Whether what stands here is of a pattern: `=>`, `=`, `|` or a guard follows it, or a group around it."""
    end = end_of_group(code, end) if code[end:end + 1] == "(" else end
    if re.compile(r"\s*(?:=>|=[^=]|\||if\b[^;{}]*=>)").match(code, end):
        return True
    closed = 0
    for place in range(at - 1, -1, -1):
        closed += (code[place] in ")}]") - (code[place] in "({[")
        if closed < 0:
            return code[place] == "(" and is_pattern(code, place, place)
    return False


def places(name, text):
    """The places of a source, in their order, each with where it begins."""
    body, functions, numbers, inside = code(text), list(functions_of(text)), Counter(), 0
    found = sorted((match.start(), kind, match) for kind, begin in KINDS.items() for match in re.finditer(begin, body))
    for at, kind, match in found:
        if kind == "error":
            end = match.end() - match[0].endswith("(")
            if at < inside or is_pattern(body, at, end):
                continue
            inside = end_of_group(body, end) if match[0].endswith("(") else inside
        for function in functions:
            if function.has_body and function.start <= at < function.end:
                numbers[str(function), kind] += 1
                yield f"{name} {function} {kind} {numbers[str(function), kind]}", at


LINES = [line.partition(": ") for line in
         (ROOT / "tests/crates/places.txt").read_text(encoding="utf-8").splitlines() if not line.startswith("#")]
TESTS = {test for _, _, tests in LINES if not tests.startswith("clause ") for test in tests.split(", ")}
NOTE = re.compile(r"^/// Fails if this is wrong: (.*)$", re.M)
CLAUSES = [(place.split()[0], tests.split()[1:]) for place, _, tests in LINES if tests.startswith("clause ")]


def noted_places(text):
    """The places that the comments above the tests of a source name."""
    comments = re.findall(r"^((?:///.*\n)+)#\[test\]\n", text, re.M)
    return [place for lines in comments for place in NOTE.findall(lines)]


def names_in_rattle():
    """The tests of the crates, each by crate, module and function."""
    for path in CRATES.glob("*/src/*.rt"):
        for name in re.findall(r"^#\[test\]\n(?:#\[.*\n)*fn (\w+)", path.read_text(encoding="utf-8"), re.M):
            yield f"{path.parts[-3]}::{path.stem}::{name}"


RATTLE = [path.read_text(encoding="utf-8") for path in CRATES.glob("*/src/**/*.rt")]


def test_each_place_is_named():
    """In a line or at a test, and each line and each comment has a place. The lines are sorted, no two of one place."""
    listed = [place for place, _, _ in LINES]
    found = {*at_least(140, [place for name, text in SOURCES.items() for place, _ in places(name, text)])}
    named = {*listed, *at_least(30, [place for text in RATTLE for place in noted_places(text)])}
    assert listed == sorted({*listed})
    assert [found - named, named - found] == [set(), set()]


def test_each_comment_is_above_a_test():
    assert [text for text in RATTLE if noted_places(text) != NOTE.findall(text)] == []


@pytest.mark.parametrize("name", at_least(35, sorted(TESTS)))
def test_is_there(name):
    """A test that is named is there."""
    file, _, function = name.partition(".py::")
    if function:
        assert re.search(rf"^def {function}\(", (ROOT / f"{file}.py").read_text(encoding="utf-8"), re.M)
    else:
        assert name in names_in_rattle()


@pytest.mark.parametrize("file, words", CLAUSES, ids=str)
def test_clause(file, words):
    """A clause that is named is there. One without a name is its function's only one."""
    function, *name = words
    found = [each for each in functions_of(SOURCES[file]) if str(each) == function]
    assert any("".join(name) in each.clauses for each in found)


@pytest.mark.parametrize("body, kinds", [
    ("Err(Error::Full)", "error"),
    ("match x { Err(Error::Full) => Err(Error::Memory), Ok(Some(Error::Full)) if a => 1, Err(_) | Ok(_) => 2 }",
     "error"),
    ("let Err(fault) = f(alloc) else { return x.map_err(|_| Error::Full); };", "error memory"),
    ("// Err(a)\n prove!(a == \"Err(b)\");", ""),
    ("made.push(byte)?; let a = Vec::new(alloc);", "memory"),
    ("x.trigger(); out.write_all(&[1]).map_err(f)?; report_read(&mut events, a);", "call call call error"),
    ("self.events.invalid_read(); self.out.write_byte(a)?; self.write_byte(a); f.invalid();", "call call"),
])
def test_what_is_found(body, kinds):
    """Places of a body. What is of a pattern, a comment or a string is none."""
    found = places("a.rt", f"fn f(alloc: Global)\n    ensures {{ Err (x) }}\n{{\n {body}\n}}\n")
    assert sorted(place.split()[2] for place, _ in found) == kinds.split()
