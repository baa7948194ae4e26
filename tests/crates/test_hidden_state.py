# SPDX-License-Identifier: Apache-2.0 OR BSD-3-Clause
"""What no contract can say: types hide no state, and code calls nothing that no contract sees.

Contracts see a struct with an `impl Model` through its view, which has to name each field. Each function has a clause,
or is of an `impl` of a trait, or runs the program. What code takes from std, its macros, attributes and traits, and the
libraries of crates.txt are of the lists below, which have no cells, threads, files or time, or traits of the crates
themselves. The crates of tests may do more.
"""
import re

import pytest
from contracts import code_of, end_of_braces, functions_of
from harness import ROOT, at_least

TESTS = {"device_tests", "failing_objects", "long_run", "object_tests", "script_tests", "superio_tests"}
LIBRARIES = {"arrayvec", "circular_buffer", "hex", "staticlib"}
# What code has: what it is, a pattern that reads it where blanks stand between words alone, and the words that are good.
# Of the last none is: state or code outside of what a contract sees, and what copies or looks into an object.
LISTS = [
    ("of std", r"\b(?:std|core|alloc)::((?:\w+::)*(?:\w+|\{[^}]*\}))",
     "alloc AllocError AllocFailed Global convert Infallible error Error as StdError fmt Debug Display Formatter "
     "Result io Read Write ErrorKind marker Model mem replace"),
    ("as a macro", r"\b(?!(?:else|if|in|match|return|while)\b)(\w+)![(\[{]", "matches prove vec write"),
    ("as an attribute", r"#!?\[(\w+)", "derive derive_where inline must_use repr tactic unsafe"),
    ("as an impl", r"\bimpl\b[^{;]*?(\w+)(?:<[^{;]*>)? ?\bfor ",
     "Debug Default Display Eq Error From Model PartialEq StdError Write"),
    ("in code", r"(?<!')\bstatic\b|\bunsafe\b(?!\(no_mangle\))|\bextern\b(?! fn)|\*(?:const|mut)\b|&raw\b|\bfor<|"
     r"\buse[*{]|::\*|\b(?:std|core|alloc) as\b|"
     r"\b(?:dyn|macro_rules|Clone|Copy|ToOwned|Iterator|Any|size_of|align_of)\b|"
     r"\.(?:as_ptr|as_mut_ptr|allocator|leak|reserve|reserve_exact|spare_capacity_mut)\(", ""),
]
# What the program has besides, which runs scripts, and the list of a run.
MORE = {"superio/src/main.rt": "process ExitCode BufWriter eprintln",
        "vm_superio/src/run.rt": "collections VecDeque"}
TRAITS = [name for path in (ROOT / "crates").glob("*/src/**/*.rt")  # of the crates themselves
          for name in re.findall(r"^pub trait (\w+)", path.read_text(encoding="utf-8"), re.M)]
VIEW = re.compile(r"\bimpl\b[^{;]*\bModel for (\w+)[^{]*\{.*?ghost view = (?=\{ λ (\w+)\.)", re.S)
CONTRACT = re.compile(r"\b(?:(?:ensures|requires)\*?\s*\w*|ghost \w+ ?[:=])\s*\{")


def without_contracts(text):
    """The code of a source, without comments, strings, contracts and the traits that are derived."""
    code, at = code_of(text), 0
    while found := CONTRACT.search(code, at):
        code = code[:found.start()] + code[end_of_braces(code, found.end() - 1):]
        at = max(code.rfind(sign, 0, found.start()) for sign in ";{}") + 1   # before which none begins
    return re.sub(r"\bghost use [^;]*;|(?<=#\[derive)(?:_where)?\([^)]*\)", "", code)


def models(text, code):
    """Each struct of a source that has a model, with the fields that its view leaves out."""
    views = {found[1]: (found[2], text[found.end():end_of_braces(text, found.end())]) for found in VIEW.finditer(text)}
    for struct in re.findall(r"\bModel for (\w+)", code):
        fields = re.search(rf"\bstruct {struct}\b[^;{{(]*(?:{{([^}}]*)}}|\(([^;]*)\);)", code)
        argument, view = views.get(struct, ("", ""))
        named = re.findall(r"(\w+):(?!:)", fields[1] or "") or [str(place) for place in range(fields[2].count(",") + 1)]
        yield struct, [field for field in named if not re.search(rf"\b{argument}\.{field}\b", view)]


def compact(code):
    """Code with a blank between two words, and no other: however its lines are broken, it reads the same."""
    return re.sub(r"(?<!\w) | (?!\w)", "", re.sub(r"\s+", " ", code))


def unseen(name, text, code):
    """What a source of the product has that no contract sees."""
    code = compact(code)
    for kind, pattern, words in LISTS:
        good = [*f"{words} {MORE.get(name, '')}".split(), *(TRAITS if kind == "as an impl" else ())]
        for found in re.findall(pattern, code, re.M):
            yield from (f"{word} {kind}" for word in re.findall(r"\w+", found) or [found] if word not in good)
    for function in functions_of(text):
        if not function.clauses and " for " not in function.header and name != "superio/src/main.rt":
            yield f"{function.name} without a clause"


CRATES = ROOT / "crates"
SOURCES = {str(path.relative_to(CRATES)): path.read_text(encoding="utf-8")
           for path in sorted(CRATES.glob("*/src/**/*.rt")) if path.relative_to(CRATES).parts[0] not in TESTS}
MODELS = [(name, *model) for name, text in SOURCES.items() for model in models(text, without_contracts(text))]


def test_libraries():
    """crates.txt uses no library that may have state."""
    used = set(re.findall(r"\w+", (ROOT / "crates.txt").read_text(encoding="utf-8")))
    assert not used - {path.name for path in CRATES.iterdir()} - LIBRARIES


@pytest.mark.parametrize("name, struct, hidden", at_least(8, MODELS), ids=str)
def test_view(name, struct, hidden):
    """The view of a struct leaves out no field."""
    assert not hidden


@pytest.mark.parametrize("name", at_least(57, SOURCES))
def test_source(name):
    """A source has nothing that no contract sees."""
    assert not list(unseen(name, SOURCES[name], without_contracts(SOURCES[name])))


HIDDEN = ["impl<T: Trigger> Drop for I8042Device<T> {}", "pub static COUNT: u8 = 0;", "thread_local!(A);", "use std::sync::Mutex;", "use core::{cell::Cell};", "use alloc::rc::Rc;", "use std as other;",
          "use {std::fmt};", "use std::io::*;", "#[no_mangle] fn f() {}", "type F = for<'a> fn(&'a u8);",
          "type P = *const u8;", "impl I8042Device<u8> { fn f(x: Vec<u8>) { x.leak(); } }"]


@pytest.mark.parametrize("blank", [" ", "\n", "\n    ", "  "], ids=repr)
@pytest.mark.parametrize("code", HIDDEN)
def test_hidden_code_is_found(code, blank):
    """However its lines are broken."""
    text = re.sub(" |(?<=[!#*])(?=[(\\[*])|(?=::)|(?<=for)(?=<)", lambda _: blank, code)
    assert list(unseen("vm_superio/src/i8042.rt", "", without_contracts(text))), text
