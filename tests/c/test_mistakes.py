# SPDX-License-Identifier: Apache-2.0 OR BSD-3-Clause
"""Compilers warn of each mistake at a call of a C function, and of nothing else, by the attributes of superio.h.

The mistakes follow from the declarations, by these rules, so a new function needs no row:

- A lost result is a mistake, unless each of its fields is what the guest reads or an event, as their comments say: then
  nothing is left to do. Nor is it one for the functions of NEEDLESS.
- NULL is a mistake in place of each pointer, but for bytes whose number is passed, if that number is 0.
- So are fewer bytes than the declaration or the passed number says. Clang sees the declaration alone.
- So is memory that is not set, which Clang does not see, unless the call only writes it. That is so of a device that is
  made or loaded, and of bytes behind a pointer that is not to const.
"""
import re

import pytest
from builds import COMPILERS
from generators.header import COMMENT, STRUCT, read_header
from generators.libraries import HEADER
from harness import ROOT, at_least, run

WARNINGS = ["-O1", "-Wall", "-Wextra", "-pedantic", "-I", ROOT / "bindings" / "c"]
# Functions whose result a program may lose, though it is no event.
NEEDLESS = {"superio_abi"}
HARMLESS = re.compile(r"/\* (?:what the guest reads\b|event:)")
MADE = re.compile(r"superio_\w+_(?:new|load)")
# What gcc says of a mistake, and what clang says.
LOST, NO_PLACE, NO_BYTES, UNSET = [("unused-result",) * 2, ("nonnull",) * 2, ("nonnull", "user-defined-warnings"),
                                   ("uninitialized", None)]
FUNCTIONS = at_least(37, read_header().functions.items())
# One line for each caller, which has the parameters of the function that it calls.
CALLER = "void case_{}({}); void case_{}({}) {{ {} {} {} }}\n"


def harmless_results():
    """The structs of which each field, by its comment, leaves nothing to do."""
    text = " ".join(HEADER.read_text("ascii").split())
    for name, fields in STRUCT.findall(text):
        count = len(COMMENT.sub("", fields).split(";")) - 1
        if len(HARMLESS.findall(fields)) == count:
            yield name


HARMLESS_RESULTS = at_least(3, harmless_results())


def is_pointer(parameter):
    return parameter.kind.endswith("*") or bool(parameter.length)


def is_counted(parameters, place):
    """Whether a parameter is bytes whose number the next one says."""
    return parameters[place].kind.endswith("uint8_t *") and parameters[place + 1:][:1] != []


def declared(parameters):
    """The parameters of a caller."""
    return ", ".join(f"{each.kind} {'*' if each.length else ''}{each.name}" for each in parameters) or "void"


class Case:
    """A call of a function with an argument in another's place, and maybe with memory of its own. The result is lost or
    kept."""

    def __init__(self, name, function, mistakes=(), given=None, memory="", loses=False):
        self.function, self.mistakes, self.memory = function, {*mistakes}, memory
        words = [(given or {}).get(each.name, each.name) for each in function.parameters]
        keeps = function.returned != "void" and not loses
        self.call = (f"{function.returned} result = " if keeps else "") + f"{name}({', '.join(words)});"
        self.used = " ".join(f"(void){word};" for word in
                             [each.name for each in function.parameters] + ["result"] * keeps)

    def line(self, number):
        words = declared(self.function.parameters)
        return CALLER.format(number, words, number, words, self.memory, self.call, self.used)

    def warnings(self, is_clang):
        return {mistake[is_clang] for mistake in self.mistakes} - {None}

    def __str__(self):
        return f"{self.memory} {self.call}".strip()


def mistakes_of_null(name, function):
    """NULL in place of each pointer, and of bytes whose number is passed."""
    for place, pointer in enumerate(function.parameters):
        if is_counted(function.parameters, place):
            count = function.parameters[place + 1].name
            yield Case(name, function, (), {pointer.name: "NULL", count: "0"})
            yield Case(name, function, [NO_BYTES], {pointer.name: "NULL", count: "1"})
        elif is_pointer(pointer):
            yield Case(name, function, [NO_PLACE], {pointer.name: "NULL"})


def mistakes_of_memory(name, function):
    """Memory that is too small by a byte, or not set."""
    for place, pointer in enumerate(function.parameters):
        if not is_pointer(pointer):
            continue
        is_read = pointer.kind.startswith("const ")
        if "superio_" in pointer.kind:
            kind = pointer.kind.strip("* ").split()[-1]
            is_read |= not MADE.fullmatch(name)
            yield Case(name, function, [UNSET] * is_read, {pointer.name: "&own"}, f"{kind} own;")
            continue
        length, given = pointer.length or "10", {pointer.name: "own"}
        if is_counted(function.parameters, place):
            given[function.parameters[place + 1].name] = length
        yield Case(name, function, [UNSET] * is_read, given, f"uint8_t own[{length}];")
        few = "stringop-overread" if is_read else "stringop-overflow", "array-bounds" if pointer.length else None
        yield Case(name, function, [few], given, f"uint8_t own[{length} - 1]; fill(own);")


def cases_of(name, function):
    lost = [LOST] * (function.returned not in ("void", *HARMLESS_RESULTS) and name not in NEEDLESS)
    nothing = {each.name: "NULL" if is_pointer(each) else "false" if each.kind == "bool" else "0"
               for each in function.parameters}
    yield Case(name, function, lost + [NO_PLACE] * ("NULL" in nothing.values()), nothing, loses=True)
    yield Case(name, function, lost, loses=True)
    yield Case(name, function)
    yield from mistakes_of_null(name, function)
    yield from mistakes_of_memory(name, function)


CASES = at_least(200, [case for name, function in FUNCTIONS for case in cases_of(name, function)])


def warned(compiler, text, folder):
    """The names of the warnings of each line of a source, from 0. What belongs to none is of the place -1."""
    (folder / "mistakes.c").write_text(text, "ascii")
    said = run([*compiler.split(), *WARNINGS, "-c", "mistakes.c", "-o", "/dev/null"], cwd=folder).stdout
    found = {}
    for file, line, word in re.findall(r"^(\S+?):(\d+):\d+: (?:warning|error): .*?(?:\[-W(\S+?)=?\])?$", said, re.M):
        place = int(line) - 1 if file == "mistakes.c" else -1
        found.setdefault(place, set()).add(word.replace("maybe-", ""))
    return found


@pytest.mark.parametrize("compiler", [COMPILERS["gcc"], COMPILERS["clang"]])
def test_mistakes(compiler, tmp_path):
    head = "#include <superio.h>\nvoid fill(uint8_t *memory);\n"
    text = head + "".join(case.line(number) for number, case in enumerate(CASES))
    found = warned(compiler, text, tmp_path)
    wanted = {place: case.warnings("clang" in compiler) for place, case in enumerate(CASES, head.count("\n"))}
    different = {str(CASES[place - head.count("\n")]) if place >= 0 else "beside the calls":
                 (wanted.get(place, set()), found.get(place, set()))
                 for place in {*wanted, *found} if wanted.get(place, set()) != found.get(place, set())}
    assert not different
