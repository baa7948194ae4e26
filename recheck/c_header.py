# SPDX-License-Identifier: Apache-2.0 OR BSD-3-Clause
"""That C finds the structs and functions of the C crate as superio.h declares them."""
import re
from collections.abc import Iterable, Iterator
from pathlib import Path
from typing import Any, TypeVar

from rust_tokens import Refused, source
from rust_tree import List

T = TypeVar("T")
Member = tuple[str, str, int]                        # its name, its type, and how many, or 0 if it is no array
Function = tuple[str, list[tuple[str, str]]]        # its result, and the name and type of each parameter

HEADER = "bindings/c/superio.h"
# The names in C of the structs that do not follow the rule of `name_in_c`.
NAMES = {"Uart": "superio_serial", "ReadEffects": "superio_serial_read_effects",
         "WriteEffects": "superio_serial_write_effects", "EnqueueEffects": "superio_serial_enqueue_effects",
         "Pl031": "superio_rtc", "Work": "superio_console_work", "Wants": "superio_console_wanted",
         "ConsoleRead": "superio_console_read_effects", "ConsoleReceived": "superio_console_receive_effects"}
PLAIN = {**{f"i{width}": f"int{width}_t" for width in (8, 16, 32, 64)},
         **{f"u{width}": f"uint{width}_t" for width in (8, 16, 32, 64)}, "usize": "size_t", "bool": "bool",
         "()": "void"}
SIGNATURE = re.compile(r'^#\[no_mangle\]\npub (?:unsafe )?extern "C" fn (\w+)\(([^)]*)\)(?: -> (\w+))? \{$', re.M)

# The directives that are allowed. None of them gives a name of C another meaning.
DIRECTIVE = re.compile(r"#(define SUPERIO_|undef SUPERIO_|ifndef SUPERIO_H$|ifdef __(cplusplus|clang__)$"
                       r"|if (defined\(__has_attribute\)|SUPERIO_HAS)|else$|endif$|include <std(bool|def|int)\.h>$"
                       r"|pragma clang diagnostic (push|pop|ignored \"-Wgcc-compat\"))")

# The numbers of the header that are constants of Rust.
NUMBERS = {"SUPERIO_ABI": "ABI", "SUPERIO_SERIAL_FIFO_SIZE": "FIFO_SIZE", "SUPERIO_SERIAL_SAVED_MAX": "SAVED_MAX",
           "SUPERIO_CONSOLE_OUTPUT_SIZE": "OUTPUT_SIZE", "SUPERIO_CONSOLE_SAVED_MAX": "CONSOLE_SAVED_MAX",
           "SUPERIO_RTC_SAVED_SIZE": "SAVED_SIZE"}
STRUCT = re.compile(r"typedef struct (\w+) \{(.*?)\} \1;", re.S)
PROTOTYPE = re.compile(r"^([a-z]\w+)\s+(superio_\w+)\(((?:[^()]|\([^()]*\))*)\)"
                       r"(?:\s+SUPERIO_[A-Z_]+(?:\([^()]*\))?)*;", re.M)
PARAMETER = re.compile(r"((?:const )?\w+) (\*?)(\w+)(\[[^][]*\])?")   # its type, `*`, its name, and a size
ENUM = re.compile(r"enum superio_saved_state_error \{(?:\s*SUPERIO_LOAD_\w+ = \d+,?)*\s*\};")
SIZE = re.compile(r"typedef char superio_\w+\s*\[sizeof\([^;]*\];")   # which has no value if a struct has another size
DEFINED = re.compile(r"^ *#(?:.*\\\n)*.*", re.M)   # a line for the preprocessor
# What may begin with `_`, and attributes that change no call.
WORDS = {"__attribute__", "__has_attribute", "__cplusplus", "__clang__", "__VA_ARGS__"}
ATTRIBUTES = {"warn_unused_result", "nonnull", "access", "diagnose_if"}


def check_header(root: Path, crate: Any) -> None:
    """That the structs and functions of the C crate are those of the header: names, types, and the order of fields and
    of parameters."""
    text = header(root)
    numbers = once(re.findall(r"^#define (SUPERIO_\w+) (\d+)$", text, re.M))
    loads = re.findall(r"SUPERIO_LOAD_(\w+) = (\d+)", text)
    # What defines a number once more, in whatever form, gives it another value.
    named = [*re.findall(r"^#(?:define|undef) (\w+)", text, re.M), *(f"SUPERIO_LOAD_{name}" for name, _ in loads)]
    once((name, "") for name in named if name in numbers or name.startswith("SUPERIO_LOAD_"))
    declared = once((name, fields_of(body, numbers)) for name, body in STRUCT.findall(text))
    structs = {name: name_in_c(name) for name in crate.types if name_in_c(name) in declared}
    types = PLAIN | structs
    same(declared, once((in_c, [*fields(crate, types, name)]) for name, in_c in structs.items()))
    for name, constant in NUMBERS.items():
        if crate.number(crate.consts[constant].value) != int(numbers[name]):
            raise Refused(f"{HEADER}: {name} is not {constant}")
    same({name.replace("_", "").lower(): int(number) for name, number in loads}, faults(crate))
    prototypes = PROTOTYPE.findall(text)
    same(once((name, (result, parameters_of(given))) for result, name, given in prototypes), functions(root, types))


def name_in_c(name: str) -> str:
    """The name in C of a struct of Rust, if it has one there: `RtcReadEffects` is `superio_rtc_read_effects`."""
    return NAMES.get(name) or "superio_" + re.sub(r"(?<!^)(?=[A-Z])", "_", name).lower()


def header(root: Path) -> str:
    """The header without its comments."""
    text = (root / HEADER).read_text("utf-8")
    if (root / "bindings/c/from-source/superio.h").read_text("utf-8") != text:
        raise Refused("bindings/c/from-source/superio.h is not that of bindings/c")
    if cut := re.search(r"\S+\\\n.*", text):
        raise Refused(f"{HEADER}: a word may go on in the next line: {cut[0]}")
    text = re.sub(r"/\*.*?\*/", " ", text, flags=re.S)
    for line in re.findall(r"^ *#.*", text, re.M):
        if not DIRECTIVE.match(line):
            raise Refused(f"{HEADER}: {line}")
    for word in {*re.findall(r"\b_\w+", text)} - WORDS | {*re.findall(r"__attribute__\(\((\w+)", text)} - ATTRIBUTES:
        raise Refused(f"{HEADER}: {word}")
    rest = re.sub(r'^extern "C" \{$|^\}$', "", DEFINED.sub("", text), flags=re.M)
    for known in (STRUCT, ENUM, SIZE, PROTOTYPE):
        rest = known.sub("", rest)
    if rest.strip():
        raise Refused(f"{HEADER}: {' '.join(rest.split())[:60]}")
    return text


def faults(crate: Any) -> dict[str, int]:
    """What a load returns, by the names of the cases, in which C has `_` between words."""
    arms = crate.functions["load_status"].body.statements[0].value.arms
    found = {arm.pattern.path[-1].lower(): crate.number(arm.body) for arm in arms}
    return found | {"ok": crate.number(crate.consts["LOADED"].value)}


def functions(root: Path, types: dict[str, str]) -> dict[str, Function]:
    """The result and the parameters of each function that C can call."""
    found: dict[str, Function] = {}
    for name, given, result in SIGNATURE.findall(source(root / "bindings/c/from-source/src/lib.rs")):
        parts = " ".join(given.split()).rstrip(",")
        found[name] = types[result or "()"], [of_c(types, *part.split(": ")) for part in parts.split(", ") if part]
    return found


def same(in_c: dict[str, T], in_rust: dict[str, T]) -> None:
    for name in [*in_c, *in_rust]:
        if in_c.get(name) != in_rust.get(name):
            raise Refused(f"{HEADER}: {name}: {in_c.get(name)}, and in Rust {in_rust.get(name)}")


def once(pairs: Iterable[tuple[str, T]]) -> dict[str, T]:
    found: dict[str, T] = {}
    for name, value in pairs:
        if name in found:
            raise Refused(f"{HEADER}: {name} twice")
        found[name] = value
    return found


def fields_of(body: str, numbers: dict[str, str]) -> list[Member]:
    """The fields of a struct of C. What is no field counts as one too, so that it is refused."""
    found = [(rest, "", 0) for rest in re.sub(r"(\w+) (\w+)(\[(\w+)\])?;", "", body).split()]
    for type_, name, _, count in re.findall(r"(\w+) (\w+)(\[(\w+)\])?;", body):
        found.append((name, type_, int(numbers.get(count, count or 0))))
    return found


def fields(crate: Any, types: dict[str, str], name: str) -> Iterator[Member]:
    """The fields of a struct as C has them. A struct in it that has no name in C gives its own fields one by one."""
    item = crate.types[name]
    if item.kind != "struct" or "repr(C)" not in item.derived:
        raise Refused(f"{name} has not the layout of C")
    for field, type_ in item.fields:
        if isinstance(type_, List):
            yield field, types[type_[1]], crate.number(type_.length)
        elif type_ in types:
            yield field, types[type_], 0
        else:
            for inner, its_type, count in fields(crate, types, type_):
                yield f"output_{inner}" if field == "output" else inner, its_type, count  # of a console's output


def parameters_of(given: str) -> list[tuple[str, str]]:
    """The name and type of each parameter of a prototype. An array is a pointer here, and nothing points to a pointer."""
    found = []
    for part in " ".join(given.split()).split(", "):
        if part == "void":
            continue
        parameter = PARAMETER.fullmatch(part)
        if not parameter or (parameter[2] and parameter[4]):
            raise Refused(f"{HEADER}: the parameter {part}")
        pointer = parameter[2] or parameter[4]
        found.append((parameter[3], parameter[1] + (" *" if pointer else "")))
    return found


def of_c(types: dict[str, str], name: str, type_: str) -> tuple[str, str]:
    """A parameter as C has it."""
    pointer = re.fullmatch(r"(&mut |&|\*mut |\*const )(\w+)", type_)
    if not pointer:
        return name.lstrip("_"), types[type_]
    constant = "const " if pointer[1] in ("&", "*const ") else ""
    return name.lstrip("_"), f"{constant}{types[pointer[2]]} *"
