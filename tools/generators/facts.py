# SPDX-License-Identifier: Apache-2.0 OR BSD-3-Clause
"""Writes the facts of interface.toml, the version, and what pages repeat of sources, into each file that repeats one.

Python's module _facts.py is made whole, and so is the data of tests that has saved states. A page has its parts below
marks, whose words name them. In other files these are made: the rows that there are one of for each error, in ROWS;
what a number or a name stands for, in PLACES; and the body of a struct, an enum and a block, in BODIES. The changelogs
tell of releases, so they have their versions by hand.
"""
import re
import sys
import textwrap

from common import rattle
from common.commands import ROOT
from common.facts import (ABI, CLOCK, CLOCK_SAVED, CONSOLE_SAVED, ENCODING, ERRORS, FIFO_SIZE, OUTPUT_SIZE, PORT_SAVED,
                          VERSION, told, word_of)
from generators.facts_of_pages import PARTS
from generators.facts_of_python import module
from generators.facts_of_tests import REFUSED, TEMPLATES, made_of, refused

MODULE = "bindings/python/superio/_facts.py"
# The pages with parts of their own, and those that only list the devices.
PAGES = ["docs/DEVICES.md", "docs/DIFFERENCES.md", "docs/SAVED-STATES.md"]
READMES = ["README.md", *(f"{folder}/README.md" for folder in ("bindings/c/from-source", "bindings/js",
                                                               "bindings/python", "rust/superio"))]
MARK = re.compile(r"(?<=^<!-- Made by tools/generate from interface\.toml: )(.+)( -->\n\n)(?:.+\n)+", re.M)

PRINTED = '            SavedStateError::{case}[(_)] => f.write_str("{text}"),'
NUMBERED = "        SavedStateError::{case}[(_)] => {number},"
# The row of an error in each file. What is in brackets is only there if the error holds something.
ROWS = {
    "crates/superio_core/src/saved/error_text.rt":
        '            SavedStateError::{case}[(_)] => write!(f, "{text}"),',
    "crates/superio_c/src/saved.rt": NUMBERED,
    "crates/superio_c/specs/Saved.antt": "load_status (Some [(]{case}[ _)]) = {number}",
    "rust/superio/src/printed.rs": PRINTED,
    "bindings/c/from-source/src/lib.rs": NUMBERED,
    "recheck/left-out.rs": PRINTED,
    "recheck/Calls.v": "  | SavedStateError_{case}[ _] => {number}",
    "tests/recheck/differential/main.rs":
        "            SavedStateError::{case}[(value)] => {number}[ + 100 * u64::from(value)],",
    "tests/recheck/differential/Differential.v": "    | SavedStateError_{case}[ value] => {number}[ + 100 * value]",
    "tests/c/replay.c": '        "{word}", /* {number} */',
}
FIELDS = {"case": r"\w+", "word": "[a-z ]+", "text": '[^"]+', "number": r"\d+"}

C_HEADER, C_LIBRARY = "bindings/c/superio.h", "crates/superio_c/src/lib.rt"
CORE_SAVED = "crates/superio_core/src/saved.rt"
SOURCE, WRONG_BODIES = "bindings/c/from-source", "docs/WRONG-BODIES.md"
# The files that have a fact in one place, each with the form of that place. Each form is there once.
PLACES = [
    ("bindings/js/package.json", r'^  "version": "(.+)",$', VERSION),
    ("bindings/python/superio/__init__.py", r'^__version__ = "(.+)"$', VERSION),
    ("rust/superio/Cargo.toml", r'^version = "(.+)"$', VERSION),
    ("rust/vm-superio/Cargo.toml", r'^superio = \{ version = "(.+?)"', VERSION),
    (f"{SOURCE}/Cargo.toml", r'^version = "(.+)"$', VERSION),
    (f"{SOURCE}/Cargo.toml", r'^superio = \{ version = "(.+?)"', VERSION),
    (C_HEADER, r'^#define SUPERIO_VERSION "(.+)"$', VERSION),
    *((C_HEADER, rf"^#define SUPERIO_VERSION_{part} (\d+)$", number)
      for part, number in zip(("MAJOR", "MINOR", "PATCH"), VERSION.split("."))),
    # The number of the binary interface, with which the name of the shared library ends.
    (C_HEADER, r"^#define SUPERIO_ABI (\d+)$", ABI),
    (C_LIBRARY, r"^const ABI: u32 = (\d+);$", ABI),
    (C_LIBRARY, r"^pub extern \"C\" fn superio_abi\(\) -> u32\n    ensures \{ result ≡ (\d+) \}$", ABI),
    (f"{SOURCE}/src/lib.rs", r"^const ABI: u32 = (\d+);$", ABI),
    ("debian/control", r"^Package: libsuperio(\d+)$", ABI),
    ("debian/control", r"^Depends: libsuperio(\d+) \(= ", ABI),
    # Sizes.
    (C_HEADER, r"^#define SUPERIO_SERIAL_FIFO_SIZE (\d+)$", FIFO_SIZE),
    (C_HEADER, r"^#define SUPERIO_CONSOLE_OUTPUT_SIZE (\d+)$", OUTPUT_SIZE),
    (C_HEADER, r"^#define SUPERIO_SERIAL_SAVED_MAX (\d+)$", PORT_SAVED[1]),
    (C_HEADER, r"^#define SUPERIO_CONSOLE_SAVED_MAX (\d+)$", CONSOLE_SAVED[1]),
    (C_HEADER, r"^#define SUPERIO_RTC_SAVED_SIZE (\d+)$", CLOCK_SAVED),
    # The version of the encoding.
    (CORE_SAVED, r"^const VERSION: u8 = (\d+);$", ENCODING["version"]),
    (CORE_SAVED, r"^    /// The encoding has this version, which is not (\d+)\.$", ENCODING["version"]),
    ("rust/superio/tests/all/console_calls.rs", r"^const VERSION: u8 = (\d+);$", ENCODING["version"]),
    # The names of the errors.
    ("crates/superio_c/specs/Saved.antt", r"\.SavedStateError\.TheVariants\.\{(.+)\}$",
     ", ".join(error["case"] for error in ERRORS)),
    # What the prover has to reject.
    (WRONG_BODIES, r"^There are (\d+) edits\. ", rattle.number_of_edits()),
    (WRONG_BODIES, r" Together they have (\d+) wrong bodies: ", rattle.number_of_named_bodies()),
]


def commented(rows):
    """Lines of C, with what stands before the comments filled up, and the comments broken at 80 columns."""
    column = max(len(code) for code, _ in rows) + 1
    for code, comment in rows:
        first, *others = textwrap.wrap(f"/* {comment} */", 80 - column, subsequent_indent="   ", break_on_hyphens=False)
        yield "".join(f"{line}\n" for line in [f"{code:{column}}{first}", *(" " * column + line for line in others)])


def clock_struct():
    """The fields of the clock's struct."""
    kinds = {"u32": "uint32_t", "i64": "int64_t", "u64": "uint64_t"}
    fields = {field["name"]: field for field in CLOCK["fields"]}
    return "".join(commented([(f"    {kinds[field.get('in_struct', field['type'])]} {field['name']};",
                               field.get("about_in_struct", field["about"]))
                              for field in map(fields.get, CLOCK["struct"]["fields"])]))


def error_enum():
    """The errors of saved states with their numbers."""
    rows = []
    for number, error in enumerate(ERRORS, 1):
        name = word_of(error).upper().replace(" ", "_")
        rows.append((f"    SUPERIO_LOAD_{name} = {number}{',' * (number < len(ERRORS))}",
                     told(error["failed"])))
    return "    SUPERIO_LOAD_OK = 0,\n" + "".join(commented(rows))


def unsafe_lines():
    """The lines of the C functions with `unsafe`, those of a function below its first."""
    lines = [line for line in (ROOT / SOURCE / "src/lib.rs").read_text("utf-8").splitlines()
             if re.search(r"\bunsafe\b", line)]
    return "".join(f"    {line.strip()}\n" if line[0] == " " else f"\n{line}\n" for line in lines).lstrip("\n")


# What is between braces, and a block of a page.
BODIES = [
    ("recheck/README.md", r"^## The lines with `unsafe`\n\n.+\n\n```rust\n((?:.*\n)+?)```$", unsafe_lines),
    (C_HEADER, r"(?<=^typedef struct superio_rtc \{\n)(?:.+\n)+?(?=\} superio_rtc;$)", clock_struct),
    (C_HEADER, r"(?<=^enum superio_saved_state_error \{\n)(?:.+\n)+?(?=\};$)", error_enum),
]


def rows_of(template):
    """What finds the rows of a file."""
    row = re.escape(template).replace(r"\[", "(?:").replace(r"\]", ")?")
    for name, kind in FIELDS.items():
        row = row.replace(re.escape(f"{{{name}}}"), kind)
    return rf"^(?:{row}\n)+"


def rows(template, errors=ERRORS):
    """The rows of these errors."""
    kept = [re.sub(r"\[(.*?)\]", r"\1" if "holds" in error else "", template) for error in errors]
    return "".join(row.format(case=error["case"], word=word_of(error), number=number, text=told(error["text"]))
                   + "\n" for number, (row, error) in enumerate(zip(kept, errors), 1))


def replaced(text, form, made):
    """The text with something else in the one place of this form: for its group, or for all of it if it has none."""
    found = [*re.finditer(form, text, re.M)]
    if len(found) != 1:
        raise ValueError(f"{len(found)} places are {form}")
    start, end = found[0].span(len(found[0].groups()))
    return text[:start] + made + text[end:]


def with_parts(text):
    """A page, with what is below its marks."""
    return MARK.sub(lambda mark: mark[1] + mark[2] + "".join(f"{line}\n" for line in PARTS[mark[1]]()), text)


def made(read):
    """Each file that has facts, as it is to be. `read` gives the text of a file by its name."""
    files = {MODULE: module(), REFUSED: refused(), **{f"{name.removesuffix('.in')}.txt": made_of(name, read(name)) for name in TEMPLATES}}
    for name in (*PAGES, *READMES):
        files[name] = with_parts(read(name))
    for name, form, text in [*PLACES, *((name, rows_of(template), rows(template)) for name, template in ROWS.items()),
                             *((name, form, body()) for name, form, body in BODIES)]:
        try:
            files[name] = replaced(files.get(name) or read(name), form, str(text))
        except ValueError as fault:
            raise ValueError(f"{name}: {fault}") from None
    return files


def main():
    try:
        files = made(lambda name: (ROOT / name).read_text(encoding="utf-8"))
    except ValueError as fault:
        sys.exit(str(fault))
    for name, text in files.items():
        (ROOT / name).write_text(text, encoding="utf-8")


if __name__ == "__main__":
    main()
