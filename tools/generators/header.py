# SPDX-License-Identifier: Apache-2.0 OR BSD-3-Clause
"""The C interface as a table: the structs, the functions and the constants that bindings/c/superio.h declares."""
import re
from typing import Dict, List, NamedTuple, Union

from generators.libraries import HEADER

COMMENT = re.compile(r"/\*.*?\*/", re.S)
CONSTANT = re.compile(r'^(?:#define| ) *(SUPERIO_\w+) (?:= )?(\d\w*|"[^"]*"|UINT64_MAX),?\s*$', re.M)
DIRECTIVE = re.compile(r"^#(?:.*\\\n)*.*$", re.M)
# In code of one line.
STRUCT = re.compile(r"typedef struct (\w+) \{(.*?)\} \1;")
SIZE = re.compile(r"\[sizeof\((\w+)\) == (\d+)( \* sizeof\(size_t\))? (?:\?|\|\|)")
FUNCTION = re.compile(r"((?:\w+ )+\*?)(superio_\w+)\(([^()]*)\)[^;{}]*;")
DECLARED = re.compile(r"\s*((?:const )?\w+ \*?)(\w+)(?:\[(\w+)\])?\s*")
# The types of fields, with their sizes on processors of 64 bits.
BYTES = {"bool": 1, "uint8_t": 1, "uint16_t": 2, "uint32_t": 4, "uint64_t": 8, "int64_t": 8, "size_t": 8}


class Declared(NamedTuple):
    """A field or a parameter. The length is a number or the name of a constant, and empty if it is no array."""
    kind: str
    name: str
    length: str


class Function(NamedTuple):
    returned: str
    parameters: List[Declared]


class Header(NamedTuple):
    """Each struct with its fields, its size in bytes, each function, and each constant with its value."""
    structs: Dict[str, List[Declared]]
    sizes: Dict[str, int]
    functions: Dict[str, Function]
    constants: Dict[str, Union[int, str]]


def declared(text, end):
    found = (DECLARED.fullmatch(part) for part in text.split(end) if part.strip() not in ("", "void"))
    return [Declared(kind.strip(), name, length or "") for kind, name, length in (match.groups() for match in found)]


def read_header(word=8):
    """The table, for a `size_t` of `word` bytes."""
    text = COMMENT.sub("", HEADER.read_text(encoding="ascii"))
    code = re.sub(r"SUPERIO_AT_LEAST\((\w+)\)", r"\1", " ".join(DIRECTIVE.sub("", text).split()))
    return Header(
        {name: declared(fields, ";") for name, fields in STRUCT.findall(code)},
        {name: int(count) * (word if words else 1) for name, count, words in SIZE.findall(code)},
        {name: Function(returned.strip(), declared(parameters, ","))
         for returned, name, parameters in FUNCTION.findall(code)},
        {name: number.strip('"') if '"' in number else 2**64 - 1 if number == "UINT64_MAX" else int(number, 0)
         for name, number in CONSTANT.findall(text)})


def layout(header, struct):
    """The place and the size of each field of a struct, the size of all, and its alignment, by the rules of C on
    processors of 64 bits: a number is aligned to its size, and a struct as its fields are."""
    places, end, most = [], 0, 1
    for kind, _, length in header.structs[struct]:
        size, alignment = (BYTES[kind],) * 2 if kind in BYTES else layout(header, kind)[1:]
        start = end + -end % alignment
        places.append((start, size * int(header.constants.get(length, length or 1))))
        end, most = sum(places[-1]), max(most, alignment)
    return places, end + -end % most, most
