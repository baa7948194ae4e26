# SPDX-License-Identifier: Apache-2.0 OR BSD-3-Clause
"""The C library by its table bindings/python/superio/superio.abi: structs, functions and constants through ctypes."""
import ctypes
import re
from typing import List, NamedTuple

from generators.libraries import INTERFACE

TABLE = INTERFACE.read_text(encoding="ascii")
TYPES = {"bool": ctypes.c_bool, "void": None, "size_t": ctypes.c_size_t, "uint8_t": ctypes.c_uint8,
         "uint16_t": ctypes.c_uint16, "uint32_t": ctypes.c_uint32, "uint64_t": ctypes.c_uint64,
         "int64_t": ctypes.c_int64}
CONSTANTS = {name: int(number) for name, number in re.findall(r"^constant (\w+) (\d+)$", TABLE, re.M)}


STRUCTS = {}


def structure(name):
    """The struct of this name, which may have others as fields."""
    if name not in STRUCTS:
        fields = re.findall(rf"^field {name}\.(\w+) (\w+) at (\d+) size (\d+)$", TABLE, re.M)
        kinds = [(field, TYPES.get(kind) or structure(kind), int(size))
                 for field, kind, place, size in sorted(fields, key=lambda row: int(row[2]))]
        STRUCTS[name] = type(name, (ctypes.Structure,), {"_fields_": [
            (field, kind if ctypes.sizeof(kind) == size else kind * (size // ctypes.sizeof(kind)))
            for field, kind, size in kinds]})
    return STRUCTS[name]


for struct in re.findall(r"^struct (\w+)", TABLE, re.M):
    structure(struct)


class Parameter(NamedTuple):
    """A parameter: the type of a number, or of what a pointer leads to; and how many there are behind the pointer, or
    None if the next parameter, a `size_t`, says so."""
    kind: type
    is_pointer: bool = False
    is_const: bool = False
    number: int = 1


class Function(NamedTuple):
    name: str
    result: type
    parameters: List[Parameter]


def parameter(text):
    const, kind, pointer, number = re.fullmatch(r"(const )?(\w+)(?: (\*)| \[(\w+)\])?", text).groups()
    kind = TYPES.get(kind) or STRUCTS[kind]
    if pointer and kind is ctypes.c_uint8:
        return Parameter(kind, True, bool(const), None)
    return Parameter(kind, bool(pointer or number), bool(const), CONSTANTS[number] if number else 1)


FUNCTIONS = [Function(name, {**TYPES, **STRUCTS}[result],
                      [parameter(text) for text in words.split(", ") if text != "void"])
             for result, name, words in re.findall(r"^function (\w+) (\w+)\((.*)\)$", TABLE, re.M)]


def load(path):
    """The library, with the types of its functions. All its symbols are bound now, so nothing writes to it later."""
    library = ctypes.CDLL(str(path))
    for name, result, parameters in FUNCTIONS:
        function = getattr(library, name)
        function.restype = result
        function.argtypes = [ctypes.c_void_p if argument.is_pointer else argument.kind for argument in parameters]
    assert library.superio_abi() == int(re.match(r"abi (\d+)", TABLE)[1])
    return library
