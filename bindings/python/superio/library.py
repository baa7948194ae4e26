# SPDX-License-Identifier: Apache-2.0 OR BSD-3-Clause
"""Finds and checks the shared library of the devices. superio.abi lists its structs and functions, which superio.h
declares."""
import ctypes
import os
import re
from functools import lru_cache
from pathlib import Path
from typing import Any, Dict, List

_PACKAGE = Path(__file__).resolve().parent
_TABLE = (_PACKAGE / "superio.abi").read_text(encoding="ascii")


def _found(row: str) -> List[Any]:
    return re.findall(f"^{row}$", _TABLE, re.M)


ABI = int(_found(r"abi (\d+)")[0])
"""The binary interface of superio.h that this package is written for."""

FILE_NAME = f"libsuperio.so.{ABI}"

VARIABLE = "SUPERIO_LIBRARY"
"""The environment variable that can name the library's file."""

_CONSTANTS = {name: int(value) for name, value in _found(r"constant SUPERIO_(\w+) (\d+)")}
SERIAL_SAVED_MAX, RTC_SAVED_SIZE = _CONSTANTS["SERIAL_SAVED_MAX"], _CONSTANTS["RTC_SAVED_SIZE"]
CONSOLE_SAVED_MAX = _CONSTANTS["CONSOLE_SAVED_MAX"]
"""The lengths of the longest saved state of a serial port, of a clock's saved state, and of a console's longest."""

_TYPES = {"void": None, "bool": ctypes.c_bool, "size_t": ctypes.c_size_t, "const uint8_t *": ctypes.c_char_p,
          **{f"{name}_t": getattr(ctypes, f"c_{name}") for name in ("uint8", "uint16", "uint32", "uint64", "int64")}}

_FIELDS = _found(r"field (\w+)\.(\w+) (\w+) at (\d+) size (\d+)")

STRUCTS: Dict[str, Any] = {}
"""The structs of superio.h by their names there."""


def _struct(name: str) -> Any:
    """The struct of this name. Its fields may be other structs."""
    if name not in STRUCTS:
        fields = [row[1:] for row in _FIELDS if row[0] == name]
        kinds = {kind: _TYPES.get(kind) or _struct(kind) for _, kind, _, _ in fields}
        STRUCTS[name] = type(name, (ctypes.Structure,), {"_fields_": [
            (field, kinds[kind] * int(size) if kind == "uint8_t" and size != "1" else kinds[kind])
            for field, kind, _, size in sorted(fields, key=lambda row: int(row[2]))]})
    return STRUCTS[name]


SerialStruct, RtcStruct, ConsoleStruct, *_ = map(_struct, (
    "superio_serial", "superio_rtc", "superio_console", *_found(r"struct (\w+) size \d+")))


def _type(kind: str) -> Any:
    """The type of a result or a parameter. An array parameter is a pointer."""
    types = {**_TYPES, **STRUCTS}
    return types[kind] if kind in types else ctypes.POINTER(types[re.sub(r"^const | (?:\*|\[\w+\])$", "", kind)])


PROTOTYPES = {name: (_type(result), [_type(kind) for kind in parameters.split(", ") if kind != "void"])
              for result, name, parameters in _found(r"function (\w+) (superio_\w+)\((.*)\)")}
"""The functions of superio.h: what each returns, and its parameters."""


class LibraryError(Exception):
    """The shared library of the devices cannot be found or loaded, or has another interface than this package needs."""


def _loaded(path: str) -> ctypes.PyDLL:
    """The library at `path`, or the one that the system finds under that name, if it has this interface.

    Each call keeps Python's global lock, so calls from several threads do not overlap, as the header asks.
    """
    try:
        library = ctypes.PyDLL(path)
        found = library.superio_abi()
    except (OSError, AttributeError, UnicodeDecodeError) as error:
        # ctypes decodes a reason that has a path which is not UTF-8, and fails.
        reason = error.object.decode("utf-8", "backslashreplace") if isinstance(error, UnicodeDecodeError) else error
        raise LibraryError(f"{path} cannot be loaded: {reason}") from None
    if found != ABI:
        raise LibraryError(f"{path} has the binary interface {found}, and this package needs {ABI}: "
                           "take package and library from the same version")
    for name, (result, parameters) in PROTOTYPES.items():
        function = getattr(library, name, None)
        if not function:  # which a later version added, and no interface lost
            raise LibraryError(f"{path} has no function {name}: take package and library from the same version")
        function.restype, function.argtypes = result, parameters
    return library


def open_library() -> ctypes.PyDLL:
    """Loads the library that `SUPERIO_LIBRARY` names, or the first that is found: the one in the package, in the
    repository's `prebuilt`, or the system's.

    Raises `LibraryError` if there is none, or if the first one found cannot be used.
    """
    # The folder of the sources alone, and the repository.
    above = [place for number, place in enumerate(_PACKAGE.parents) if number in (0, 2)]
    places = [_PACKAGE / FILE_NAME, *(place / "prebuilt" / f"{os.uname().machine}-linux" / FILE_NAME
                                      for place in above)]
    named = os.environ.get(VARIABLE) or next((str(path) for path in places if path.is_file()), "")
    if named:
        return _loaded(named)
    try:
        return _loaded(FILE_NAME)
    except LibraryError as error:
        raise LibraryError(f"{error}, nor is it {' or '.join(map(str, places))}: set {VARIABLE} to its path") from None


load = lru_cache(maxsize=None)(open_library)
"""The library that all devices share. It is looked for and checked at the first call."""
