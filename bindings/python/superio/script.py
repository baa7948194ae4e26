# SPDX-License-Identifier: Apache-2.0 OR BSD-3-Clause
"""The lines of a script, and the further lines that a board carries out: docs/SCRIPT.md has their syntax.

`BadLine` says which line of a file was not carried out.
"""
import re
from functools import lru_cache

from .board import BYTES, FURTHER_LINES, LINES, MASK, MOMENT, Command, Field, Value
from .registers import byte_string

__all__ = ["BYTES", "BadLine", "Command", "FURTHER_LINES", "Field", "LINES", "LINE_FIELDS", "MASK", "MOMENT",
           "ScriptError", "Value", "line_of", "parse", "reason_of", "shown", "syntax_of"]

_CACHED = 4096  # lines


class ScriptError(ValueError):
    """A line cannot be parsed. The message gives the reason."""


def shown(text: str, most: int = 24) -> str:
    """A text as a message quotes it: in printing ASCII, and cut if it is long."""
    data = text.encode("utf-8", "surrogateescape")
    cut = "".join(chr(byte) if 32 <= byte < 127 else f"\\x{byte:02x}" for byte in data[:most])
    return cut + ".." if len(data) > most else cut


def reason_of(error: Exception) -> str:
    """An error as a message says it, with the name of the file if there is one."""
    if isinstance(error, OSError) and error.strerror:
        return f"{error.filename}: {error.strerror}" if error.filename else error.strerror
    return str(error)


class BadLine(ValueError):
    """A line of a file was not carried out. The message says which line, and why."""

    def __init__(self, name: str, number: int, line: bytes, error: Exception) -> None:
        text = shown(line.decode("utf-8", "surrogateescape"), 60)
        super().__init__(f'{name}:{number}: "{text}": {reason_of(error)}')


LINE_FIELDS = {name: line.fields for name, line in LINES.items()}
"""The fields of each line. Bytes may be left out."""


def syntax_of(name: str) -> str:
    """The syntax of a line, as `help` shows it."""
    return " ".join([name, *(field.syntax for field in LINE_FIELDS[name])])


@lru_cache(maxsize=len(LINE_FIELDS))
def _pattern(name: str) -> "re.Pattern[str]":
    """What matches a line of this name."""
    fields = (f" ([0-9A-Fa-f]{{{field.digits}}})" if field.digits else "(?: ((?:[0-9A-Fa-f]{2}){1,128}))?"
              for field in LINE_FIELDS[name])
    return re.compile(name + "".join(fields))


def parse(line: bytes, is_first: bool = False, is_for_program: bool = False) -> Command:
    """The command of a line, given without its LF. Set `is_first` for a script's first line, which may be `refuse`. Set
    `is_for_program` to reject the further lines, which the program `superio` does not take.

    Raises `ScriptError`, with the reason, if the line cannot be parsed.
    """
    command = _parse(byte_string("line", line), bool(is_first))
    if is_for_program and command.name in FURTHER_LINES:
        raise ScriptError("the program superio has no such line")
    return command


@lru_cache(maxsize=_CACHED)
def _parse(line: bytes, is_first: bool) -> Command:
    """What `parse` returns, also for a further line. It is cached, because a script repeats most of its lines."""
    text = line.decode("ascii", "replace")
    name = text.partition(" ")[0]
    if name not in LINE_FIELDS:
        raise ScriptError("no line has this name")
    found = _pattern(name).fullmatch(text)
    if not found:
        raise ScriptError(f"the syntax is: {syntax_of(name)}")
    if name == MASK and not is_first:
        raise ScriptError("a mask comes before every other line")
    return Command(name, tuple(int(digits, 16) if field.digits else bytes.fromhex(digits)
                               for field, digits in zip(LINE_FIELDS[name], found.groups()) if digits))


def line_of(command: Command) -> str:
    """The line of a command, as a file has it."""
    texts = [value.hex() if isinstance(value, bytes) else f"{value:0{field.digits}x}"
             for field, value in zip(LINE_FIELDS[command.name], command.values)]
    return " ".join([command.name, *texts])
