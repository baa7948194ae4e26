# SPDX-License-Identifier: Apache-2.0 OR BSD-3-Clause
"""What people type, as commands of a script: `read LSR` as `sr 05`, `alarm +5` as a write to the clock."""
import re
from copy import copy
from typing import Any, Callable, List, Optional

from .board import BYTES, MASK, MOMENT, Board, Command, Field
from .registers import (CLOCK, FORMATS, SERIAL, Register, bits_by_name, clock_offset, clock_register, serial_offset,
                        serial_register)
from .script import LINE_FIELDS, ScriptError, parse, shown

# A word of a line. A character in quotes is one, also a blank one.
_WORD = re.compile(r"'(?:\\.[^']*|[^'])'|\S+")

_QUOTED = re.compile(rb"""(["'])((?:\\.|(?!\1)[^\\])*)\1""", re.DOTALL)
_ESCAPE = re.compile(rb"\\(?:x([0-9A-Fa-f]{2})|(.))", re.DOTALL)
_ESCAPES = dict(zip(b"nrt0e\\\"'", b"\n\r\t\0\x1b\\\"'"))

_NAMES = {("clock", "read"): "cr", ("clock", "write"): "cw", ("i8042", "read"): "kr", ("i8042", "write"): "kw"}


class UsageError(ScriptError):
    """A command has words that its usage does not have."""


def characters(text: str) -> bytes:
    """The bytes of a text as it is typed. In quotes it may have the escapes \\n, \\r, \\t, \\0, \\e and \\x41."""
    data = text.strip().encode("utf-8", "surrogateescape")
    if data[:1] not in (b"'", b'"'):
        return data
    whole = _QUOTED.fullmatch(data)
    if not whole:
        raise ScriptError(f"the text has no closing {data[:1].decode()}, or goes on after it")
    return _ESCAPE.sub(_unescaped, whole[2])


def _unescaped(match: "re.Match[bytes]") -> bytes:
    if match[1]:
        return bytes.fromhex(match[1].decode("ascii"))
    if match[2][0] not in _ESCAPES:
        raise ScriptError(f"no escape is called \\{match[2].decode('ascii', 'replace')}")
    return bytes([_ESCAPES[match[2][0]]])


def _integer(text: str, what: str, bits: int, base: int = 0, instead: str = "") -> int:
    """A number as people type it. If `base` is 0, it is decimal, or has 0x or 0b before it. If `base` is 16, it is
    hexadecimal. `instead` is what else may stand there. A message that refuses a text which is no number adds it."""
    try:
        number = int(text, 10 if base == 0 and text.isdigit() else base)
    except ValueError:
        raise ScriptError(f"{shown(text)} is no {what}{instead}") from None
    if not 0 <= number < 1 << bits:
        most = (1 << bits) - 1
        raise ScriptError(f"{shown(text)} is no {what}: it is from 0 to {f'{most:#x}' if base else most}")
    return number


class Speaker:
    """Understands what people type to a board. `time` tells the host's time, in seconds since 1970."""

    def __init__(self, board: Board, time: Callable[[], int]) -> None:
        self.board = board
        self._time = time

    def command(self, name: str, rest: str) -> Command:
        """The command that words mean: `name` is the name of its line of a script, or the first of the words."""
        words = _WORD.findall(rest)
        if name == "type":
            return Command("sq", (self._bytes(rest),))
        if name == "alarm":
            return self._alarm(words)
        if name in ("clock", "i8042"):
            name = _NAMES.get((name, words.pop(0) if words else ""), "")
        fields = LINE_FIELDS.get(name, ())
        if fields[:1] == (MOMENT,):  # people say it last, or leave it out
            words.insert(0, words.pop() if len(words) == len(fields) else "now")
        if not name or len(words) != len(fields):
            raise UsageError
        return self._filled(name, words, 0)

    def line(self, name: str, rest: str) -> Command:
        """The command of a script's line, whose fields need not be written out: `sr LSR`, `sw 3 0x83`, `cr now DR`."""
        texts, fields = rest.split(), LINE_FIELDS[name]
        if name == "sq" and rest[:1] in ("'", '"'):
            return Command(name, (self._bytes(rest),))
        if fields == (BYTES,):
            return parse(" ".join([name, *texts]).encode("utf-8", "surrogateescape"))
        if len(texts) != len(fields):
            raise UsageError
        if name == MASK and self.board.number:
            raise ScriptError("a mask comes before every other line; reset begins anew")
        return self._filled(name, texts, 16)

    def _filled(self, name: str, texts: List[str], base: int) -> Command:
        """A script's line of this name, with as many fields as it has, as people write them."""
        values: List[Any] = []
        for field, text in zip(LINE_FIELDS[name], texts):
            values.append(self._field(name, field, text, values, base))
        return Command(name, tuple(values))

    def _field(self, name: str, field: Field, text: str, before: List[Any], base: int) -> int:
        line_control, bits = self.board.serial.state.line_control, 4 * field.digits
        if field.kind == "now":
            return self._moment(text, base)
        if field.kind == "bits":
            register = serial_register(before[0], line_control, True) if name == "sw" else clock_register(before[1])
            return self._value(text, register, bits, base)
        if field.kind == "serial":
            if text.upper() in SERIAL:
                return serial_offset(text, line_control, name == "sw")
            return _integer(text, field.name, bits, base, f", and no register: those are {' '.join(SERIAL)}")
        if field.kind == "clock":
            if re.sub("^RTC", "", text.upper()) in CLOCK:
                return clock_offset(text)
            return _integer(text, field.name, bits, base, f", and no register: those are {' '.join(CLOCK)}")
        return _integer(text, field.name, bits, base)

    @staticmethod
    def _value(text: str, register: Optional[Register], bits: int, base: int) -> int:
        """A value: a number, a character in quotes, or bits of the register by name, as RDA|THRE. One of LCR may be or
        have a format of characters, as 8N1."""
        if text[:1] in ("'", '"'):
            data = characters(text)
            if len(data) != 1:
                raise ScriptError(f"{shown(text)} is not one byte")
            return data[0]
        total = 0
        named, instead = bits_by_name(register) if register else {}, ": a character has quotes, as 'A'"
        if register and named:
            instead = f", and {register.name} has the bits {' '.join(named)}"
        if register and register.name == "LCR":
            named, instead = {**named, **FORMATS}, instead + " and formats as 8N1"
        for part in text.split("|"):
            name = part.upper()
            total |= named[name] if name in named else _integer(part, "value", bits, base, instead)
        return total

    def _moment(self, text: str, base: int = 0) -> int:
        """A moment: `now`, `now+5`, `+5`, or seconds since 1970."""
        match = re.fullmatch(r"(?:now)?([+-]\d+)?", text)
        if not match:
            return _integer(text, "moment", 64, base, ": it is now, now+5, or seconds since 1970")
        seconds = _integer((match[1] or "0").lstrip("+-"), "number of seconds", 64)
        moment = self._time() + (-seconds if "-" in text else seconds)
        if moment >= 1 << 64:
            raise ScriptError(f"{shown(text)} is no moment: it is from 0 to {(1 << 64) - 1}")
        return max(0, moment)

    @staticmethod
    def _bytes(text: str) -> bytes:
        if not text:
            raise UsageError
        data = characters(text)
        if not 1 <= len(data) <= 128:
            raise ScriptError("1 to 128 bytes arrive at once")
        return data

    def _alarm(self, words: List[str]) -> Command:
        if not 1 <= len(words) <= 2:
            raise UsageError
        now = self._moment(words[1] if len(words) > 1 else "now")
        if words[0].startswith("+"):
            guest_time = copy(self.board.clock).read("DR", now).value
            match = guest_time + _integer(words[0][1:], "number of seconds", 32)
        else:
            match = _integer(words[0], "guest time", 32)
        if match >= 1 << 32:
            raise ScriptError("guest time has 32 bits, and this alarm would come after their last second")
        return Command("cw", (now, CLOCK["MR"].offset, match))
