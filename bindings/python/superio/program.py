# SPDX-License-Identifier: Apache-2.0 OR BSD-3-Clause
"""A script as the program `superio` runs it: docs/SCRIPT.md says what it takes, what it prints, and how a run ends.

One thing differs: if standard input is a folder, Python itself ends with status 1.
"""
import os
from typing import NamedTuple

from .board import Board
from .script import ScriptError, parse

LONGEST = 65_536  # bytes
_PIECE = 8_192    # bytes that are written at once


class End(NamedTuple):
    """How a run ends: the exit status, and what is said on standard error, empty if all lines were carried out."""

    status: int = 0
    said: str = ""


FAULT, MEMORY, TOO_LONG = End(2, "input or output fault"), End(3, "out of memory"), End(4, "script too long")


def run(source: int, output: int) -> End:
    """Runs the script that an open file has, and writes the replies to another."""
    replies = bytearray()
    try:
        script = _read(source)
        end = TOO_LONG if len(script) > LONGEST else _carry_out(script, replies)
        _write(output, bytes(replies))
    except OSError:
        return FAULT
    return end


def _read(source: int) -> bytes:
    """All bytes of a file, but no more than the first one too many."""
    script = b""
    while len(script) <= LONGEST:
        piece = os.read(source, LONGEST + 1 - len(script))
        if not piece:
            break
        script += piece
    return script


def _write(output: int, data: bytes) -> None:
    while data:
        data = data[os.write(output, data[:_PIECE]):]


def _carry_out(script: bytes, replies: bytearray) -> End:
    """Carries out the lines of a script up to the first bad one, and adds their replies."""
    board = Board()
    for number, line in enumerate(script.split(b"\n")[:None if script[-1:] not in (b"", b"\n") else -1], 1):
        try:
            reply = board.reply(parse(line, is_first=number == 1, is_for_program=True))
        except ScriptError:
            return End(1, f"bad line {number}")
        except MemoryError:
            if line != b"ss":
                replies.clear()
            return MEMORY
        replies += b"" if reply is None else f"{reply}\n".encode("ascii")
    return End()
