# SPDX-License-Identifier: Apache-2.0 OR BSD-3-Clause
"""Scripts as text, by docs/SCRIPT.md, and as calls of a board, each a name and its arguments."""
import re

from board import BYTES, FURTHER_LINES, PROGRAM_LINES, Board

LINES = {**PROGRAM_LINES, **FURTHER_LINES}
MASK = "refuse"   # the line that is of no device, and only a script's first
NAMES = {call: name for name, (call, *_) in LINES.items()}


def syntax_of(name):
    """The syntax of a line, with H for a digit and HH.. for bytes, as a document has it."""
    return " ".join([name, *("HH.." if digits == BYTES else "H" * digits for digits in LINES[name][1:])])


def pattern_of(lines):
    """What each line matches."""
    syntaxes = "|".join(map(syntax_of, lines)).replace(" HH..", "( (HH){1,128})?")
    return re.compile(syntaxes.replace("H", "[0-9A-Fa-f]"))


PATTERNS = {False: pattern_of(LINES), True: pattern_of(PROGRAM_LINES)}   # by whether the lines are the program's alone


def line_of(call, *arguments):
    """A call as a line."""
    name = NAMES[call]
    words = [argument.hex() if digits == BYTES else f"{argument:0{digits}x}"
             for argument, digits in zip(arguments, LINES[name][1:])]
    return " ".join(filter(None, [name, *words]))


def call_of(line):
    """The call of a line that has a syntax."""
    name, *words = line.split(" ")
    call, *digits = LINES[name]
    return call, *(bytes.fromhex(word) if kind == BYTES else int(word, 16) for word, kind in zip(words, digits))


def script_of(calls):
    """The script that makes these calls."""
    return "".join(f"{line_of(*call)}\n" for call in calls)


def replies_of(board, calls):
    """What a board replies to calls. A `refuse` has no reply."""
    replies = [getattr(board, name)(*arguments) for name, *arguments in calls]
    return [reply for reply in replies if reply is not None]


def run_script(script, is_for_program=False, board=None):
    """The replies of a script with a character for each byte, and what its run says at the end: nothing, or which line
    is the first bad one."""
    board, replies, pattern = board or Board(), [], PATTERNS[is_for_program]
    for number, line in enumerate(script.removesuffix("\n").split("\n") if script else [], 1):
        if not pattern.fullmatch(line) or line.startswith(MASK) and number > 1:
            return replies, f"bad line {number}"
        replies += replies_of(board, [call_of(line)])
    return replies, ""
