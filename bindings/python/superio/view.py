# SPDX-License-Identifier: Apache-2.0 OR BSD-3-Clause
"""The viewer of a recorded trace: call by call, as a table, or as a picture."""
import os
import re
import sys
from itertools import groupby
from typing import IO, Callable, Dict, List, Optional, Sequence

from .prompt import Help, Prompt, write_text
from .recording import Step, picture, replay
from .registers import CLOCK, SERIAL
from .script import ScriptError, line_of, shown
from .tell import CONDITIONS, changes, clock_registers, plural, raised, registers, told
from .words import UsageError


def row_of(number: int, step: Step) -> str:
    """A call as a row of the table: its number, line, reply, and what it changed."""
    reply = step.call.reply or ""
    note = f"  recorded: {step.recorded}" if step.differs else ""
    return f"{number:>7}  {line_of(step.call.command):<24}  {reply:<8}  {', '.join(changes(step.call))}".rstrip() + note


def table(steps: Sequence[Step]) -> str:
    """All calls, one in a row."""
    rows = []
    for piece, numbered in groupby(enumerate(steps, 1), key=lambda pair: pair[1].piece):
        rows.extend([f"piece {piece}", *(row_of(number, step) for number, step in numbered)])
    return "\n".join([*rows, ""])


_PLACES: Dict[str, Callable[[Step], bool]] = {
    "interrupt": lambda step: bool(step.call.answers),
    "refused": lambda step: step.is_refused,
    "change": lambda step: bool(changes(step.call)),
    "sent": lambda step: step.has_sent,
    "input": lambda step: len(step.call.after.serial.in_buffer) > len(step.call.before.serial.in_buffer),
    "timeout": lambda step: step.call.command.name == "si",
    "reset": lambda step: step.call.reply == "reset",
    "difference": lambda step: step.differs,
    **{name.lower(): lambda step, name=name: name in raised(step.call) for name in CONDITIONS},
}
"""What a step can be looked for by, beside the registers."""


def wanted_of(word: str) -> Callable[[Step], bool]:
    """What `next WORD` looks for. Raises `ScriptError` if nothing is called so."""
    if word.lower() in _PLACES:
        return _PLACES[word.lower()]
    register = {**SERIAL, **CLOCK}.get(word.upper())
    if register:
        return lambda step: step.call.register is register
    raise ScriptError(f"nothing is called {shown(word)}: there are {', '.join(_PLACES)} and the registers, as LSR")


class Viewer(Prompt):
    """Steps through the calls of a trace."""

    groups = {"Commands": (
        Help("next [N|WHAT]", "N calls forwards, or to the next WHAT: thre, rda, interrupt, refused, sent, input, "
             "timeout, reset, change, difference, or an access of a register, as LSR"),
        Help("back [N|WHAT]", "as next, backwards"),
        Help("goto N", "to call N, counted from 1"),
        Help("first", "to the first call"),
        Help("last", "to the last call"),
        Help("list", "the calls around this one"),
        Help("regs", "every register after this call"),
        Help("help [NAME]", "this list, or more about one command"),
        Help("quit", "ends, as exit and Ctrl-D do"),
    )}

    def __init__(self, steps: Sequence[Step], name: str, out: IO[str]) -> None:
        super().__init__(out)
        self.prompt = "view> " if sys.stdin.isatty() else ""
        self._steps = steps
        self._name = name
        self._place = 0

    def greet(self) -> None:
        steps = self._steps
        differing = sum(step.differs for step in steps)
        self.say(f"{self._name}: {plural(len(steps), 'call')} in {plural(steps[-1].piece, 'piece')}, "
                 f"{differing or 'none'} with another reply than recorded",
                 "Enter steps forwards, back backwards, next thre to where THRE is raised. help lists all.")
        self._go(0)

    def carry_out(self, line: bytes) -> None:
        super().carry_out(line.strip() or b"next")

    def _go(self, place: int) -> None:
        """Goes to a call, and shows it."""
        if place < 0:
            raise ScriptError("there is no call before")
        if place >= len(self._steps):
            raise ScriptError("there is no call further on")
        self._place, step = place, self._steps[place]
        line = f"{line_of(step.call.command)}  {step.call.reply or ''}".rstrip()
        name, words = step.call.register.name if step.call.register else "", told(step.call)
        self.say(f"call {place + 1} of {len(self._steps)}, piece {step.piece}: {line}",
                 f"  {words}" if words.startswith(name) else f"  {name}: {words}",
                 *(f"  {row}" for row in changes(step.call)))
        if step.differs:
            self.say(f"  recorded: {step.recorded}")

    def _seek(self, rest: str, direction: int) -> None:
        if not rest or rest.isdecimal():
            self._go(self._place + direction * int(rest or 1))
            return
        wanted = wanted_of(rest)
        place = self._place + direction
        while 0 <= place < len(self._steps) and not wanted(self._steps[place]):
            place += direction
        if not 0 <= place < len(self._steps):
            raise ScriptError(f"no {rest} {'further on' if direction > 0 else 'before'}")
        self._go(place)

    def do_next(self, rest: str) -> None:
        self._seek(rest, 1)

    def do_back(self, rest: str) -> None:
        self._seek(rest, -1)

    def do_goto(self, rest: str) -> None:
        if not rest.isdecimal():
            raise UsageError
        self._go(int(rest) - 1)

    def do_first(self, _: str) -> None:
        self._go(0)

    def do_last(self, _: str) -> None:
        self._go(len(self._steps) - 1)

    def do_list(self, _: str) -> None:
        first = max(0, self._place - 5)
        self.say(*(("> " if number == self._place + 1 else "  ") + row_of(number, step)
                   for number, step in enumerate(self._steps[first:first + 11], first + 1)))

    def do_regs(self, _: str) -> None:
        after = self._steps[self._place].call.after
        self.say(*registers(after), *clock_registers(after.clock))


def _steps(path: str) -> List[Step]:
    """The calls of a trace, which is unpacked if its name ends in .xz. Raises `ScriptError` if there is none."""
    import lzma
    try:
        if path == "-":
            steps = list(replay("<stdin>", sys.stdin.buffer))
        else:
            with (lzma.open if path.endswith(".xz") else open)(path, "rb") as file:
                steps = list(replay(path, file))
    except (EOFError, lzma.LZMAError) as error:
        raise ScriptError(f"{path}: {error}") from None
    if not steps:
        raise ScriptError(f"{path} has no call")
    return steps


def view(path: str, table_path: Optional[str], svg_path: Optional[str]) -> None:
    """Steps through the trace in a file. With a `table_path`, writes its table to this file instead, or to standard
    output if the name is empty. With an `svg_path`, writes its picture there. Raises `BadLine` at a row that stands for
    no calls."""
    steps, name = _steps(path), re.sub(r"\.xz$", "", os.path.basename(path))
    if svg_path:
        write_text(svg_path, picture(steps, name))
    if table_path:
        write_text(table_path, table(steps))
    elif table_path is not None:
        if sys.stdout.isatty():
            from pydoc import pager   # here, as no other start has to wait for it
            pager(table(steps))
        else:
            sys.stdout.write(table(steps))
    elif not svg_path:
        viewer = Viewer(steps, name, sys.stdout)
        viewer.greet()
        viewer.run_prompt()
