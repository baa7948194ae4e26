# SPDX-License-Identifier: Apache-2.0 OR BSD-3-Clause
"""A session: a board, what a line can make of it, and the lines of its calls."""
import os
import shlex
import time
from typing import IO, Callable, Dict, Iterable, Iterator, List, Optional, Tuple

from .board import FURTHER_LINES, PROGRAM_LINES, Board, Call, Command, Line
from .program import LONGEST
from .prompt import Help, Prompt, write_text
from .registers import CLOCK, SERIAL
from .script import LINE_FIELDS, BadLine, ScriptError, line_of, parse, syntax_of
from .tell import Story, changes, clock_registers, expected_size, registers, told, turn
from .words import Speaker, UsageError

_DEEPEST = 10

INTRO = """\
A serial port and other devices, as a guest sees them.
Try:  write IER RDA    the guest asks for interrupts
      type "hi"        input arrives
      read IIR         the guest asks why
      read RBR         and reads a byte
help lists all commands, Tab completes, Ctrl-D ends."""

_READ, _WRITTEN = (", ".join(name for name, register in SERIAL.items() if letter in register.access) for letter in "rw")
_CLOCK_NAMES = ", ".join(name for name in CLOCK if not name.startswith("ID"))


def _more(line: Line) -> str:
    """What `help NAME` says of a line beside what it is about."""
    return f"{line.more} {line.replies and f'Reply: {line.replies}.'}".strip().replace("`", "")


def _helps(lines: Dict[str, Line]) -> Tuple[Help, ...]:
    """What `help` says of lines."""
    return tuple(Help(syntax_of(name), line.about, _more(line), tuple(field.kind for field in line.fields))
                 for name, line in lines.items())


_GROUPS: Dict[str, Tuple[Help, ...]] = {
    "Serial port": (
        Help("read REGISTER", "the guest reads: read LSR, read 5",
             f"REGISTER is {_READ}, or an offset from 0 to 255.", ("serial",), "sr"),
        Help("write REGISTER VALUE", "the guest writes: write IER RDA|THRE",
             f"REGISTER is {_WRITTEN}, or an offset. VALUE is 65, 0x41, 'A', or names of bits as RDA|THRE; for LCR "
             "also 8N1|DLAB.",
             ("serial", "bits"), "sw"),
        Help('type "TEXT"', "bytes arrive for the guest",
             r"""1 to 128 bytes. In quotes \n, \r, \t, \0, \e, \\, \" and \x41 are single bytes.""", (), "type"),
        Help("timeout", "raises RDA again if bytes wait without it",
             "Bytes wait if IER enables RDA, and a read of IIR or RBR has ended it and left them. A monitor makes this "
             "call after each guest read of IIR that answers none, and once in each turn of its event loop.", (), "si"),
        Help("drain", "the guest's driver reads what is held", means="sd"),
        Help("output", "what the guest sent", means="so"),
        Help("restore", "saves the port and restores it",
             "The restored port asks again for each interrupt that is pending and enabled.", (), "ss"),
    ),
    "Clock and reset controller": (
        Help("clock read|write REGISTER [VALUE] [MOMENT]", "clock read DR now, clock write IMSC 1",
             f"REGISTER is {_CLOCK_NAMES}, ID0 to ID7, or an offset. MOMENT is now, now+5, or seconds since 1970; it "
             "is now if left out.", ("read write", "clock"), "clock"),
        Help("alarm +SECONDS|GUEST_TIME [MOMENT]", "sets the clock's match register",
             "alarm +5 is in 5 seconds. GUEST_TIME is in seconds since 1970: alarm 5 was long ago. The line goes up if "
             "IMSC is 1.", ("+",), "alarm"),
        Help("i8042 read|write OFFSET [VALUE]", "i8042 write 4 0xfe resets the machine", "", ("read write",), "i8042"),
    ),
    "What happened": (
        Help("regs [serial|clock]", "every register, the FIFO and what is pending", "", ("serial clock",)),
        Help("why", "why each interrupt is pending, or is not"),
        Help("diff", "what the last call changed"),
        Help("trace [on|off|FILE]", "every call as a line",
             "trace alone lists those since the last reset, and trace FILE writes them to a file, for load and for the "
             "viewer. trace on shows each from now on.", ("on off",)),
        Help("script [FILE]", "the same calls as a script for the program superio",
             "script FILE writes it to a file. The program has no further lines: those that changed nothing are left "
             "out, and if one changed something, there is no such script.", ("file",)),
    ),
    "Session": (
        Help("save FILE", "saves port and clock", "The file has the two lines that load them, sl and cl. load takes "
             "it, and the program superio does not.", ("file",)),
        Help("load FILE", "carries out the lines of a file, such as save wrote",
             "The port goes on over the board's own line and output. If the line refuses an interrupt that is due, the "
             "port stays as it was.", ("file",)),
        Help("source FILE", "as load", "", ("file",)),
        Help("reset", "a fresh board, on which every device is new, also the clock"),
        Help("help [NAME]", "this list, or more about one command", "", ("command",)),
        Help("quit", "ends, as exit and Ctrl-D do"),
    ),
    "Lines of a script, with hexadecimal fields": _helps(PROGRAM_LINES),
    "Further lines, which the program superio does not take": _helps(FURTHER_LINES),
}


def _path(rest: str) -> str:
    """The one file that a command names."""
    try:
        (word,) = shlex.split(rest)
    except ValueError:
        raise UsageError from None
    return os.path.expanduser(word)


def _read(path: str, file: Iterable[bytes]) -> Iterator[bytes]:
    """The lines of an open file. An error of a read has the file's name, and one of a write has none."""
    try:
        yield from file
    except OSError as error:
        error.filename = path
        raise


class Session(Prompt):
    """Carries out lines on a board, and writes the replies to a stream."""

    groups, prompt, intro = _GROUPS, "superio> ", INTRO

    def __init__(self, out: "IO[str]", host_time: Callable[[], float] = time.time) -> None:
        super().__init__(out)
        self._depth = 0
        self._shows_calls = False
        self._explains = False  # says more than a script's reply, to somebody at a prompt
        self._host_time = host_time
        self.renew()

    def renew(self) -> None:
        """Puts a fresh board in the place of this one."""
        self.board = Board()
        self._speaker = Speaker(self.board, self._now)
        self._story = Story()
        self.last: Optional[Call] = None
        self.commands: List[Command] = []
        self._script: List[str] = []
        self._outside: Optional[Call] = None  # the first call that no script for the program can make

    def _now(self) -> int:
        """The host's time, in seconds since 1970, or 0 if it is before that."""
        return max(0, int(self._host_time()))

    def carry_out(self, line: bytes) -> None:
        """Carries out a line, which may be blank or a comment. Most lines of a file are those of a script."""
        try:
            command = parse(line, is_first=self.board.number == 0)
        except ScriptError:
            if line.strip() and not line.lstrip().startswith(b"#"):
                super().carry_out(line)
        else:
            self.run(command, is_short=True)

    def perform(self, name: str, rest: str) -> None:
        if name in LINE_FIELDS:
            self.run(self._speaker.line(name, rest), is_short=True)
        elif self.help[name].means:
            self.run(self._speaker.command(self.help[name].means, rest), is_short=False)
        else:
            super().perform(name, rest)

    def run(self, command: Command, is_short: bool) -> None:
        """Carries out a command, and writes what it replied: what a script prints if `is_short`, otherwise in words."""
        call = self.last = self.board.run(command)
        self.commands.append(command)
        self._note_for_script(call)
        self._story.note(call)
        if self._shows_calls:
            self.say(line_of(command))
        if call.reply is not None:
            self.say(call.reply if is_short else told(call), *(expected_size(call) if self._explains else ()))

    def _note_for_script(self, call: Call) -> None:
        """Keeps what a script for the program has. A further line that changed nothing, such as a load that was
        refused, can be left out of it."""
        if call.command.name not in FURTHER_LINES:
            self._script.append(line_of(call.command))
        elif call.before != call.after:
            self._outside = self._outside or call

    def run_lines(self, name: str, lines: Iterable[bytes]) -> None:
        """Carries out the lines of a file of this name. `BadLine` names the first that is not carried out."""
        for number, line in enumerate(lines, 1):
            line = line[:-1] if line.endswith(b"\n") else line
            try:
                self.carry_out(line)
            except (ValueError, OSError) as error:
                if isinstance(error, OSError) and not error.filename:
                    raise  # the reply was not written
                raise BadLine(name, number, line, error) from error

    def run_file(self, path: str) -> None:
        """Carries out the lines of the file at this path."""
        with open(path, "rb") as file:
            self.run_lines(path, _read(path, file))

    def run_prompt(self) -> None:
        self._explains = True
        super().run_prompt()

    def do_regs(self, rest: str) -> None:
        if rest not in ("", "serial", "clock"):
            raise UsageError
        if rest != "clock":
            self.say(*registers(self.board.snapshot()))
        if rest != "serial":
            self.say(*clock_registers(self.board.clock.state, self._now()))

    def do_why(self, _: str) -> None:
        self.say(*self._story.lines(self.board))

    def do_diff(self, _: str) -> None:
        if self.last is None:
            raise ScriptError("no call was made yet")
        rows = changes(self.last) or ["nothing changed"]
        self.say(line_of(self.last.command), *("  " + row for row in rows))

    def do_save(self, rest: str) -> None:
        path = _path(rest)
        write_text(path, f"sl {self.board.serial.to_bytes().hex()}\ncl {self.board.clock.to_bytes().hex()}\n")
        self.say(f"port and clock saved to {path}")

    def do_load(self, rest: str) -> None:
        if self._depth == _DEEPEST:
            raise ScriptError(f"files that load each other go at most {_DEEPEST} deep")
        self._depth += 1
        try:
            self.run_file(_path(rest))
        finally:
            self._depth -= 1

    do_source = do_load

    def do_reset(self, _: str) -> None:
        self.renew()
        self.say("a fresh board")

    def do_trace(self, rest: str) -> None:
        if rest in ("on", "off"):
            self._shows_calls = rest == "on"
            self.say(f"trace is {rest}")
        else:
            lines = [line_of(command) for command in self.commands]
            self._tell_lines(rest, lines, "the calls since the last reset are")

    def do_script(self, rest: str) -> None:
        if self._outside:
            raise ScriptError(f"the program superio has no script of this session: {turn(self._outside)}, is none of "
                              "its lines. trace FILE writes all calls, for load and for the viewer")
        if sum(len(line) + 1 for line in self._script) > LONGEST:
            raise ScriptError(f"a script for the program superio has at most {LONGEST:,} bytes, and these are "
                              "more. trace FILE writes all calls, for load and for the viewer")
        self._tell_lines(rest, self._script, "the script is")

    def _tell_lines(self, rest: str, lines: List[str], what: str) -> None:
        """Writes lines to the file that a command names, or else to the stream."""
        if rest:
            path = _path(rest)
            write_text(path, "".join(f"{line}\n" for line in lines))
            self.say(f"{what} in {path}")
        else:
            self.say(*lines)
