# SPDX-License-Identifier: Apache-2.0 OR BSD-3-Clause
"""The lines of a script, and the board that they drive: the devices, an interrupt line and an output of 256 bytes.

It replies to each line of a script as the program `superio` does, and knows further lines, which the program refuses.
"""
from dataclasses import replace
from typing import Any, Callable, Dict, List, NamedTuple, Optional, Tuple, Union

from .devices import I8042, Rtc, Serial
from .registers import (DLAB, SERIAL, Register, RtcState, SerialState, bits_by_name, check_kind, clock_register,
                        serial_register)
from .saved import SavedStateError

OUTPUT_SIZE = 256
"""How many bytes the board's output takes. Each byte after them is lost."""

_THRE = bits_by_name(SERIAL["IIR"])["THRE"]  # the bit of IIR by which it is pending
_DATA_READY = bits_by_name(SERIAL["LSR"])["DR"]

Value = Union[int, bytes]


class Field(NamedTuple):
    """A field of a line."""

    name: str
    syntax: str     # as `help` shows it
    digits: int     # how many it has, 0 for bytes of two digits each
    kind: str = ""  # what it can be in a shell beside digits: a register or bits of one, or a moment


OFFSET, VALUE = Field("offset", "OO", 2), Field("value", "VV", 2)
SERIAL_OFFSET, SERIAL_VALUE = OFFSET._replace(kind="serial"), VALUE._replace(kind="bits")
MOMENT = Field("moment", "MOMENT", 16, "now")
CLOCK_OFFSET = Field("offset of the clock", "OOOO", 4, "clock")
CLOCK_VALUE = Field("value of the clock", "VVVVVVVV", 8, "bits")
BYTES = Field("bytes", "HH..", 0)

MASK = "refuse"
"""The name of the line that has to be a script's first."""


class Command(NamedTuple):
    """A line: its name, and the values of its fields."""

    name: str
    values: Tuple[Value, ...] = ()


class Line(NamedTuple):
    """What a line is. `tools/generate` makes the tables of docs/SCRIPT.md and web/lines.mjs of it."""

    about: str                           # as `help` lists it
    fields: Tuple[Field, ...]            # of which bytes may be left out
    reply: Callable[..., Optional[str]]  # has a board carry it out, given the values of the fields
    replies: str = ""                    # what a script prints for it, in words
    more: str = ""                       # what else is to be known of it, in sentences


def without_thre(port: Serial) -> Serial:
    """A port after a write to IER whose first interrupt of two was refused.

    The library leaves both conditions pending, so that a caller can ask again. vm-superio, as the program `superio`,
    ends the write at the refusal, before it raises THRE.
    """
    state = port.state
    return Serial.from_state(replace(state, interrupt_identification=state.interrupt_identification & ~_THRE))


class Counts(NamedTuple):
    """How often each event of the serial port was reported."""

    buffer_read: int = 0
    out_byte: int = 0
    tx_lost_byte: int = 0
    in_buffer_empty: int = 0


class Snapshot(NamedTuple):
    """What the board is at a moment."""

    serial: SerialState
    clock: RtcState
    sent: int   # how many bytes went out
    calls: int  # how often the interrupt line was called
    counts: Counts
    others: Tuple[str, ...] = ()  # the other devices, as `repr` shows each


class Call(NamedTuple):
    """A line that the board carried out."""

    number: int                # how many lines the board had carried out, this one included
    command: Command
    reply: Optional[str]       # what a script prints for it, without the LF; `None` if it prints nothing
    before: Snapshot
    after: Snapshot
    answers: Tuple[bool, ...]  # what the interrupt line answered: whether it took each call

    @property
    def is_lost(self) -> bool:
        """Whether the line wrote a byte for which the output had no room."""
        return self.after.counts.tx_lost_byte > self.before.counts.tx_lost_byte

    @property
    def register(self) -> Optional[Register]:
        """The register that the line reads or writes, `None` if it reaches none."""
        name, values = self.command
        if name in ("sr", "sw"):
            return serial_register(values[0], self.before.serial.line_control, name == "sw")
        return clock_register(values[1]) if name in ("cr", "cw") else None


class Board:
    """One device of each kind, with an interrupt line and an output.

    It does not check a command that `parse` did not make.

    >>> board = Board()
    >>> board.run(parse(b"sw 00 48")).reply
    'ok'
    >>> bytes(board.output)
    b'H'
    """

    def __init__(self) -> None:
        self.serial = Serial()
        self.clock = Rtc()
        self.controller = I8042()
        self.output = bytearray()
        self.mask = 0   # the line refuses call k, from 0 and below 64, if bit k is set
        self.calls = 0  # of the line
        self.counts = Counts()
        self.number = 0
        self._answers: List[bool] = []

    def reply(self, command: Command) -> Optional[str]:
        """Carries out a command. Returns the reply of a script, without the LF, or `None` if the line has no reply."""
        check_kind("command", command, Command)
        self._answers = []
        reply = LINES[command.name].reply(self, *command.values)
        self.number += 1
        return reply

    def run(self, command: Command) -> Call:
        """Carries out a command. Returns what it did, with the board before and after."""
        before = self.snapshot()
        reply = self.reply(command)
        return Call(self.number, command, reply, before, self.snapshot(), tuple(self._answers))

    def snapshot(self) -> Snapshot:
        """What the board is now."""
        return Snapshot(self.serial.state, self.clock.state, len(self.output), self.calls, self.counts,
                        (repr(self.controller),))

    def _refuse(self, mask: int) -> None:
        self.mask, self.calls = mask, 0

    def _ask(self, times: int) -> bool:
        """Asks for the interrupt `times` times, up to a refusal. Returns whether nothing was refused."""
        for _ in range(times):
            self._answers.append(not self.mask >> self.calls & 1)
            self.calls += 1
            if not self._answers[-1]:
                return False
        return True

    def _read(self, offset: Union[int, str]) -> int:
        done = self.serial.read(offset)
        if done.buffer_read:
            self._count(buffer_read=True, in_buffer_empty=done.in_buffer_empty)
        return done.byte

    def _serial_write(self, offset: int, value: int) -> str:
        done = self.serial.write(offset, value)
        is_lost = done.sends and not self._send(value)
        is_taken = self._ask(done.interrupts)
        if done.interrupts == 2 and not self._answers[0]:
            self.serial = without_thre(self.serial)
        return "trigger" if not is_taken else "io" if is_lost else "ok"

    def _send(self, value: int) -> bool:
        """Writes a byte to the output. Returns whether there was room."""
        has_room = len(self.output) < OUTPUT_SIZE
        if has_room:
            self.output.append(value)
        self._count(out_byte=has_room, tx_lost_byte=not has_room)
        return has_room

    def _count(self, **events: bool) -> None:
        self.counts = self.counts._replace(**{name: getattr(self.counts, name) + happened
                                              for name, happened in events.items()})

    def _enqueue(self, data: bytes = b"") -> str:
        done = self.serial.enqueue(data)
        is_taken = self._ask(done.interrupts)
        return "full" if done.fifo_full else f"{done.accepted:02x}" if is_taken else "trigger"

    def _drain(self) -> str:
        """What the guest's driver reads: while LSR shows data ready, it reads RBR. With DLAB set it does not."""
        drained = bytearray()
        if not self._read("LCR") & DLAB:
            while self._read("LSR") & _DATA_READY:
                drained.append(self._read("RBR"))
        return drained.hex()

    def _replace_port(self, port: Serial) -> str:
        """Puts another port in the place of this one. It asks for what is pending and enabled. If that is refused, this
        one stays, and the calls do not count."""
        calls = self.calls
        if self._ask(port.interrupts_due()):
            self.serial = port
            return "ok"
        self.calls = calls
        return "trigger"

    def _replace_clock(self, clock: Rtc) -> str:
        self.clock = clock
        return "ok"

    def _clock_read(self, now: int, offset: int) -> str:
        done = self.clock.read(offset, now)
        return "invalid" if done.invalid_read else f"{done.value:08x}"

    def _clock_write(self, now: int, offset: int, value: int) -> str:
        return "invalid" if self.clock.write(offset, value, now).invalid_write else "ok"


def _loaded(data: bytes, kind: Any, replace_device: Callable[[Any], str]) -> str:
    """Puts the device of a saved state in the place of another. If the bytes are no saved state, replies the reason."""
    try:
        return replace_device(kind.from_bytes(data))
    except SavedStateError as error:
        return f"{error.reason} {data[5]:02x}" if error.reason == "unknown version" else error.reason


PROGRAM_LINES: Dict[str, Line] = {
    "sr": Line("the guest reads at offset OO", (SERIAL_OFFSET,), lambda board, offset: f"{board._read(offset):02x}",
               "the byte"),
    "sw": Line("the guest writes VV at offset OO", (SERIAL_OFFSET, SERIAL_VALUE), Board._serial_write,
               "`ok`; `io` if the byte was lost"),
    "sq": Line("the monitor enqueues 0 to 128 bytes", (BYTES,), Board._enqueue,
               "how many were accepted, two digits; `full` if the line has bytes, the port holds 64 already, and it is "
               "not in loopback", "Each has two digits, and no spaces stand between them."),
    "sc": Line("the board tells how many more bytes fit in the FIFO", (),
               lambda board: f"{board.serial.fifo_capacity():02x}",
               "two digits: `40`, which is 64, if no byte is held"),
    "sd": Line("the guest's driver reads what is held", (), Board._drain,
               "the bytes that it read; an empty line if there are none",
               "It reads RBR as long as LSR shows data ready. If DLAB is set, it reads no byte."),
    "ss": Line("the board makes a new port from the old one's saved state", (),
               lambda board: board._replace_port(Serial.from_state(board.serial.state)), "`ok`"),
    "so": Line("the board shows the output of the port so far", (), lambda board: board.output.hex(),
               "the bytes; an empty line if there are none"),
    "st": Line("the board tells how often the interrupt line was called", (), lambda board: f"{board.calls:016x}",
               "sixteen digits", "Refused calls count too."),
    "se": Line("the board tells how often each event was reported", (),
               lambda board: " ".join(f"{count:016x}" for count in board.counts), "four times sixteen digits",
               "The events are RBR reads, bytes out, bytes lost, and RBR reads that left no byte."),
    "cr": Line("the guest reads the clock at offset OOOO", (MOMENT, CLOCK_OFFSET), Board._clock_read,
               "the value, eight digits; `invalid` if the clock has nothing to read there"),
    "cw": Line("the guest writes VVVVVVVV at offset OOOO of the clock", (MOMENT, CLOCK_OFFSET, CLOCK_VALUE),
               Board._clock_write, "`ok`; `invalid` if the clock has nothing to write there"),
    "kr": Line("the guest reads the controller at offset OO", (OFFSET,),
               lambda board, offset: f"{board.controller.read(offset):02x}", "the byte"),
    "kw": Line("the guest writes VV at offset OO of the controller", (OFFSET, VALUE),
               lambda board, offset, value: "reset" if board.controller.write(offset, value).resets else "ok",
               "`reset` if the reset line was called, otherwise `ok`", "The line `kw 04 fe` has the reset command."),
    MASK: Line("the calls that the interrupt line refuses", (Field("mask", "MASK", 16),), Board._refuse, "",
               "Only before every other call. The line refuses call k, from 0, if bit k of the mask is set."),
}
"""The lines of a script, by their names."""

FURTHER_LINES: Dict[str, Line] = {
    "si": Line("the line is idle: RDA is raised again if bytes wait", (),
               lambda board: "ok" if board._ask(board.serial.character_timeout()) else "trigger",
               "`ok`, even if it raised nothing"),
    "sb": Line("the board saves the port", (), lambda board: board.serial.to_bytes().hex(), "the saved state"),
    "sl": Line("the board makes a new port from a saved state", (BYTES,),
               lambda board, data=b"": _loaded(data, Serial, board._replace_port),
               "`ok`, or why the bytes are no saved state", "The line has 0 to 128 bytes."),
    "cb": Line("the board saves the clock", (), lambda board: board.clock.to_bytes().hex(), "the saved state"),
    "cl": Line("the board makes a new clock from a saved state", (BYTES,),
               lambda board, data=b"": _loaded(data, Rtc, board._replace_clock),
               "`ok`, or why the bytes are no saved state", "The line has 0 to 128 bytes."),
}
"""The further lines, by their names: a board carries them out, and the program `superio` refuses them."""

LINES: Dict[str, Line] = {**PROGRAM_LINES, **FURTHER_LINES}
"""All lines that a board carries out, by their names."""
