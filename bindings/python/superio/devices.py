# SPDX-License-Identifier: Apache-2.0 OR BSD-3-Clause
"""The devices as Python objects, over the functions of superio.h.

For a monitor, `Console` is a serial port that also does the monitor's part. `Serial` is the bare port.

A call returns its effects: what is left for you to do. There are no callbacks. An offset is a number, or the name of a
register. A number out of range raises `ValueError`, and an argument of another type `TypeError`. Then nothing changes.
"""
from ctypes import byref, c_uint8
from functools import lru_cache
from typing import Any, NamedTuple, Optional, Union

from .library import (CONSOLE_SAVED_MAX, RTC_SAVED_SIZE, SERIAL_SAVED_MAX, ConsoleStruct, RtcStruct, SerialStruct,
                      load)
from .registers import (CLOCK, CLOCK_KEPT, FIELDS, FIFO_SIZE, OUTPUT_SIZE, SERIAL, ConsoleState, Register, RtcState,
                        SerialState, State, bit_names, byte_string, check_kind, clock_offset, number, serial_offset)
from .saved import Saved

__all__ = ["Console", "ConsoleRead", "ConsoleReceived", "EnqueueEffects", "I8042", "I8042WriteEffects", "ReadEffects",
           "Rtc", "RtcReadEffects", "RtcWriteEffects", "Serial", "Wants", "Work", "WriteEffects"]

_NEVER = 2 ** 64 - 1
_STATES = 1024
_OR_NAME = ", or the name of a register,"


class ReadEffects(NamedTuple):
    """What a read of the serial port did.

    `byte` is what the guest reads. The events are `buffer_read`, if the guest read the data register, and
    `in_buffer_empty`, if it did and no byte is held now.
    """

    byte: int
    buffer_read: bool
    in_buffer_empty: bool


class WriteEffects(NamedTuple):
    """What a write to the serial port leaves to you.

    `sends` is whether the written value goes out, and `interrupts` how often to ask for the interrupt: 0 to 2 times.
    """

    sends: bool
    interrupts: int


class EnqueueEffects(NamedTuple):
    """What an enqueue did, and leaves to you.

    `accepted` is how many of the bytes went in, from the first on. `fifo_full` is whether bytes came, outside
    loopback, while 64 were held already. `interrupts` is how often to ask for the interrupt: 0 or 1 times.
    """

    accepted: int
    fifo_full: bool
    interrupts: int


class RtcReadEffects(NamedTuple):
    """What a read of the clock did.

    `value` is the number whose bytes the guest reads, lowest first. The event `invalid_read` says that there is nothing
    to read here; then `value` is 0.
    """

    value: int
    invalid_read: bool


class RtcWriteEffects(NamedTuple):
    """What a write to the clock did. The event `invalid_write` says that this offset takes no write."""

    invalid_write: bool


class I8042WriteEffects(NamedTuple):
    """What a write to the reset controller leaves to you. `resets` is whether the guest asks to reset the machine."""

    resets: bool


class Work(NamedTuple):
    """What a call of a console leaves to you.

    If your interrupt controller is edge-triggered, raise the interrupt `interrupts` times, 0 to 2. If one of them is
    refused, leave out the others and call `refuse`. If it is level-triggered, set the line to `is_up` instead. If
    `wakes` is true, wake your event loop, unless it made the call: `wants` names something that it did not name before.
    """

    interrupts: int
    is_up: bool
    wakes: bool


class Wants(NamedTuple):
    """What your event loop waits for.

    `input` is how many bytes of input the console takes, 0 to 64. While it is 0, do not read from the source of input.
    `output` says that output waits, so wait until its reader has room. `turn` says that your poll has to end after some
    milliseconds at most, and that you then call `turn`, whatever happened.
    """

    input: int
    output: bool
    turn: bool


class ConsoleRead(NamedTuple):
    """What a guest's read of a console did: the `byte` that the guest reads, and the `work` that is left to you."""

    byte: int
    work: Work


class ConsoleReceived(NamedTuple):
    """What a `receive` did: how many bytes were `accepted`, from the first on, and the `work` that is left to you."""

    accepted: int
    work: Work


class Console(Saved):
    """A serial port with the monitor's end of its line. `copy` and `pickle` use its saved state.

    It has the port, at most 4,096 bytes of the guest's output that wait for their reader, and what it has to know of
    the guest. So it tells when input may go in and how much, which interrupts to raise and to repeat, and when your
    event loop has to come back. It calls nothing, and knows no file, thread or time: you carry out the `Work` of each
    call, and your event loop polls for what `wants` says.

    Without `polled`, input waits until the guest's driver is ready: until a write at offset 1 leaves IER with RDA and
    without THRE. With `polled`, input goes in at once, for a guest that polls the port, such as a boot loader.

    >>> console = Console()
    >>> console.write("IER", 0x01)
    Work(interrupts=0, is_up=False, wakes=True)
    >>> console.wants()
    Wants(input=64, output=False, turn=False)
    >>> console.receive(b"hi")
    ConsoleReceived(accepted=2, work=Work(interrupts=1, is_up=True, wakes=True))
    >>> console.read("RBR")
    ConsoleRead(byte=104, work=Work(interrupts=0, is_up=False, wakes=False))
    >>> console.write("THR", ord("!"))
    Work(interrupts=0, is_up=False, wakes=True)
    >>> console.output()
    b'!'
    """

    __slots__ = ()
    _name, _saved_max = "console", CONSOLE_SAVED_MAX

    def __init__(self, polled: bool = False) -> None:
        check_kind("polled", polled, bool)
        super().__init__()
        self._function("new")(self._pointer, polled)

    def _new(self) -> Any:
        return ConsoleStruct()  # too large for C to return one

    def read(self, offset: Union[int, str]) -> ConsoleRead:
        """The guest reads at an offset, 0 to 255, or a register by its name.

        Raises `RegisterError` if no register has the name, or if the read would reach another one.
        """
        done = self._library.superio_console_read(self._pointer, _port_offset(offset, self._struct.port, False))
        return ConsoleRead(done.byte, _work(done.work))

    def write(self, offset: Union[int, str], value: int) -> Work:
        """The guest writes a value, 0 to 255, at an offset, 0 to 255, or to a register by its name.

        A byte that it sends waits for its reader, or is dropped and counted if 4,096 bytes wait. To lose none, hold the
        guest while `is_full` is true after this call.

        Raises `RegisterError` if no register has the name, or if the write would reach another one.
        """
        offset = _port_offset(offset, self._struct.port, True)
        return _work(self._library.superio_console_write(self._pointer, offset, number("value", value, 8)))

    def wants(self) -> Wants:
        """What your event loop waits for now. The console does not change."""
        done = self._library.superio_console_wants(self._pointer)
        return Wants(done.input, done.output, done.turn)

    def receive(self, data: bytes) -> ConsoleReceived:
        """Input arrives for the guest. The console accepts the first bytes, as many as `wants().input` says.

        Keep the others, and offer them again when the console wants more. If you never read more than that from the
        source of input, there are no others.
        """
        data = byte_string("data", data)
        done = self._library.superio_console_receive(self._pointer, data, len(data))
        return ConsoleReceived(done.accepted, _work(done.work))

    def output(self) -> bytes:
        """All output that waits, oldest first: at most 4,096 bytes. The console does not change.

        Pass it to the reader, and then how many bytes the reader took to `consume`.
        """
        rest, room, waiting = ConsoleStruct.from_buffer_copy(self._struct), (c_uint8 * OUTPUT_SIZE)(), b""
        while True:  # up to the last place of the ring, and then from its first place on
            count = self._library.superio_console_output(byref(rest), room, OUTPUT_SIZE)
            if not count:
                return waiting
            waiting += bytes(room)[:count]
            self._library.superio_console_consume(byref(rest), count)

    def consume(self, count: int) -> None:
        """The reader has taken the first bytes of the output that waits: `count`, or all if fewer wait.

        This leaves no work.
        """
        self._library.superio_console_consume(self._pointer, number("count", count, 64))

    def is_full(self) -> bool:
        """Whether 4,096 bytes of output wait, so that the next byte that the guest sends is dropped.

        To lose none, hold the guest now, after its access and without your lock, until the reader has taken some.
        """
        return self._library.superio_console_is_full(self._pointer)

    def dropped(self) -> int:
        """How many bytes of output were dropped, up to 2^64 - 1."""
        return self._library.superio_console_dropped(self._pointer)

    def turn(self) -> Work:
        """Your event loop makes a turn: its poll has returned, for whatever reason.

        Bytes that the guest has left interrupt it again, and so does what was refused.
        """
        return _work(self._library.superio_console_turn(self._pointer))

    def refuse(self) -> Work:
        """An interrupt that a call asked for was refused, or may be lost.

        Turns and writes of IER ask again for what is pending and enabled, until one of them finds something.
        """
        return _work(self._library.superio_console_refuse(self._pointer))

    def reset(self) -> Work:
        """The guest's machine is reset. The port is a new one, and the bytes that it held are lost.

        Input waits again unless the guest polls. Waiting output is kept.
        """
        return _work(self._library.superio_console_reset(self._pointer))

    def suspend(self) -> None:
        """The guest's machine sleeps in memory. It is reset when it wakes, so input waits from now on.

        It waits, even if the guest polls, until a reset or until a write at offset 1 leaves IER with RDA and without
        THRE (a write of DLM with such an IER counts too). This leaves no work.
        """
        self._library.superio_console_suspend(self._pointer)

    def set_polled(self, polled: bool) -> Work:
        """Says whether the guest polls from now on. A guest may do both: its loader polls, and its kernel does not."""
        check_kind("polled", polled, bool)
        return _work(self._library.superio_console_set_polled(self._pointer, polled))

    @property
    def state(self) -> ConsoleState:
        """The port's registers and held bytes, the output that waits and all else, as a value."""
        struct = self._struct
        return ConsoleState(_serial_state(bytes(struct.port)), self.output(), self.dropped(),
                            *map(bool, (struct.is_polled, struct.is_ready, struct.is_asleep, struct.is_refused)))

    @classmethod
    def from_state(cls, state: ConsoleState) -> "Console":
        """A console of this state. Afterwards do what `from_bytes` says.

        `Serial.from_state(state.port).is_coherent()` tells whether its port is coherent.
        """
        console = cls()
        check_kind("state", state, ConsoleState)
        struct = console._struct
        _fill(struct, state)
        _fill_port(struct.port, state.port)
        struct.output_head, struct.output_len = 0, len(state.output)
        struct.output_bytes[:] = state.output.ljust(OUTPUT_SIZE, b"\0")
        return console

    def __repr__(self) -> str:
        state = self.state
        shown = " ".join(f"{name}={getattr(state, name)}" for name in ConsoleState.kinds())
        return f"<Console {_port_shown(state.port)} output={len(state.output)} bytes {shown}>"


def _work(work: Any) -> Work:
    return Work(work.interrupts, work.is_up, work.wakes)


class Serial(Saved):
    """A 16550 serial port with a receive FIFO of 64 bytes. `copy` and `pickle` use its saved state.

    A new port has divisor 12, 8 bits a character, OUT2 set, and nothing enabled, pending or held. It is a port alone:
    `docs/PORT.md` says what your monitor then has to do. A `Console` does all of that for you.

    >>> port = Serial()
    >>> port.write("IER", 0x01)
    WriteEffects(sends=False, interrupts=0)
    >>> port.enqueue(b"hi")
    EnqueueEffects(accepted=2, fifo_full=False, interrupts=1)
    >>> chr(port.read("RBR").byte)
    'h'
    """

    __slots__ = ()
    _name, _saved_max = "serial", SERIAL_SAVED_MAX

    def read(self, offset: Union[int, str]) -> ReadEffects:
        """The guest reads at an offset, 0 to 255, or a register by its name. A read asks for no interrupt.

        Raises `RegisterError` if no register has the name, or if the read would reach another one.
        """
        done = self._library.superio_serial_read(self._pointer, _port_offset(offset, self._struct, False))
        return ReadEffects(done.byte, done.buffer_read, done.in_buffer_empty)

    def write(self, offset: Union[int, str], value: int) -> WriteEffects:
        """The guest writes a value, 0 to 255, at an offset, 0 to 255, or to a register by its name.

        Afterwards send the value if `sends` is true, and then ask for the interrupt as often as `interrupts` says, up
        to the first refusal.

        Raises `RegisterError` if no register has the name, or if the write would reach another one.
        """
        offset = _port_offset(offset, self._struct, True)
        done = self._library.superio_serial_write(self._pointer, offset, number("value", value, 8))
        return WriteEffects(done.sends, done.interrupts)

    def enqueue(self, data: bytes) -> EnqueueEffects:
        """Bytes arrive for the guest. The port accepts as many as fit, from the first on, and none in loopback.

        Afterwards ask for the interrupt as often as `interrupts` says. Keep the bytes that were not accepted.
        """
        data = byte_string("data", data)
        done = self._library.superio_serial_enqueue(self._pointer, data, len(data))
        return EnqueueEffects(done.accepted, done.fifo_full, done.interrupts)

    def character_timeout(self) -> int:
        """Raises RDA again if bytes are held, IER enables RDA and RDA is not pending. Otherwise nothing changes.

        Returns how often to ask for the interrupt: 0 or 1 times.

        A read of IIR or RBR ends RDA even if bytes are left. Without this call, these bytes then wait without an
        interrupt.
        """
        return self._library.superio_serial_character_timeout(self._pointer)

    def fifo_capacity(self) -> int:
        """How many bytes there is room for: 64 less those that are held."""
        return self._library.superio_serial_fifo_capacity(self._pointer)

    def interrupts_due(self) -> int:
        """How often to ask for the interrupt now: once for each condition that is pending and enabled, 0 to 2 times.

        What IER disables does not count. The port does not change.
        """
        return self._library.superio_serial_interrupts_due(self._pointer)

    def interrupt_line(self) -> bool:
        """Whether the interrupt line is up, because a condition is pending that IER enables. The port does not change.

        If your interrupt controller is level-triggered, set your line to this level after every call, including reads,
        and do not ask for the interrupt.
        """
        return self._library.superio_serial_interrupt_line(self._pointer)

    def is_coherent(self) -> bool:
        """Whether the port is coherent. A new one is, and stays so. A restored one need not be, and is still safe.

        In a coherent port LSR shows data ready exactly while bytes are held, IIR is 1, 2, 4 or 6, and RDA is pending
        only while bytes are held.
        """
        return self._library.superio_serial_is_coherent(self._pointer)

    @property
    def state(self) -> SerialState:
        """The registers and the held bytes, as a value."""
        return _serial_state(bytes(self._struct))

    @classmethod
    def from_state(cls, state: SerialState) -> "Serial":
        """A port of this state."""
        port = cls()
        check_kind("state", state, SerialState)
        _fill_port(port._struct, state)
        return port

    def __repr__(self) -> str:
        return f"<Serial {_port_shown(self.state)}>"


def _port_offset(offset: Union[int, str], port: Any, is_write: bool) -> int:
    """The offset of an access to the port of a struct."""
    if isinstance(offset, str):
        return serial_offset(offset, port.line_control, is_write)
    return number("offset", offset, 8, instead=_OR_NAME)


def _fill(struct: Any, state: State) -> None:
    """Sets the fields of a struct that have the names of a state's."""
    for name in state.kinds():
        setattr(struct, name, getattr(state, name))


def _fill_port(struct: Any, state: SerialState) -> None:
    _fill(struct, state)
    struct.head, struct.len = 0, len(state.in_buffer)
    struct.bytes[:] = state.in_buffer.ljust(FIFO_SIZE, b"\0")


def _port_shown(state: SerialState) -> str:
    """A port as `repr` shows it."""
    shown = [_decoded(SERIAL[name], getattr(state, field)) for name, field in FIELDS.items() if name[:2] != "DL"]
    divisor = state.baud_divisor_high << 8 | state.baud_divisor_low
    return f"divisor={divisor} {' '.join(shown)} in_buffer={state.in_buffer!r}"


class Rtc(Saved):
    """A PL031 real-time clock, which counts seconds. `copy` and `pickle` use its saved state.

    In a new clock guest time is the host's, and no alarm is set. It reads no clock of the host: you pass each access
    its moment `now`, in whole seconds since 1970, such as `int(time.time())`. Only the low 32 bits of a moment count.

    >>> clock = Rtc()
    >>> clock.write("LR", 100, now=1000)
    RtcWriteEffects(invalid_write=False)
    >>> clock.read("DR", now=1007).value
    107
    """

    __slots__ = ()
    _name, _saved_max = "rtc", RTC_SAVED_SIZE

    def read(self, offset: Union[int, str], now: int) -> RtcReadEffects:
        """The guest reads four bytes at an offset, 0 to 0xFFFF, or a register by its name.

        `now` is the moment. If there is nothing to read at the offset, `invalid_read` is true.

        Raises `RegisterError` if no register has the name.
        """
        done = self._library.superio_rtc_read(self._pointer, _clock_offset(offset), number("now", now, 64))
        return RtcReadEffects(done.value, done.invalid_read)

    def write(self, offset: Union[int, str], value: int, now: int) -> RtcWriteEffects:
        """The guest writes a value of 32 bits at an offset, 0 to 0xFFFF, or to a register by its name.

        `now` is the moment. If the offset takes no write, nothing is stored, and `invalid_write` is true.

        Raises `RegisterError` if no register has the name.
        """
        done = self._library.superio_rtc_write(self._pointer, _clock_offset(offset), number("value", value, 32),
                                               number("now", now, 64))
        return RtcWriteEffects(done.invalid_write)

    def interrupt_line(self) -> bool:
        """Whether the clock's interrupt line is up: bit 0 of `ris & imsc`. Set your line to it after each access."""
        return self._library.superio_rtc_interrupt_line(self._pointer)

    def alarm_due(self, now: int) -> Optional[int]:
        """In how many seconds after the moment `now` an access finds the alarm reached, if the guest makes none before.

        Less than 2^32; `None` if no alarm is set, or if guest time never reaches the match. Set a timer, and make an
        access when it goes off.
        """
        seconds = self._library.superio_rtc_alarm_due(self._pointer, number("now", now, 64))
        return None if seconds == _NEVER else seconds

    @property
    def state(self) -> RtcState:
        """The registers, the offset and the alarm, as a value."""
        return _clock_state(bytes(self._struct))

    @classmethod
    def from_state(cls, state: RtcState) -> "Rtc":
        """A clock of this state."""
        clock = cls()
        check_kind("state", state, RtcState)
        _fill(clock._struct, state)
        return clock

    def __repr__(self) -> str:
        state = self.state
        shown = [_decoded(CLOCK[name], getattr(state, name.lower()), 10) for name in CLOCK_KEPT]
        return f"<Rtc {' '.join(shown)} offset={state.offset} armed={state.armed}>"


@lru_cache(maxsize=_STATES)
def _serial_state(raw: bytes) -> SerialState:
    """The state that a struct has. A program looks at most states many times."""
    port = SerialStruct.from_buffer_copy(raw)
    place = port.head % FIFO_SIZE
    held = bytes(port.bytes[place:]) + bytes(port.bytes[:place])
    return SerialState(**{name: getattr(port, name) for name in SerialState.kinds()}, in_buffer=held[:port.len])


@lru_cache(maxsize=_STATES)
def _clock_state(raw: bytes) -> RtcState:
    clock = RtcStruct.from_buffer_copy(raw)
    return RtcState(**{name: getattr(clock, name) for name in RtcState.kinds()})


class I8042:
    """An i8042 keyboard controller that knows one command: 0xFE at offset 4 resets the machine. It has no state.

    >>> I8042().write(4, 0xFE)
    I8042WriteEffects(resets=True)
    """

    def __init__(self) -> None:
        load()  # as each device does, so that the first one says if there is no library

    def read(self, offset: int) -> int:
        """What the guest reads at an offset, 0 to 255: 0, at every one."""
        return load().superio_i8042_read(number("offset", offset, 8))

    def write(self, offset: int, value: int) -> I8042WriteEffects:
        """The guest writes a value, 0 to 255, at an offset, 0 to 255."""
        done = load().superio_i8042_write(number("offset", offset, 8), number("value", value, 8))
        return I8042WriteEffects(done.resets)

    def __repr__(self) -> str:
        return "<I8042>"


def _clock_offset(offset: Union[int, str]) -> int:
    return clock_offset(offset) if isinstance(offset, str) else number("offset", offset, 16, instead=_OR_NAME)


def _decoded(register: Register, value: int, width: int = 4) -> str:
    """A register as `repr` shows it: its name, its value, and the names of its bits."""
    names = "|".join(bit_names(register, value))
    return f"{register.name}={value:#0{width}x}" + (f"({names})" if names else "")
