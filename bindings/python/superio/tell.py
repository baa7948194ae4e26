# SPDX-License-Identifier: Apache-2.0 OR BSD-3-Clause
"""What a call did, what a board is, and why an interrupt is pending or not, in words."""
from copy import copy
from datetime import datetime, timedelta
from typing import Dict, List, Optional, Tuple

from .board import OUTPUT_SIZE, Board, Call, Snapshot
from .devices import Rtc, Serial
from .library import RTC_SAVED_SIZE, SERIAL_SAVED_MAX
from .registers import (CLOCK, CLOCK_KEPT, FIELDS, FIFO_BITS, FIFO_SIZE, LOOPBACK, SERIAL, Register, RtcState,
                        SerialState, bit_names, bits_by_name)
from .script import line_of

CONDITIONS = bits_by_name(SERIAL["IIR"])
"""The interrupt conditions, each with its bit of IIR."""

ENABLES = bits_by_name(SERIAL["IER"])
"""The bit of IER that enables each condition."""

# The registers that a port keeps, with IIR last, as a call changes it last, and the width of each as it is shown.
_CHANGED = sorted(FIELDS, key="IIR".__eq__)
_COMPARED = [*((SERIAL[name], 4) for name in _CHANGED), *((CLOCK[name], 10) for name in CLOCK_KEPT)]

_ACKNOWLEDGED_BY = {"RDA": "A read of IIR or of RBR acknowledges it.", "THRE": "A read of IIR acknowledges it."}


def plural(count: int, noun: str) -> str:
    return f"{count} {noun}" if count == 1 else f"{count} {noun}s"


def quoted(data: bytes, most: int = FIFO_SIZE) -> str:
    """Bytes as a text in double quotes, with escapes that a shell's `type` takes."""
    shown = "".join(chr(byte) if 32 <= byte < 127 and byte not in b'"\\' else
                    {10: "\\n", 13: "\\r", 9: "\\t", 34: '\\"', 92: "\\\\"}.get(byte, f"\\x{byte:02x}")
                    for byte in data[:most])
    return f'"{shown}"' + (".." if len(data) > most else "")


def _decoded(register: Register, value: int, width: int) -> str:
    """A value in as many characters, and the names of the register's bits in it."""
    names = " ".join(bit_names(register, value))
    return f"{value:#0{width}x}" + (f"  {names}" if names else "")


def pending(state: SerialState) -> List[str]:
    """The conditions that are pending."""
    return [name for name, bit in CONDITIONS.items() if state.interrupt_identification & bit]


def raised(call: Call) -> List[str]:
    """The conditions that a call raised."""
    return [name for name in pending(call.after.serial) if name not in pending(call.before.serial)]


def _answers(call: Call) -> Dict[str, bool]:
    """What the interrupt line answered for each condition. A call asks it for the conditions that it raised, and a
    restore for all that are pending and enabled. If the line refuses a load, nothing of the loaded port is left."""
    state, name = call.after.serial, call.command.name
    if name == "ss" or (name == "sl" and call.reply == "ok"):
        return dict(zip((one for one in pending(state) if state.interrupt_enable & ENABLES[one]), call.answers))
    return dict(zip(raised(call), call.answers))


def _interrupts(call: Call) -> str:
    """What the interrupt line was asked, empty if it was not called."""
    answers = ", ".join(name + ("" if taken else " refused") for name, taken in _answers(call).items())
    return f"; interrupt for {answers}" if answers else ""


def told(call: Call) -> str:
    """What a call did, for a person who typed words."""
    tell = _TELLERS.get(call.command.name)
    return tell(call) if tell else call.reply or ""


def _read(call: Call) -> str:
    """What a read of port or clock found."""
    register, value = call.register, int(call.reply or "0", 16)
    note = " ".join(bit_names(register, value)) if register else ""
    if register and register.name == "RBR":
        note = quoted(bytes([value])) if call.before.serial.in_buffer else "no byte was held"
    if register and register.name == "DR":
        note = f"{date_of(value)} UTC"
    name = register.name if register else f"offset {call.command.values[0]:#04x}"
    return f"{name} = 0x{call.reply}  {note}".rstrip()


def _serial_write(call: Call) -> str:
    sent = quoted(bytes(call.command.values[1:]))
    text = "ok"
    if call.register is None or call.register.ignored:
        text = "ignored"
    elif call.is_lost:
        text = f"{sent} lost: the output is full, with {OUTPUT_SIZE} bytes"
    elif call.after.sent > call.before.sent:
        text = f"sent {sent}"
    return text + _interrupts(call)


def _enqueue(call: Call) -> str:
    data = call.command.values[0] if call.command.values else b""
    state = call.after.serial
    accepted = len(state.in_buffer) - len(call.before.serial.in_buffer)
    noun = "byte" if len(data) == 1 else "bytes"
    if accepted == len(data):
        return f"{accepted} {noun} received" + _interrupt_for_data(call)
    reason = "the port is in loopback" if state.modem_control & LOOPBACK else "the FIFO is full"
    return f"{accepted} of {len(data)} {noun} received: {reason}" + _interrupts(call)


def _character_timeout(call: Call) -> str:
    held = len(call.before.serial.in_buffer)
    return f"{plural(held, 'byte')} held" + _interrupt_for_data(call) if held else "no interrupt: no byte is held"


def _interrupt_for_data(call: Call) -> str:
    """What the interrupt line was asked, or why it was not although bytes are held."""
    is_enabled = call.after.serial.interrupt_enable & ENABLES["RDA"]
    reason = "RDA is pending already" if is_enabled else "IER does not enable RDA"
    return _interrupts(call) or f"; no interrupt: {reason}"


def date_of(seconds: int) -> str:
    """A guest time of 32 bits as a date and time of UTC."""
    return f"{datetime(1970, 1, 1) + timedelta(seconds=seconds):%Y-%m-%d %H:%M:%S}"


def _clock_access(call: Call) -> str:
    moment, offset, *value = call.command.values
    if call.reply == "invalid":
        place = f"{offset:#06x}" + (f", {call.register.name}" if call.register else "")
        return f"invalid: nothing can be {'written' if value else 'read'} at {place}"
    if not value:
        return _read(call)
    if offset != CLOCK["MR"].offset:
        return "ok"
    if call.after.clock.armed:
        return f"alarm set for guest time {value[0]:#010x}  {date_of(value[0])} UTC"
    if Rtc.from_state(call.after.clock).read("DR", moment).value == value[0]:   # RIS may have been up before
        return "ok: guest time is there, so the alarm is up"
    return f"ok, and no alarm: guest time {value[0]:#010x}, {date_of(value[0])} UTC, is past"


_SIZES = {"sl": ("serial port", SERIAL_SAVED_MAX - FIFO_SIZE, SERIAL_SAVED_MAX),
          "cl": ("clock", RTC_SAVED_SIZE, RTC_SAVED_SIZE)}


def expected_size(call: Call) -> List[str]:
    """How long a saved state has to be, if a line was to load one of another length."""
    if call.command.name not in _SIZES or call.reply not in ("too short", "wrong length", "too many bytes"):
        return []
    name, least, most = _SIZES[call.command.name]
    given = len(call.command.values[0]) if call.command.values else 0
    return [f"{plural(given, 'byte')} came, and a saved {name} has {least if least == most else f'{least} to {most}'}"]


def _text_output(call: Call) -> str:
    return quoted(bytes.fromhex(call.reply or ""), OUTPUT_SIZE)


_TELLERS = {
    "sr": _read, "sw": _serial_write, "sq": _enqueue, "si": _character_timeout, "sd": _text_output,
    "so": _text_output, "ss": lambda call: ("restored" if call.reply == "ok" else "not restored") + _interrupts(call),
    "cr": _clock_access, "cw": _clock_access,
    "kr": lambda call: f"0x{call.reply}", "kw": lambda call: call.reply or "",
}


def _row(register: Register, value: int, width: int = 4) -> str:
    return f"  {register.name:<4} {_decoded(register, value, width)}"


def registers(board: Snapshot) -> List[str]:
    """The registers of the serial port as a guest reads them, the FIFO, and what is pending, below a heading."""
    state, port = board.serial, Serial.from_state(board.serial)
    rows = ["serial port", _row(SERIAL["IER"], state.interrupt_enable)]
    rows.extend(_row(register, port.read(register.offset).byte) for register in SERIAL.values()
                if register.latched is None and "r" in register.access)
    divisor = state.baud_divisor_high << 8 | state.baud_divisor_low
    rows.append(f"  divisor {divisor}, FIFO {len(state.in_buffer)} of {FIFO_SIZE}")
    if state.in_buffer:
        rows.append(f"  {quoted(state.in_buffer)}")
    rows.append(f"  pending: {', '.join(pending(state)) or 'nothing'}")
    rows.append(f"  line called {plural(board.calls, 'time')}, {plural(board.sent, 'byte')} out")
    return rows


def clock_registers(state: RtcState, now: Optional[int] = None) -> List[str]:
    """The registers of the clock, and its alarm, below a heading. With a moment, guest time too."""
    clock = Rtc.from_state(state)
    rows = ["clock" if now is None else "clock, in UTC"]
    if now is not None:
        guest_time = copy(clock).read("DR", now).value
        rows.append(f"  DR   {guest_time:#010x}  {date_of(guest_time)}")
    rows.extend(_row(CLOCK[name], getattr(state, name.lower()), 10) for name in CLOCK_KEPT)
    rows.append(f"  {_alarm(clock, now)}")
    rows.append(f"  interrupt line {'up' if clock.interrupt_line() else 'down'}")
    return rows


def _alarm(clock: Rtc, now: Optional[int]) -> str:
    if not clock.state.armed:
        return "no alarm is set"
    due = None if now is None else clock.alarm_due(now)
    return "alarm set" if due is None else f"alarm due in {due} s" if due else "alarm due now"


def _values(board: Snapshot) -> List[int]:
    """The values of `_COMPARED`."""
    serial, clock = board.serial, board.clock
    return [*(getattr(serial, FIELDS[name]) | (FIFO_BITS if name == "IIR" else 0) for name in _CHANGED),
            *(getattr(clock, name.lower()) for name in CLOCK_KEPT)]


def changes(call: Call) -> List[str]:
    """What a call changed, a row for each register, the FIFO, the output, another device and the line; empty if
    nothing."""
    before, after = call.before, call.after
    rows = [f"{register.name} {old:#0{width}x} -> {_decoded(register, new, width)}"
            for (register, width), old, new in zip(_COMPARED, _values(before), _values(after)) if old != new]
    if before.serial.in_buffer != after.serial.in_buffer:
        rows.append(f"FIFO {len(before.serial.in_buffer)} -> {plural(len(after.serial.in_buffer), 'byte')}")
    if before.sent != after.sent:
        rows.append(f"output {before.sent} -> {plural(after.sent, 'byte')}")
    if before.clock.offset != after.clock.offset:
        rows.append(f"clock offset {before.clock.offset} -> {after.clock.offset} s")
    if before.clock.armed != after.clock.armed:
        rows.append("alarm set" if after.clock.armed else "alarm over")
    rows.extend(f"{old} -> {new}" for old, new in zip(before.others, after.others) if old != new)
    return rows + [f"interrupt {'taken' if taken else 'refused'}" for taken in call.answers]


def turn(call: Call) -> str:
    """Which call of a session it is, as a sentence names it."""
    line = line_of(call.command)
    return f"call {call.number}, {line if len(line) <= 24 else line[:22] + '..'}"


class Story:
    """Remembers, for each condition, the call that raised it last and the one that acknowledged it last."""

    def __init__(self) -> None:
        self._raised: Dict[str, Tuple[Call, Optional[bool]]] = {}  # with what the interrupt line answered, if called
        self._acknowledged: Dict[str, Call] = {}

    def note(self, call: Call) -> None:
        """Remembers what a call raised and acknowledged. Calls are noted in their order, from a fresh board on."""
        before, after = pending(call.before.serial), pending(call.after.serial)
        answers = _answers(call)
        for name in CONDITIONS:
            if name in after and (name not in before or name in answers):
                self._raised[name] = call, answers.get(name)
            elif name in before and name not in after:
                self._acknowledged[name] = call

    def lines(self, board: Board) -> List[str]:
        """A sentence or two about each condition."""
        return [self._about(name, board.serial.state) for name in CONDITIONS]

    def _about(self, name: str, state: SerialState) -> str:
        is_enabled = bool(state.interrupt_enable & ENABLES[name])
        if name in pending(state):
            call, answer = self._raised[name]
            answered = "" if answer is None else f", and the line {'took' if answer else 'refused'} the interrupt"
            then = _ACKNOWLEDGED_BY[name] if is_enabled else "IER does not enable it now."
            return f"{name} is pending: {turn(call)}, raised it{answered}. {then}"
        ended = self._acknowledged.get(name)
        reason = f"{turn(ended)}, acknowledged it" if ended else "no call has raised it"
        return f"{name} is not pending: {reason}. {self._next(name, is_enabled, len(state.in_buffer))}"

    @staticmethod
    def _next(name: str, is_enabled: bool, held: int) -> str:
        """What raises a condition that is not pending."""
        bytes_held = f"{plural(held, 'byte')} {'is' if held == 1 else 'are'} held" if held and name == "RDA" else ""
        if not is_enabled:
            return "IER does not enable it" + (f", and {bytes_held}." if bytes_held else ".")
        if name == "THRE":
            return "The next byte that goes out raises it, or a write to IER."
        return f"{bytes_held}: a timeout, the next byte or a write to IER raises it." if held else \
            "The next byte raises it."
