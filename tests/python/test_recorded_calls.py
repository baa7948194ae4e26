# SPDX-License-Identifier: Apache-2.0 OR BSD-3-Clause
"""The recorded calls of tests/data/calls over the Python package, and every answer in every state."""
import re
from functools import cache

import pytest
from harness import at_least
from recorded import EVERY_ANSWER, RECORDINGS, difference, every_answer, recording_of, recordings, rows_of

from superio import Board, Command, Rtc, RtcState, Serial, SerialState
from superio.board import Counts


@cache   # many calls come again and again
def parts_of(call):
    """The name of a call, its fields, and which calls of the line are refused."""
    line, words = re.fullmatch("(.*?)((?: [12nfiu])*)", call).groups()
    name, *fields = line.split(" ")
    return name, fields, ("1" in words) + 2 * ("2" in words)


class Devices(Board):
    """A board for recorded calls. Methods with the name of a call make those that no line of a script makes, or that it
    makes or shows otherwise."""

    def make(self, call):
        """The reply of a call, and the calls of objects. The words `1` and `2` after it refuse those of the line."""
        name, fields, self.mask = parts_of(call)
        self.calls, self._answers = 0, []
        self.output, self.counts = bytearray(), Counts()
        own = getattr(self, name, None)
        reply = own(*fields) if own else self.reply(Command(name, tuple(int(field, 16) for field in fields)))
        if reply == "reset":
            reply = self.ask(1)
        if reply == "invalid":
            return {"cr": "a5a5a5a5 i", "cw": "ok j"}[name]
        events = ["e"] * self.counts.in_buffer_empty + ["b"] * self.counts.buffer_read
        answers = ["T" if is_taken else "R" for is_taken in self._answers]
        return " ".join([reply, *events, *(f"W{byte:02x}" for byte in self.output), *answers])

    def ask(self, times):
        return "ok" if self._ask(times) else "trigger"

    def sq(self, digits):
        return self.reply(Command("sq", (bytes.fromhex(digits.strip("-")),)))

    def sp(self):
        return self.ask(self.serial.interrupts_due())

    def sh(self):
        return f"{self.serial.interrupt_line():02x}"

    def ss(self):
        return self.restored(self.serial.state)

    def sl(self, registers, digits):
        held = bytes.fromhex(digits.strip("-"))
        return "full" if len(held) > 64 else self.restored(SerialState(*bytes.fromhex(registers), in_buffer=held))

    def restored(self, state):
        reply = self._replace_port(Serial.from_state(state))
        *registers, held = vars(self.serial.state).values()
        room = self.serial.fifo_capacity()
        return f"{bytes(registers).hex()} {held.hex() or '-'} {room:02x}" if reply == "ok" else reply

    def cs(self):
        state = self.clock.state
        return f"{state.lr:08x} {state.offset} {state.mr:08x} {state.imsc:08x} {state.ris:08x}{' armed' * state.armed}"

    def cl(self, lr, offset, mr, imsc, ris, *armed):
        lr, mr, imsc, ris = (int(field, 16) for field in (lr, mr, imsc, ris))
        self.clock = Rtc.from_state(RtcState(lr=lr, mr=mr, imsc=imsc, ris=ris, offset=int(offset), armed=bool(armed)))
        return self.cs()


@cache
def of_device(reply):
    """What of a reply a device decides: whether a byte is written, and not what becomes of it."""
    return re.sub(r" W\w\w(?= W)| [Flo]\b", "", reply).replace("io", "ok")


@pytest.fixture(scope="module")
def recorded():
    return {**recordings(), EVERY_ANSWER: recording_of(every_answer())}


@pytest.mark.parametrize("name", at_least(4, [*RECORDINGS, EVERY_ANSWER]))
def test_calls(recorded, name):
    rows, devices = [(call, of_device(reply)) for call, reply in rows_of(recorded[name])], Devices()
    assert rows
    assert not difference(rows, [devices.make(call) for call, _ in rows])
