# SPDX-License-Identifier: Apache-2.0 OR BSD-3-Clause
"""What a script is made on, by docs/SCRIPT.md: the devices of a model, an interrupt line, an output, and saved
states."""
from functools import partial
from struct import Struct

import oracle
from common.facts import ENCODING, FIFO_SIZE, KINDS, MAGIC, saved
from facts import CLOCK_FIELDS, FRESH

ROOM = 256                           # bytes that the output takes
SERIAL, CLOCK = KINDS["serial port"], KINDS["clock"]
REGISTERS, VERSION = len(FRESH), ENCODING["version"]
CLOCK_CONTENTS = Struct("<" + "".join(CLOCK_FIELDS.values()))


def header_checks(kind, data):
    """The checks of a header, in their order: the words, and whether the bytes fail the check."""
    return [
        ("too short", len(data) < 8),
        ("not a saved state", data[:4] != MAGIC),
        ("other device", data[4:5] != bytes([kind])),
        (f"unknown version {data[5:6].hex()}", data[5:6] != bytes([VERSION])),
        ("wrong length", int.from_bytes(data[6:8], "little") != len(data) - 8),
    ]


def fault(kind, data):
    """Why these bytes are no saved state of a kind: the first check of docs/SAVED-STATES.md that they fail, or 'ok'."""
    size = len(data) - 8
    checks = header_checks(kind, data) + [
        ("wrong length", size < REGISTERS if kind == SERIAL else size != CLOCK_CONTENTS.size),
        ("too many bytes", kind == SERIAL and size > REGISTERS + FIFO_SIZE),
        ("invalid armed", kind == CLOCK and data[-1:] not in (b"\x00", b"\x01")),
    ]
    return next((words for words, is_so in checks if is_so), "ok")


BYTES = "1 to 128 bytes, which may be left out"
# The lines by their names: the call, and how many digits each of its numbers has, or that it has bytes.
PROGRAM_LINES, FURTHER_LINES = {}, {}
WEIGHTS, OFTEN = {}, {}   # by the names of calls: how made.py draws them


def script_line(name, *digits, lines=PROGRAM_LINES, weight=1, often=()):
    """Makes a method the call of a line of the program. In random scripts it comes `weight` times as often as a line
    that has no weight. `often` has a row for each number: it is one of these or, as often as one of them, any."""
    def known(method):
        lines[name], call = (method.__name__, *digits), method.__name__
        WEIGHTS[call], OFTEN[call] = weight, often or [()] * len(digits)
        return method
    return known


further_line = partial(script_line, lines=FURTHER_LINES)   # of a line that the program refuses, and other boards have


class Board:
    """The devices of a model, `oracle` or `model`. The interrupt line refuses the calls of a mask, and the output takes
    256 bytes. Each line of a script is a method, which returns its reply."""

    def __init__(self, devices=oracle):
        self.devices, self.mask, self.output, self.did = devices, 0, b"", []
        self.port, self.clock = devices.Port(self), devices.Clock()

    # What the port calls

    def tell(self, event):
        self.did.append(event)

    def line(self):
        is_taken = not self.refuses(self.count("TR"))
        self.tell("T" if is_taken else "R")
        return is_taken

    def refuses(self, place):
        return self.mask >> place & 1

    def write(self, value):
        is_taken = len(self.output) < ROOM
        self.output += bytes([value]) * is_taken
        return is_taken

    def count(self, events):
        return sum(map(self.did.count, events))

    # The calls of a script

    @script_line("refuse", 16)
    def refuse(self, mask):
        self.mask = mask

    @script_line("sr", 2)
    def serial_read(self, offset):
        return self.port.read(offset)

    @script_line("sw", 2, 2)
    def serial_write(self, offset, value):
        return self.port.write(offset, value)

    @script_line("sq", BYTES)
    def enqueue(self, data=b""):
        return self.port.enqueue(data)

    @further_line("si")
    def timeout(self):
        return self.port.character_timeout()

    @script_line("sc")
    def capacity(self):
        return f"{self.port.room():02x}"

    @script_line("sd")
    def drain(self):
        return self.port.drain()

    @script_line("ss")
    def restore(self, *start):
        before, reply = len(self.did), self.port.restore(*start)
        if reply == "trigger":
            del self.did[before:]   # the calls of a restore that was refused do not count
        return reply

    @further_line("sb")
    def save(self):
        return saved(SERIAL, self.port.state() + self.port.held()).hex()

    @further_line("sl", BYTES)
    def load(self, data=b""):
        words = fault(SERIAL, data)
        return self.restore(data[8:8 + REGISTERS], data[8 + REGISTERS:]) if words == "ok" else words

    @script_line("so")
    def sent(self):
        return self.output.hex()

    @script_line("st")
    def interrupts(self):
        return f"{self.count('TR'):016x}"

    @script_line("se")
    def events(self):
        return " ".join(f"{self.count(event):016x}" for event in "bole")

    @script_line("cr", 16, 4)
    def clock_read(self, now, offset):
        value = self.clock.access(now, offset)
        return "invalid" if value is None else f"{value:08x}"

    @script_line("cw", 16, 4, 8)
    def clock_write(self, now, offset, value):
        return "invalid" if self.clock.access(now, offset, value) is None else "ok"

    @further_line("cb")
    def clock_save(self):
        return saved(CLOCK, CLOCK_CONTENTS.pack(*self.clock.state().values())).hex()

    @further_line("cl", BYTES)
    def clock_load(self, data=b""):
        words = fault(CLOCK, data)
        if words == "ok":
            self.clock = self.devices.Clock(**dict(zip(CLOCK_FIELDS, CLOCK_CONTENTS.unpack(data[8:]))))
        return words

    @script_line("kr", 2, often=[(4,)])
    def controller_read(self, offset):
        return "00"

    @script_line("kw", 2, 2, weight=2, often=[(4, 4), (0xFE,)])   # the reset command, and what is near it
    def controller_write(self, offset, value):
        return "reset" if (offset, value) == (4, 0xFE) else "ok"
