# SPDX-License-Identifier: Apache-2.0 OR BSD-3-Clause
# Made by tools/generate from interface.toml.
"""The registers, the fields of states, and the errors of saved states."""
from ctypes import c_int64, c_uint8, c_uint32, c_uint64
from dataclasses import dataclass, field
from typing import Any, Tuple

# A register: its name, its offset, the words about it, its bits, DLAB, the accesses that reach it, and whether a write
# is ignored.
Row = Tuple[str, int, str, Tuple[Tuple[int, str], ...], Any, str, bool]

FIFO_SIZE = 64
OUTPUT_SIZE = 4096
DLAB = 0x80
LOOPBACK = 0x10
FIFO_BITS = 0xC0
IDENTIFICATION = bytes([0x31, 0x10, 0x04, 0x00, 0x0D, 0xF0, 0x05, 0xB1])

SERIAL: Tuple[Row, ...] = (
    ("RBR", 0, "receiver buffer: reads the oldest received byte out", (), False, "r", False),
    ("THR", 0, "transmitter holding: sends a byte", (), False, "w", False),
    ("DLL", 0, "divisor latch, low byte", (), True, "rw", False),
    ("IER", 1, "interrupt enable", ((0x01, "RDA"), (0x02, "THRE"), (0x04, "RLS"), (0x08, "MS")), False, "rw", False),
    ("DLM", 1, "divisor latch, high byte", (), True, "rw", False),
    ("IIR", 2, "interrupt identification: a read acknowledges", ((0x04, "RDA"), (0x02, "THRE")), None, "r", False),
    ("FCR", 2, "FIFO control: a write is ignored", (), None, "w", True),
    ("LCR", 3, "line control", ((0x40, "BREAK"), (0x80, "DLAB")), None, "rw", False),
    ("MCR", 4, "modem control",
     ((0x01, "DTR"), (0x02, "RTS"), (0x04, "OUT1"), (0x08, "OUT2"), (0x10, "LOOP")),
     None, "rw", False),
    ("LSR", 5, "line status",
     ((0x01, "DR"), (0x02, "OE"), (0x04, "PE"), (0x08, "FE"), (0x10, "BI"), (0x20, "THRE"), (0x40, "TEMT")),
     None, "rw", True),
    ("MSR", 6, "modem status", ((0x10, "CTS"), (0x20, "DSR"), (0x40, "RI"), (0x80, "DCD")), None, "rw", True),
    ("SCR", 7, "scratch", (), None, "rw", False),
)

CLOCK: Tuple[Row, ...] = (
    ("DR", 0x000, "data: guest time", (), None, "r", False),
    ("MR", 0x004, "match: sets the alarm", (), None, "rw", False),
    ("LR", 0x008, "load: sets guest time", (), None, "rw", False),
    ("CR", 0x00C, "control: 1 resets the clock", (), None, "rw", False),
    ("IMSC", 0x010, "interrupt mask", ((0x01, "ALARM"),), None, "rw", False),
    ("RIS", 0x014, "raw interrupt status", ((0x01, "ALARM"),), None, "r", False),
    ("MIS", 0x018, "masked interrupt status", ((0x01, "ALARM"),), None, "r", False),
    ("ICR", 0x01C, "interrupt clear", ((0x01, "ALARM"),), None, "w", False),
    ("ID0", 0xFE0, "identification", (), None, "r", False),
    ("ID1", 0xFE4, "identification", (), None, "r", False),
    ("ID2", 0xFE8, "identification", (), None, "r", False),
    ("ID3", 0xFEC, "identification", (), None, "r", False),
    ("ID4", 0xFF0, "identification", (), None, "r", False),
    ("ID5", 0xFF4, "identification", (), None, "r", False),
    ("ID6", 0xFF8, "identification", (), None, "r", False),
    ("ID7", 0xFFC, "identification", (), None, "r", False),
)

FIELDS = {
    "DLL": "baud_divisor_low",
    "DLM": "baud_divisor_high",
    "IER": "interrupt_enable",
    "IIR": "interrupt_identification",
    "LCR": "line_control",
    "LSR": "line_status",
    "MCR": "modem_control",
    "MSR": "modem_status",
    "SCR": "scratch",
}

SAVED_STATE_ERRORS = {
    "too short": "Too short for a saved state",
    "not a saved state": "Not a saved state",
    "other device": "The saved state of another device",
    "unknown version": "A saved state of an unknown version",
    "wrong length": "A saved state of the wrong length",
    "too many bytes": "More than 64 received bytes",
    "invalid armed": "An alarm that is neither set nor clear",
    "invalid flags": "A flag that no console has",
}


@dataclass(frozen=True)
class SerialFields:
    """The fields of a serial port."""

    # DLL
    baud_divisor_low: int = field(default=0x0C, metadata={"kind": c_uint8})
    # DLM
    baud_divisor_high: int = field(default=0x00, metadata={"kind": c_uint8})
    # IER: 0x01 enables RDA, 0x02 THRE
    interrupt_enable: int = field(default=0x00, metadata={"kind": c_uint8})
    # IIR without 0xC0: 0x04 RDA, 0x02 THRE, 0x01 nothing pending
    interrupt_identification: int = field(default=0x01, metadata={"kind": c_uint8})
    # LCR: 0x80 is DLAB
    line_control: int = field(default=0x03, metadata={"kind": c_uint8})
    # LSR: 0x01 is data ready
    line_status: int = field(default=0x60, metadata={"kind": c_uint8})
    # MCR: 0x10 is loopback
    modem_control: int = field(default=0x08, metadata={"kind": c_uint8})
    # MSR
    modem_status: int = field(default=0xB0, metadata={"kind": c_uint8})
    # SCR
    scratch: int = field(default=0x00, metadata={"kind": c_uint8})
    # the received bytes, oldest first: at most 64
    in_buffer: bytes = b""


@dataclass(frozen=True)
class RtcFields:
    """The fields of a clock."""

    # RTCLR, the last loaded value, or 0
    lr: int = field(default=0, metadata={"kind": c_uint32})
    # RTCMR, the guest time that an alarm waits for
    mr: int = field(default=0, metadata={"kind": c_uint32})
    # RTCIMSC, the interrupt mask
    imsc: int = field(default=0, metadata={"kind": c_uint32})
    # RTCRIS, the raw interrupt status
    ris: int = field(default=0, metadata={"kind": c_uint32})
    # how far guest time is ahead of the host's, in seconds
    offset: int = field(default=0, metadata={"kind": c_int64})
    # whether an alarm is set
    armed: bool = field(default=False, metadata={"kind": c_uint64})


@dataclass(frozen=True)
class ConsoleFields:
    """The fields of a console."""

    # the port
    port: Any = None
    # the output that waits for its reader, oldest first: at most 4,096 bytes
    output: bytes = b""
    # how many bytes of output were dropped
    dropped: int = field(default=0, metadata={"kind": c_uint64})
    # whether the guest polls, so that input goes in before a driver is ready
    is_polled: bool = field(default=False, metadata={"kind": c_uint8})
    # whether a driver has shown that it is ready
    is_ready: bool = field(default=False, metadata={"kind": c_uint8})
    # whether the guest sleeps in memory
    is_asleep: bool = field(default=False, metadata={"kind": c_uint8})
    # whether an interrupt was refused, and none was asked for since
    is_refused: bool = field(default=False, metadata={"kind": c_uint8})
