# SPDX-License-Identifier: Apache-2.0 OR BSD-3-Clause
"""What people type: the commands that it means, what is said of it, and why it means none. And what documents show."""
import doctest
import errno
import io
import os
import re
import unittest
from functools import reduce
from itertools import product
from operator import or_
from pathlib import Path
from unittest import mock

from support import DEVICES, PACKAGE, ROOT, FolderTest, run

from superio import Command, I8042, Rtc, Serial, SerialState
from superio.board import FURTHER_LINES, LINES
from superio.prompt import Leave, write_text
from superio.registers import CLOCK, CLOCK_KEPT, SERIAL
from superio.script import ScriptError, line_of, reason_of, shown
from superio.session import Session
from superio.tell import quoted
from superio.words import characters

NOW = 0x6553F100
# Formats of characters, by the data sheet: 5 to 8 bits; 0x04 for 2 stop bits; 0x08 for a parity, by 0x30: odd, even,
# mark and space.
PARITIES = {"N": 0, "O": 0x08, "E": 0x18, "M": 0x28, "S": 0x38}
FORMATS = {f"{5 + bits}{parity}{stop}": bits + of_parity + of_stop for bits in range(4)
           for parity, of_parity in PARITIES.items() for stop, of_stop in ((1, 0), (2, 0x04))}

# The line of a script, and the lines that mean it.
MEANINGS = {
    "sr 05": ["read LSR", "read lsr", "read 5", "read 05", "sr LSR", "sr 5", "sr 0x05", "  sr 05\t\r"],
    "sr 0a": ["read 0x0a", "read 10"],
    "sr 10": ["read 16", "sr 10"],
    "sw 07 0a": ["write SCR 10", "sw SCR a"],
    "sw 07 03": ["write SCR 0b11"],
    "sw 01 09": ["write ier rda|0x08", "sw IER RDA|MS"],
    "sw 00 41": ["write THR 'A'"],
    **{f"sw 03 {value:02x}": [f"write LCR {name}", f"sw LCR {name.lower()}"] for name, value in FORMATS.items()},
    "sw 03 da": ["write LCR 7E1|DLAB|BREAK", "write LCR break|dlab|7e1"],
    "sw 00 20": ["write THR ' '"],
    "sw 00 0a": [r"write THR '\n'"],
    "sq 68656c6c6f0a": ['type "hello\\n"', r'sq "hello\n"'],
    "sq 6120226222": ["type 'a \"b\"'"],
    "sq 74776f20776f726473": ["type two words"],
    "sq 00ff5c1b090d000a": [r'type "\x00\xff\\\e\t\r\0\n"'],
    "sq c3a9": ['type "é"'],
    f"sq {'78' * 128}": ["type " + "x" * 128],
    "cr 000000006553f100 0000": ["clock read DR now", "clock read rtcdr", "cr now DR"],
    "cr 000000006553f105 0fe4": ["clock read 0xfe4 +5"],
    "cr 000000006553f0ff 0004": ["clock read MR now-1"],
    "cr 0000000000000000 0004": ["clock read MR now-9999999999"],
    "cw 00000000000003e8 0008 00000064": ["clock write LR 100 1000", "cw 3e8 LR 64"],
    "cw 000000006553f100 0010 00000001": ["clock write IMSC ALARM"],
    "cw 000000006553f100 0004 6553f105": ["alarm +5"],
    "cw 000000006553f100 0004 ffffffff": [f"alarm +{(1 << 32) - NOW - 1}"],
    "cw 000000006553f101 0004 00000010": ["alarm 0x10 now+1"],
    "cw 00000000000003e8 0004 00000010": ["alarm 16 1000"],
    "kr 04": ["i8042 read 4", "kr 4"],
    "kw 04 fe": ["i8042 write 4 0xfe"],
    "si": ["timeout"], "sd": ["drain"], "so": ["output"], "ss": ["restore"],
    "refuse 0000000000000002": ["refuse 2"],
}

# A part of why a line is none, and such lines, after those before them.
FAULTS = {
    "no command is called foo: help lists them": ["foo", "help foo"],
    **{f"no command is called {typed}: did you mean {meant}? help lists them": [f"{typed} LSR", f"help {typed}"]
       for typed, meant in (("reed", "read"), ("wirte", "write"), ("REGS", "regs"), ("Read", "read"), ("SR", "sr"),
                            ("clok", "clock"), ("timout", "timeout"), ("exti", "exit"))},
    "the syntax is: sr OO": ["sr", "sr 5 5"],
    "the syntax is: sq HH..": ["sq 4"],
    "the syntax is: read REGISTER": ["read", "read LSR now"],
    'the syntax is: type "TEXT"': ["type"],
    "the syntax is: clock read|write REGISTER [VALUE] [MOMENT]": ["clock", "clock read", "clock set DR 1"],
    "the syntax is: i8042 read|write OFFSET [VALUE]": ["i8042 read"],
    "the syntax is: alarm +SECONDS|GUEST_TIME [MOMENT]": ["alarm", "alarm +1 now 2"],
    "the syntax is: drain": ["drain 5"],
    "the syntax is: reset": ["reset 5"],
    "the syntax is: regs [serial|clock]": ["regs all"],
    "the syntax is: save FILE": ["save", "save a b", 'save "a'],
    f"XYZ is no offset, and no register: those are {' '.join(SERIAL)}": ["read XYZ", "sr XYZ", "write XYZ 5"],
    f"XYZ is no offset of the clock, and no register: those are {' '.join(CLOCK)}": ["clock read XYZ", "cr now XYZ"],
    # A number that is too large is one all the same: what it has to be is said, and nothing else.
    **{f"{number} is no {what}: it is from 0 to {most}": [line.format(number)]
       for what, most, lines in (
           ("offset", "255", ["read {}", "write {} 5", "i8042 read {}", "i8042 write {} 5"]),
           ("offset", "0xff", ["sr {}", "sw {} 5", "kr {}", "kw {} 5"]),
           ("value", "255", ["write SCR {}", "write IER {}", "write LCR {}", "write FCR {}", "write 9 {}",
                             "i8042 write 4 {}"]),
           ("value", "0xff", ["sw SCR {}", "sw IER {}", "kw 4 {}"]),
           ("offset of the clock", "65535", ["clock read {}", "clock write {} 5"]),
           ("offset of the clock", "0xffff", ["cr now {}", "cw now {} 5"]),
           ("value", "4294967295", ["clock write LR {}", "clock write IMSC {}"]),
           ("value", "0xffffffff", ["cw now LR {}", "cw now IMSC {}"]),
           ("guest time", "4294967295", ["alarm {}"]),
           ("number of seconds", "4294967295", ["alarm +{}"]),
           ("moment", "18446744073709551615", ["clock read DR {}"]),
           ("moment", "0xffffffffffffffff", ["cr {} DR"]),
           ("mask", "0xffffffffffffffff", ["refuse {}"]))
       for line in lines for number in (hex(int(most, 0) + 1) if "0x" in most else int(most) + 1, "9" * 24,
                                        *([-1] if what != "moment" else []))},  # where -1 is a second ago
    "-5 is no number of seconds: it is from 0 to 4294967295": ["alarm +-5"],
    "FOO is no value, and IER has the bits RDA THRE RLS MS": ["write IER FOO", "sw IER FOO", "write IER RDA|FOO"],
    "FOO is no value, and LCR has the bits BREAK DLAB and formats as 8N1": ["write LCR FOO"],
    "9N1 is no value, and LCR has": ["write LCR 9N1"], "8N3 is no value": ["write LCR 8N3", "write LCR DLAB|8N3"],
    "8N1 is no value, and MCR has": ["write MCR 8N1"],
    "A is no value: a character has quotes, as 'A'": ["write THR A", "write SCR A", "clock write LR A"],
    "RDA is no value": ["write FCR RDA"],
    "'AB' is not one byte": ["write THR 'AB'"],
    'the text has no closing "': ['type "a', 'type "a" b', r'type "\"'],
    "no escape is called \\q": [r'type "\q"'],
    "1 to 128 bytes": ["type " + "x" * 129, 'type ""'],
    "noon is no moment: it is now, now+5, or seconds since 1970": ["clock read DR noon", "cr noon DR"],
    "is no number of seconds": [f"clock read DR now+{1 << 64}", "clock read DR now+" + "9" * 5000],
    f"is no moment: it is from 0 to {(1 << 64) - 1}": [f"clock read DR now+{(1 << 64) - NOW}"],
    "guest time has 32 bits": ["alarm +4294967295", f"alarm +{(1 << 32) - NOW}"],
    "/: Is a directory": ["source /"],
    "/nowhere/at/all: No such file or directory": ["save /nowhere/at/all"],
    "/proc/self/mem: Input/output error": ["load /proc/self/mem", "source /proc/self/mem"],
    "No space left on device": ["save /dev/full"],
    "no call was made yet": ["diff", "type hi\nreset\ndiff"],
    "RBR is out of reach while DLAB is set": ["write LCR 0x83\nwrite DLL 1\nread RBR"],
    "a mask comes before every other line; reset begins anew": ["# comment\nregs\nrefuse 1\nrefuse 2",
                                                                "sr 05\nrefuse 0000000000000001"],
}

# Lines, and what is said of them, from a fresh board.
DIALOGUES = [
    (['type "hi"', "write IER RDA|THRE", "write IER RDA|THRE", "read IIR", "sr LSR", "drain", "read RBR", "sd"],
     ["2 bytes received; no interrupt: IER does not enable RDA", "ok; interrupt for RDA, THRE", "ok",
      "IIR = 0xc6  RDA THRE", "61", '"hi"', "RBR = 0x00  no byte was held", ""]),
    (["refuse 1", "write IER RDA", "type a", "restore"],
     ["ok", "1 byte received; interrupt for RDA refused", "restored; interrupt for RDA"]),
    (["type a", "write IER RDA|THRE", "write IER THRE", "restore", "write IER RDA", "restore", "write IER 0", "restore",
      "write IER RDA|THRE", "restore"],
     ["1 byte received; no interrupt: IER does not enable RDA", "ok; interrupt for RDA, THRE", "ok",
      "restored; interrupt for THRE", "ok", "restored; interrupt for RDA", "ok", "restored", "ok",
      "restored; interrupt for RDA, THRE"]),
    (["timeout", "type a", "timeout", "write IER RDA", "timeout", "read IIR", "timeout", "type b", "read RBR", "st"],
     ["no interrupt: no byte is held", "1 byte received; no interrupt: IER does not enable RDA",
      "1 byte held; no interrupt: IER does not enable RDA", "ok; interrupt for RDA",
      "1 byte held; no interrupt: RDA is pending already", "IIR = 0xc4  RDA", "1 byte held; interrupt for RDA",
      "1 byte received; no interrupt: RDA is pending already", 'RBR = 0x61  "a"', "0000000000000002"]),
    (["refuse 2", "write IER RDA|THRE", "type a", "write THR 'A'", "write FCR 7", "write 9 1", "output"],
     ["ok; interrupt for THRE", "1 byte received; interrupt for RDA refused", 'sent "A"', "ignored", "ignored", '"A"']),
    (["write LSR 0", "write MSR 0"], ["ignored"] * 2),
    (["type " + "x" * 60, "type 12345", "type 6", "write MCR LOOP", "type 7", "sc"],
     ["60 bytes received; no interrupt: IER does not enable RDA", "4 of 5 bytes received: the FIFO is full",
      "0 of 1 byte received: the FIFO is full", "ok", "0 of 1 byte received: the port is in loopback", "00"]),
    (["clock read DR", "clock write DR 1", "clock read ICR", "clock write LR 100", "clock write MR 99",
      "clock write MR 100", "clock read RIS", "clock write MR 99"],
     ["DR = 0x6553f100  2023-11-14 22:13:20 UTC", "invalid: nothing can be written at 0x0000, DR",
      "invalid: nothing can be read at 0x001c, ICR", "ok",
      "ok, and no alarm: guest time 0x00000063, 1970-01-01 00:01:39 UTC, is past",
      "ok: guest time is there, so the alarm is up", "RIS = 0x00000001  ALARM",
      "ok, and no alarm: guest time 0x00000063, 1970-01-01 00:01:39 UTC, is past"]),
    (["clock read 0xfe7", "clock read 2"],
     ["ID1 = 0x00000010", "invalid: nothing can be read at 0x0002"]),
    (["i8042 read 4", "i8042 write 4 0xfe", "i8042 write 4 0xff"], ["0x00", "reset", "ok"]),
]

# What a prompt says of lines that load a saved state, below the reply.
PORT, CLOCK_SAVED = Serial().to_bytes(), Rtc().to_bytes()
CLOCK_SIZE = len(CLOCK_SAVED)
FOR_PORT, FOR_CLOCK = "a saved serial port has 17 to 81", f"a saved clock has {CLOCK_SIZE}"
LOADS = [
    ("sl", b"", ["too short", f"0 bytes came, and {FOR_PORT}"]),
    ("sl", PORT[:16], ["wrong length", f"16 bytes came, and {FOR_PORT}"]),
    ("sl", PORT, ["ok"]),
    ("sl", PORT[:6] + bytes([74]) + PORT[7:] + bytes(65), ["too many bytes", f"82 bytes came, and {FOR_PORT}"]),
    ("sl", PORT + b"a", ["wrong length", f"18 bytes came, and {FOR_PORT}"]),
    ("sl", CLOCK_SAVED, ["other device"]),
    ("sl", bytes(17), ["not a saved state"]),
    ("cl", CLOCK_SAVED[:1], ["too short", f"1 byte came, and {FOR_CLOCK}"]),
    ("cl", CLOCK_SAVED[:-1], ["wrong length", f"{CLOCK_SIZE - 1} bytes came, and {FOR_CLOCK}"]),
    ("cl", CLOCK_SAVED + b"a", ["wrong length", f"{CLOCK_SIZE + 1} bytes came, and {FOR_CLOCK}"]),
    ("cl", CLOCK_SAVED, ["ok"]),
]

# Each command in each form of its usage, after lines, and what it says.
NEW_CLOCK = [*(f"  {name:4} 0x00000000" for name in CLOCK_KEPT), "  no alarm is set", "  interrupt line down"]
CLOCK_ROWS = ["clock, in UTC", "  DR   0x6553f100  2023-11-14 22:13:20", *NEW_CLOCK]
PORT_ROWS = ["serial port", "  IER  0x00", "  IIR  0xc1  none", "  LCR  0x03  8N1", "  MCR  0x08  OUT2",
             "  LSR  0x60  THRE TEMT", "  MSR  0xb0  CTS DSR DCD", "  SCR  0x00", "  divisor 12, FIFO 0 of 64",
             "  pending: nothing", "  line called 0 times, 0 bytes out"]
USES = [
    ("read REGISTER", [], "read LSR", ["LSR = 0x60  THRE TEMT"]),
    ("write REGISTER VALUE", ["sw 03 83"], "write DLL 7", ["ok"]),
    ('type "TEXT"', [], 'type "a b"', ["3 bytes received; no interrupt: IER does not enable RDA"]),
    ("timeout", [], "timeout", ["no interrupt: no byte is held"]),
    ("drain", ["sq 6162"], "drain", ['"ab"']),
    ("output", ["sw 00 61"], "output", ['"a"']),
    ("restore", ["sw 01 02"], "restore", ["restored; interrupt for THRE"]),
    ("clock read REGISTER", [], "clock read DR", ["DR = 0x6553f100  2023-11-14 22:13:20 UTC"]),
    ("clock read REGISTER MOMENT", [], "clock read DR 5", ["DR = 0x00000005  1970-01-01 00:00:05 UTC"]),
    ("clock write REGISTER VALUE", [], "clock write CR 1", ["ok"]),
    ("clock write REGISTER VALUE MOMENT", [], "clock write MR 9 5",
     ["alarm set for guest time 0x00000009  1970-01-01 00:00:09 UTC"]),
    ("alarm +SECONDS", [], "alarm +5", ["alarm set for guest time 0x6553f105  2023-11-14 22:13:25 UTC"]),
    ("alarm +SECONDS MOMENT", [], "alarm +5 4", ["alarm set for guest time 0x00000009  1970-01-01 00:00:09 UTC"]),
    ("alarm GUEST_TIME", [], "alarm 5", ["ok, and no alarm: guest time 0x00000005, 1970-01-01 00:00:05 UTC, is past"]),
    ("alarm GUEST_TIME MOMENT", [], "alarm 5 4", ["alarm set for guest time 0x00000005  1970-01-01 00:00:05 UTC"]),
    ("i8042 read OFFSET", [], "i8042 read 4", ["0x00"]),
    ("i8042 write OFFSET VALUE", [], "i8042 write 4 254", ["reset"]),
    ("regs", [], "regs", [*PORT_ROWS, *CLOCK_ROWS]),
    ("regs serial", [], "regs serial", PORT_ROWS),
    ("regs clock", [], "regs clock", CLOCK_ROWS),
    ("why", [], "why", ["RDA is not pending: no call has raised it. IER does not enable it.",
                        "THRE is not pending: no call has raised it. IER does not enable it."]),
    ("diff", ["sw 07 01"], "diff", ["sw 07 01", "  SCR 0x00 -> 0x01"]),
    ("trace", ["read 7", "si"], "trace", ["sr 07", "si"]),
    ("trace on", ["trace on"], "read 7", ["sr 07", "SCR = 0x00"]),
    ("trace off", ["trace on", "trace off"], "read 7", ["SCR = 0x00"]),
    ("trace FILE", ["read 7"], "trace file", ["the calls since the last reset are in file"]),
    ("script", ["read 7", "si"], "script", ["sr 07"]),
    ("script FILE", ["read 7"], "script file", ["the script is in file"]),
    ("save FILE", [], "save file", ["port and clock saved to file"]),
    ("load FILE", ["sw 07 01", "save file", "reset", "load file"], "read 7", ["SCR = 0x01"]),
    ("source FILE", ["sw 07 01", "save file", "reset", "source file"], "read 7", ["SCR = 0x01"]),
    ("reset", ["sw 07 01", "reset"], "regs", [*PORT_ROWS, *CLOCK_ROWS]),
    ("help NAME", [], "help drain", ["drain", "the guest's driver reads what is held."]),
    ("quit", [], "help quit", ["quit", "ends, as exit and Ctrl-D do."]),   # which is tried below
]

NEITHER = "is not pending: no call has raised it. IER does not enable it"
NO_RDA, NO_THRE = f"RDA {NEITHER}.", f"THRE {NEITHER}."
# It holds a byte, and RDA is pending and enabled.
WAITING = Serial.from_state(SerialState(interrupt_enable=0x01, interrupt_identification=0x04, line_status=0x61,
                                        in_buffer=b"a"))
ENDS_RDA, ENDS_THRE = "A read of IIR or of RBR acknowledges it.", "A read of IIR acknowledges it."


def raised(name, call, then, answer="took"):
    return f"{name} is pending: call {call}, raised it, and the line {answer} the interrupt. {then}"


# Lines, the last of which asks, and what is said to it.
ASKED = [
    (["sq 61", "why"], [f"RDA {NEITHER}, and 1 byte is held.", NO_THRE]),
    (["sw 01 01", "sq 6162", "sr 02", "why"], ["RDA is not pending: call 3, sr 02, acknowledged it. 2 bytes are held: "
                                              "a timeout, the next byte or a write to IER raises it.", NO_THRE]),
    (["sw 01 01", "sq 61", "sd", "why"], ["RDA is not pending: call 3, sd, acknowledged it. The next byte raises it.",
                                         NO_THRE]),
    (["refuse 1", "sw 01 01", "sq 61", "sw 01 00", "why"],
     [raised("RDA", "3, sq 61", "IER does not enable it now.", "refused"), NO_THRE]),
    (["refuse 1", "sw 01 01", "sq 61", "ss", "why"], [raised("RDA", "4, ss", ENDS_RDA), NO_THRE]),
    (["sq 61", "sw 01 03", "sw 01 02", "ss", "why"],
     [raised("RDA", "2, sw 01 03", "IER does not enable it now."), raised("THRE", "4, ss", ENDS_THRE)]),
    (["refuse 2", "sw 01 03", f"sl {WAITING.to_bytes().hex()}", "why"],
     [NO_RDA.replace("IER does not enable it", "The next byte raises it"), raised("THRE", "2, sw 01 03", ENDS_THRE)]),
    (["refuse 2", "sq 61", "sw 01 03", "why"],
     [raised("RDA", "3, sw 01 03", ENDS_RDA), raised("THRE", "3, sw 01 03", ENDS_THRE, "refused")]),
    (["sw 01 03", "sr 02", "sq 61", "sw 00 41", "why"],
     [raised("RDA", "3, sq 61", ENDS_RDA), raised("THRE", "4, sw 00 41", ENDS_THRE)]),
    (["sw 01 02", "sr 02", "why"], [NO_RDA, "THRE is not pending: call 2, sr 02, acknowledged it. "
                                    "The next byte that goes out raises it, or a write to IER."]),
    (["sw 01 03", "reset", "why"], [NO_RDA, NO_THRE]),
    (["cw 0000000000000064 0004 00000069", "diff"],
     ["cw 0000000000000064 0004 00000069", "  MR 0x00000000 -> 0x00000069", "  alarm set"]),
    (["cw 0000000000000064 0004 00000069", "cr 0000000000000069 0014", "diff"],
     ["cr 0000000000000069 0014", "  RIS 0x00000000 -> 0x00000001  ALARM", "  alarm over"]),
    (["cw 0000000000000069 0008 00000064", "diff"],
     ["cw 0000000000000069 0008 00000064", "  LR 0x00000000 -> 0x00000064", "  clock offset 0 -> -5 s"]),
    (["sw 01 02", "diff"], ["sw 01 02", "  IER 0x00 -> 0x02  THRE", "  IIR 0xc1 -> 0xc2  THRE", "  interrupt taken"]),
    (["sq 68", "diff"], ["sq 68", "  LSR 0x60 -> 0x61  DR THRE TEMT", "  FIFO 0 -> 1 byte"]),
    (["sw 00 41", "diff"], ["sw 00 41", "  output 0 -> 1 byte"]),
    (["si", "diff"], ["si", "  nothing changed"]),
    (["sw 00 41"] * 256 + ["write THR 'B'"], ['"B" lost: the output is full, with 256 bytes']),
    (["write LCR DLAB", "write DLM 1", "write LCR 0x1a", "write IER RDA|THRE", 'type "hi"', "regs serial"],
     ["serial port", "  IER  0x03  RDA THRE", "  IIR  0xc6  RDA THRE", "  LCR  0x1a  7E1", "  MCR  0x08  OUT2",
      "  LSR  0x61  DR THRE TEMT", "  MSR  0xb0  CTS DSR DCD", "  SCR  0x00", "  divisor 268, FIFO 2 of 64", '  "hi"',
      "  pending: RDA, THRE", "  line called 2 times, 0 bytes out"]),
    *(([*lines, "regs clock"], ["clock, in UTC", "  DR   0x00000064  1970-01-01 00:01:40",
                                *(f"  {row}" for row in rows)]) for lines, rows in (
          (["clock write LR 100", "clock write IMSC 1", "alarm +5"],
           ["MR   0x00000069", "LR   0x00000064", "IMSC 0x00000001  ALARM", "RIS  0x00000000", "alarm due in 5 s",
            "interrupt line down"]),
          (["clock write LR 100", "clock write IMSC 1", "alarm +5", "clock read MIS +5"],
           ["MR   0x00000069", "LR   0x00000064", "IMSC 0x00000001  ALARM", "RIS  0x00000001  ALARM", "no alarm is set",
            "interrupt line up"]))),
]

# Lines after which nothing of a session is as in a new one: neither the registers, FIFO, output, line and clock of its
# board, nor what it remembers of its calls. A further line changed something.
USED = ["refuse 1", "write IER RDA|THRE", "type hi", "read RBR", "timeout", "write THR 'A'", "write MCR LOOP",
        "write SCR 1", "clock write LR 100 1000", "clock write IMSC 1", "alarm +5 1000", "i8042 write 4 0xfe",
        "write LCR 7E1|DLAB", "write DLL 5", "write DLM 6"]

# What a completion follows, its beginning, and what it can be.
COMPLETIONS = [
    ("", "re", ["read ", "refuse ", "regs ", "reset ", "restore "]),
    ("read ", "l", ["LCR ", "LSR "]),
    ("write IER ", "rd", ["RDA"]),
    ("write IER ", "RDA|t", ["RDA|THRE"]),
    ("clock ", "r", ["read"]),
    ("cr now ", "i", ["IMSC ", "ICR ", *(f"ID{index} " for index in range(8))]),
    ("help ", "wh", ["why"]),
    ("trace ", "o", ["on", "off"]),
    ("kr ", "", []),
    ("read LSR ", "", []),
]


def words_of(usage):
    return re.findall(r"[\w+]+", usage)


class Words(FolderTest):
    def afresh(self, *lines):
        """What is said to lines in a new session, line by line."""
        self.out = io.StringIO()
        self.session = Session(self.out, host_time=lambda: NOW + 0.75)
        return self.said(*lines)

    def said(self, *lines):
        for line in lines:
            start = self.out.tell()
            self.session.carry_out(line.encode())
        return self.out.getvalue()[start if lines else 0:].splitlines()

    def test_meanings(self):
        for meaning, lines in MEANINGS.items():
            for line in lines:
                with self.subTest(line):
                    self.assertEqual([meaning], self.afresh(line, "trace"))

    def test_faults(self):
        for reason, lines in FAULTS.items():
            for line in lines:
                *before, last = line.split("\n")
                self.afresh(*before)
                calls = self.session.commands[:]
                with self.subTest(line), self.assertRaises(Exception) as caught:
                    self.said(last)
                self.assertIn(reason, reason_of(caught.exception))
                self.assertEqual(calls, self.session.commands)

    def test_a_fault_leaves_the_session(self):
        """However often it comes, the session then says of itself what it says without it, and does the same."""
        chain = [self.folder / str(number) for number in range(10)]   # as many files as may follow each other
        for path, line in zip(chain, ["write SCR 7", *(f"source {path}" for path in chain)]):
            path.write_text(f"{line}\n")
        faults = {line for lines in FAULTS.values() for line in lines if len(line) < 1000} | {"source ~/none"}
        for line in sorted({*faults, f"source {chain[0]}0", "load"}):
            *before, last = line.split("\n")
            told = []
            for times in (0, 11):
                self.afresh(*before)
                for _ in range(times):
                    self.assertRaises(Exception, self.said, last)
                told.append([self.said("regs"), self.said("why"), self.said("trace"), self.said(f"source {chain[-1]}"),
                             self.said("diff"), self.said("script"), self.said("trace")])
            self.assertEqual(*told, line)

    def test_a_reply_that_is_not_written_is_no_fault_of_its_line(self):
        out = mock.Mock(**{"write.side_effect": OSError(errno.ENOSPC, "No space left on device")})
        self.assertRaises(OSError, Session(out).run_lines, "it", [b"kr 04\n"])

    def test_a_refused_alarm_leaves_the_clock(self):
        self.afresh("clock write LR 100 1000", "clock write MR 110 1000")
        before = self.session.board.clock.state
        with self.assertRaises(Exception):
            self.said("alarm +4294967290 5000")
        self.assertEqual(before, self.session.board.clock.state)

    def test_dialogues(self):
        for lines, replies in DIALOGUES:
            self.afresh(*lines)
            self.assertEqual(replies, self.out.getvalue().splitlines(), lines)

    def test_what_is_asked(self):
        for lines, rows in ASKED:
            # A register of the clock that no line changed need not be in the rows.
            said = [row for row in self.afresh(*lines) if row in rows or not re.fullmatch("  [A-Z]+ +0x0{8}", row)]
            self.assertEqual(rows, said, lines)
        self.assertEqual(self.said("regs serial") + self.said("regs clock"), self.said("regs"))

    def test_each_use_of_each_command(self):
        """Each word of its usage is in one of the forms."""
        usages = {entry.usage for entry in self.session_help() if entry.name not in LINES}
        forms = {name: {word for form, *_ in USES if form.split()[0] == name for word in words_of(form)}
                 for name in (usage.split()[0] for usage in usages)}
        self.assertEqual({usage.split()[0]: {*words_of(usage)} for usage in usages}, forms)
        self.addCleanup(os.chdir, os.getcwd())
        os.chdir(self.folder)
        for form, before, line, expected in USES:
            self.afresh(*before)
            self.assertEqual(expected, self.said(line), form)
        for line in ("quit", "exit"):
            self.assertRaises(Leave, self.afresh, line)

    def session_help(self):
        self.afresh()
        return self.session.help.values()

    def test_what_a_prompt_says_of_a_load(self):
        for name, data, expected in LOADS:
            self.afresh()
            for explains in (False, True):
                self.session._explains = explains
                self.assertEqual(expected if explains else expected[:1], self.said(f"{name} {data.hex()}"))

    def test_a_load(self):
        """It asks for what is pending, each time anew. If that is refused, the port stays."""
        self.afresh("sw 01 01", "sq 61")
        saved = self.session.board.serial.to_bytes()
        for lines, times, expected in ((["sr 07"], 2, raised("RDA", f"3, sl {saved.hex()}"[:25] + "..", ENDS_RDA)),
                                       (["refuse 1", "sw 07 5a"], 1, NO_RDA)):
            self.afresh(*lines)
            for _ in range(times):
                self.session.run(Command("sl", (saved,)), is_short=True)
            self.assertEqual(expected, self.said("why")[-2])
        self.assertEqual([["5a"], ["0000000000000000"]], [self.said("sr 07"), self.said("st")])

    def test_any_device_of_the_board(self):
        """What a line changes of a device of which the shell knows nothing is shown, and no script for the program
        lacks it."""
        class Counter(I8042):
            count = 0

            def write(self, offset, value):
                self.count += 1
                return super().write(offset, value)

            def __repr__(self):
                return f"<Counter {self.count}>"

        self.afresh()
        parts = vars(self.session.board)
        others = {name for name, part in parts.items() if type(part) in DEVICES} - {"serial", "clock"}
        self.assertEqual(sorted(repr(parts[name]) for name in others),
                         sorted(self.session.board.snapshot().others))
        self.session.board.controller = Counter()
        self.assertEqual(["kw 04 00", "  <Counter 0> -> <Counter 1>"], self.said("kw 04 00", "diff"))
        self.assertEqual(["kr 04", "  nothing changed"], self.said("kr 04", "diff"))
        with mock.patch.dict(FURTHER_LINES, {"kw": LINES["kw"]}):
            self.said("kw 04 00")
        self.assertRaisesRegex(ScriptError, "call 3, kw 04 00, is none of its lines", self.said, "script")

    def test_what_is_quoted_can_be_typed(self):
        for data in (bytes([one, other]) for one in range(256) for other in b"a0\\\"\xff"):
            self.assertEqual(data, characters(quoted(data)))

    def test_what_is_cut_or_escaped(self):
        self.assertEqual(r'" ~\x7f\"\\\n\r\t\x00"', quoted(b' ~\x7f"\\\n\r\t\0'))
        self.assertEqual(r" ~\x7f\x0a", shown(" ~\x7f\n"))
        for count, more in ((0, ""), (1, "..")):
            self.assertEqual((f'"{"a" * 64}"' + more, "a" * 24 + more),
                             (quoted(b"a" * (64 + count)), shown("a" * (24 + count))))

    def test_a_register_without_bits_has_none_in_a_fault(self):
        with self.assertRaisesRegex(ScriptError, "^FOO is no value: a character has quotes, as 'A'$"):
            self.afresh("write SCR FOO")

    def test_help_names_each_command(self):
        listed = "\n".join(self.afresh("help"))
        for name in self.session.help.keys() - {"exit"}:
            self.assertIn(f"\n  {name}", listed)
            self.assertIn(name, self.said(f"help {name}")[0])
        for name, more in (("read", "REGISTER is RBR, DLL, IER, "), ("clock", "REGISTER is DR, MR, LR, "),
                           ("refuse", "Only before every other call.")):
            self.assertIn(more, self.said(f"help {name}")[2])
        self.assertEqual(["kr OO", "the guest reads the controller at offset OO.", "Reply: the byte."],
                         self.said("help kr"))
        self.assertNotIn("Reply", self.said("help refuse")[2])
        for row in ("regs [serial|clock] every", f"write REGISTER VALUE\n{'':22}the guest"):  # of 19 characters and 20
            self.assertIn(f"\n  {row}", listed)
        self.assertTrue(listed.endswith("\nhelp NAME says more. Ctrl-C drops a line, Ctrl-D ends."))

    def test_what_help_says_can_be_typed(self):
        """Its examples are lines, what it calls a single byte is one, and no line takes more or less than its numbers
        say."""
        self.afresh()
        counted = {"type": "x", "sq": "00", "sl": "00", "cl": "00"}
        examples, ranges = [], []
        for name, entry in self.session.help.items():
            text = f"{entry.about}. {entry.more}"
            ranges += [(name, int(least), int(most)) for least, most in re.findall(r"\b(\d+) to (\d+)\b", text)]
            if " " in entry.usage and (entry.means or name in LINES):
                examples += re.findall(rf"\b{name} [^\s,:.]+(?: (?!(?:is|was|has|resets)\b)[^\s,:.]+)*", text)
        self.assertGreaterEqual(len(examples), 9)
        for line in examples:
            self.said(line)
        self.assertLessEqual({"read", *counted}, {name for name, *_ in ranges})
        for name, least, most in ranges:
            for number in (least - 1, least, most, most + 1):
                line = f"{name} {counted[name] * number if name in counted else number}"
                with self.subTest(line[:30], number=number):
                    if least <= number <= most:
                        self.said(line)
                    elif number >= 0 or name not in counted:
                        self.assertRaises(ScriptError, self.said, line)
        escapes = re.search(r"In quotes (.*) are single bytes", self.session.help["type"].more)[1]
        for escape in re.split(", | and ", escapes):
            self.assertEqual(1, len(characters(f'"{escape}"')), escape)

    def test_a_file_is_whole_on_the_disk_before_it_has_its_name(self):
        self.path.write_text("what was there")
        seen = []
        with mock.patch("os.fsync", lambda file: seen.append((os.fstat(file).st_size, self.path.read_text()))):
            write_text(str(self.path), "new")
        self.assertEqual(([(3, "what was there")], "new"), (seen, self.path.read_text()))

    def test_a_file_is_written_on_the_file_system_of_its_folder(self):
        """It can only take its name there. That of other files that go again may be another."""
        names = []
        with mock.patch("os.replace", lambda *paths: names.append([Path(path) for path in paths])):
            write_text(str(self.path), "new")
        [(new, path)] = names
        self.assertEqual((self.path.resolve(), True), (path, path.parent in new.parents))

    def test_an_end_of_input_ends_the_line_of_a_prompt(self):
        for prompt, expected in (("superio> ", "\n"), ("", "")):
            self.afresh()
            self.session.prompt = prompt
            self.assertTrue(self.session.onecmd("EOF"))
            self.assertEqual(expected, self.out.getvalue())

    def test_completions(self):
        for before, text, expected in COMPLETIONS:
            self.assertEqual(expected, Session(None).completions(before, text), before + text)
        for name in ("b", "a[1]", "a1"):
            (self.folder / name).touch()
        (self.folder / "c").mkdir()
        with mock.patch.dict(os.environ, {"HOME": str(self.folder)}):
            for text, names in (("", ["a1", "a[1]", "b", "c/"]), ("a[", ["a[1]"]), ("?", [])):
                for start in (self.folder, "~"):
                    self.assertEqual([f"{self.folder}/{name}" for name in names],
                                     Session(None).completions("save ", f"{start}/{text}"))

    def test_completed_files_are_taken(self):
        """A command takes what a file is completed to, whatever its name has."""
        session = Session(io.StringIO())
        for name in ("d e", "d'e", 'd"e', "d\\e", "d\te", "d\N{NO-BREAK SPACE}e", "d#e", "d$e", "d\\"):
            (self.folder / name).write_text("sw 07 5a\n")
            [completed] = session.completions("load ", str(self.folder / "d"))
            session.renew()
            session.carry_out(f"load {completed}".encode())
            self.assertEqual(0x5A, session.board.serial.read("SCR").byte, name)
            (self.folder / name).unlink()

    def test_completions_of_bits(self):
        """After a register, whose name may be in any case, come its bits, also after others of them."""
        for registers, lines in ((SERIAL, ("write", "sw")), (CLOCK, ("cw now",))):
            for register in registers.values():
                names = [name for _, name in register.bits] if "w" in register.access else []
                for line, change in product(lines if names else (), (str.upper, str.lower, str.capitalize)):
                    before = f"{line} {change(register.name)} "
                    self.assertEqual(names, Session(None).completions(before, ""), before)
                    for begun, name in product(("", f"{names[-1]}|"), names):
                        found = Session(None).completions(before, begun + change(name))
                        self.assertEqual([begun + one for one in names if one.startswith(name)], found, before + begun)

    def test_parts_of_a_value_with_bits_in_common(self):
        """A value has each bit that one of its parts has, and once, in whatever order they stand."""
        for line, registers in (("write", SERIAL), ("clock write", CLOCK)):
            for register in registers.values():
                parts = {name: bit for bit, name in register.bits if "w" in register.access}
                parts.update({"8N1": 0x03, "5e2": 0x1c} if register.name == "LCR" else {})
                parts.update({"0x9f": 0x9f, "65": 65} if parts else {})
                self.afresh()
                for some in product(parts, repeat=3):
                    self.said(f"{line} {register.name} {'|'.join(some)}")
                    expected = reduce(or_, map(parts.get, some))
                    self.assertEqual(expected, self.session.commands[-1].values[-1], (register.name, some))


class WordsAfterReset(Words):
    """A session that was used, and then reset, says to all these lines what a new one says."""

    def afresh(self, *lines):
        super().afresh(*USED, "reset")
        self.out.seek(0)
        self.out.truncate()
        return self.said(*lines)


class WordsAfterLoad(FolderTest):
    def test_meanings(self):
        """What people type means the same for the devices of a load as for new ones, whatever was before."""
        for meaning, lines in MEANINGS.items():
            for line in lines if not meaning.startswith("refuse") else []:
                session = Session(io.StringIO(), host_time=lambda: NOW)
                for one in [*USED, f"sl {PORT.hex()}", f"cl {CLOCK_SAVED.hex()}", line]:
                    session.carry_out(one.encode())
                self.assertEqual(meaning, line_of(session.commands[-1]), line)


class Documents(unittest.TestCase):
    """What documents show at the viewer's prompt and at that of Python. `tests/documents/test_paste.py` types into the shell."""

    def blocks_with(self, text):
        found = [block for path in [PACKAGE / "README.md", *sorted((ROOT / "docs").glob("*.md"))] for block in
                 re.findall(rf"^```\w*\n({text}.*?)^```$", path.read_text(encoding="utf-8"), re.MULTILINE | re.DOTALL)]
        self.assertTrue(found)
        return found

    def test_stepping(self):
        recording = ROOT / "examples" / "linux-boot" / "boot.recording.xz"
        for rows in map(str.splitlines, self.blocks_with("view> ")):
            lines = "\n".join(row[len("view> "):] for row in rows if row.startswith("view> "))
            status, output, _ = run("view", recording, script=lines.encode())
            expected = [row for row in rows if not row.startswith("view> ")]
            self.assertEqual((0, expected), (status, output.splitlines()[-len(expected):]))

    def test_calls_in_python(self):
        for block in self.blocks_with(">>> "):
            test, said = doctest.DocTestParser().get_doctest(block, {}, "block", None, 0), []
            self.assertEqual(0, doctest.DocTestRunner().run(test, out=said.append).failed, said)
