# SPDX-License-Identifier: Apache-2.0 OR BSD-3-Clause
"""The devices: what Python adds to the calls, which tests/devices/test_calls.py compares with recordings."""
import dataclasses
import doctest
import json
import os
import pickle
import re
import shutil
import tempfile
import typing
import unittest
from functools import partial
from itertools import product
from pathlib import Path
from unittest import mock

from support import DEVICES, ROOT, WAYS, contents, members, parameters

import superio
from superio import (AlarmIsSetError, Board, Command, I8042, LibraryError, RegisterError, Rtc, RtcState,
                     SavedStateError, ScriptError, Serial, SerialState, board, devices, library, parse, registers,
                     saved)
from superio.saved import SAVED_STATE_ERRORS
from superio.script import LINE_FIELDS, MASK

ERROR_TEXTS = ROOT / "crates" / "superio_core" / "src" / "saved" / "error_text.rt"

# States that programs over vm-superio 0.8.2 saved, as serde's JSON has them.
MOVED = [(Serial, """{"baud_divisor_low":1,"baud_divisor_high":2,"interrupt_enable":1,"interrupt_identification":4,\
"line_control":27,"line_status":97,"modem_control":8,"modem_status":176,"scratch":90,"in_buffer":[104,105]}"""),
         (Rtc, '{"lr":1704067200,"offset":-3600,"mr":1704067260,"imsc":1,"ris":0}')]

FORMATS = {0x00: "5N1", 0x01: "6N1", 0x02: "7N1", 0x03: "8N1", 0x06: "7N2", 0x07: "8N2", 0x0B: "8O1", 0x1B: "8E1",
           0x2B: "8M1", 0x3B: "8S1", 0x33: "8N1"}

# The names of bits, from 0x01 on. A dash stands for one without a name.
BITS = {"IER": "RDA THRE RLS MS", "IIR": "- THRE RDA", "LCR": "- - - - - - BREAK DLAB", "MCR": "DTR RTS OUT1 OUT2 LOOP",
        "LSR": "DR OE PE FE BI THRE TEMT", "MSR": "- - - - CTS DSR RI DCD"}

LATCHED = Serial.from_state(SerialState(line_control=0x83))

# Names that reach another register than theirs, or none, and a part of why they are refused.
OUT_OF_REACH = [
    (lambda: Serial().read("THR"), "THR can only be written: a read at its offset reaches RBR"),
    (lambda: Serial().read("FCR"), "FCR can only be written: a read at its offset reaches IIR"),
    (lambda: Serial().write("RBR", 0), "RBR can only be read: a write at its offset reaches THR"),
    (lambda: Serial().write("IIR", 0), "IIR can only be read: a write at its offset reaches FCR"),
    *((lambda name=name: LATCHED.write(name, 0), f"{name} is out of reach while DLAB is set")
      for name in ("RBR", "THR", "IER")),
    (lambda: Serial().read("DLM"), "DLM is out of reach while DLAB is clear"),
    (lambda: Serial().read("XYZ"), f"no register is called XYZ: there are {' '.join(registers.SERIAL)}"),
    (lambda: Rtc().read("LSR", 0), f"no register is called LSR: there are {' '.join(registers.CLOCK)}"),
]

BYTE, WORD = (f"an int from 0 to {most} is wanted" for most in ("255", "2**32 - 1"))
BYTES, SIGNED = "a bytes-like object is wanted", "an int from -2**63 to 2**63 - 1 is wanted"

# Wrong arguments beside those of `wrong_values`, the error, and how its message begins and ends.
REFUSED = [
    (lambda: Serial().write(7, 10 ** 5000), ValueError, "value is ", BYTE),
    (lambda: Rtc.from_state(SerialState()), TypeError, "state is SerialState(", "RtcState is wanted"),
    (lambda: SerialState(scratch=256), ValueError, "scratch is 256", BYTE),
    (lambda: SerialState(in_buffer=3), TypeError, "in_buffer is 3", BYTES),
    (lambda: SerialState(in_buffer=bytes(65)), ValueError, "in_buffer has 65 bytes", "a port holds at most 64"),
    (lambda: RtcState(lr=-1), ValueError, "lr is -1", WORD),
    (lambda: RtcState(offset=1 << 63), ValueError, "offset is ", SIGNED),
    (lambda: RtcState(offset=-1 - (1 << 63)), ValueError, "offset is ", SIGNED),
    (lambda: parse("sr 05"), TypeError, "line is 'sr 05'", BYTES),
    (lambda: parse(b"refuse " + b"0" * 16), ScriptError, "a mask comes before every other line", ""),
    (lambda: Board().run("sr 05"), TypeError, "command is 'sr 05'", "Command is wanted"),
]


def wrong_values(parameter):
    """What a call may not be passed for a parameter: each value, its error, and what is wanted instead."""
    if parameter.kind == "bytes":
        return [(value, TypeError, BYTES) for value in (3, "a", None, [1])]
    if parameter.kind == "bool":
        return [(value, TypeError, "bool is wanted") for value in (0, 1, None, "a")]
    bits, names = parameter.kind, ", or the name of a register," if parameter.may_be_name else ""
    wanted = f"an int from 0 to {(1 << bits) - 1 if bits < 32 else f'2**{bits} - 1'}{names} is wanted"
    others = [1.0, None, b"1", [1], *([] if names else ["a"])]
    return [*((value, ValueError, wanted) for value in (-1, 1 << bits)),
            *((value, TypeError, wanted) for value in others)]


def edges(parameter):
    """The least and the most that a call may be passed for a parameter."""
    return {"bytes": [b"", bytes(128)], "bool": [False, True]}.get(parameter.kind) or [0, (1 << parameter.kind) - 1]


def passed(member, values, place, device, value):
    """Makes a call of a device, with this value at a place of the others."""
    return getattr(device, member)(*values[:place], value, *values[place + 1:])


def each_argument():
    """Each parameter of each call of each device, with the call of a device with a value for it."""
    for kind, member in ((kind, member) for kind in DEVICES for member in ["__init__", *members(kind)]):
        taken = parameters(kind, member)
        values = [{"bytes": b"a", "bool": True}.get(one.kind, 4) for one in taken]   # at 4 are MCR and MR
        for place, parameter in enumerate(taken):
            yield kind, member, parameter, partial(passed, member, values, place)


def spellings(name):
    """A name in upper and lower case, with a capital, and with a capital at its end."""
    return name, name.lower(), name.capitalize(), name.capitalize().swapcase()


class Arguments(unittest.TestCase):
    def test_each_argument_of_each_call(self):
        """It is taken at its edges. What is out of range or of another type is refused by its name, and changes
        nothing."""
        for kind, member, parameter, call in each_argument():
            for value in edges(parameter):
                call(kind(), value)
            for value, error, wanted in wrong_values(parameter):
                device = kind()
                before = contents(device)
                with self.subTest(kind, member=member, value=value), self.assertRaises(error) as caught:
                    call(device, value)
                said = f"{parameter.name} is {value!r}, of type {type(value).__name__}: {wanted}"
                self.assertEqual((said, before), (str(caught.exception), contents(device)))

    def test_what_is_written_of_numbers(self):
        """The range of an offset, and of a value, is that of its type in C, where a call says it."""
        told = []
        for kind, member, parameter, _ in each_argument():
            text = " ".join((getattr(kind, member).__doc__ or "").split())
            for bits, most in re.findall(rf"\ban? {parameter.name}(?: of (\d+) bits|, 0 to (\w+))", text):
                told.append((1 << int(bits)) - 1 if bits else int(most, 0))
                self.assertEqual((1 << parameter.kind) - 1, told[-1], (kind, member))
        self.assertGreaterEqual(len(told), 12)

    def test_a_long_value_is_cut(self):
        """A message about it is a line. (A name of a register has a message of its own.)"""
        for kind, member, parameter, call in each_argument():
            taken = {bytes} if parameter.kind == "bytes" else {str} if parameter.may_be_name else {}
            values = "a" * 99_999, b"a" * 99_999, [0] * 99_999, 10 ** 4_000, 10 ** 5_000
            for value in (value for value in values if type(value) not in taken):
                with self.subTest(kind, member=member), self.assertRaises((TypeError, ValueError)) as caught:
                    call(kind(), value)
                self.assertLess(len(str(caught.exception)), 160)

    def test_what_makes_a_device(self):
        """Bytes or a state, and nothing else."""
        for kind in DEVICES:
            made = [(kind.from_bytes, "data", BYTES)] if hasattr(kind, "from_bytes") else []
            if hasattr(kind, "from_state"):
                made.append((kind.from_state, "state", f"{type(kind().state).__name__} is wanted"))
            for (call, name, wanted), value in product(made, (3, "a", None, [1], kind())):
                with self.subTest(kind, value=value), self.assertRaises(TypeError) as caught:
                    call(value)
                self.assertRegex(str(caught.exception), f"^{name} is .*, of type {type(value).__name__}: {wanted}$")

    def test_what_is_refused(self):
        for call, kind, *message in [*REFUSED, *((call, RegisterError, said, "") for call, said in OUT_OF_REACH)]:
            with self.subTest(message), self.assertRaises(kind) as caught:
                call()
            said = str(caught.exception)
            self.assertEqual((kind, *message), (type(caught.exception), said[:len(message[0])],
                                                said[len(said) - len(message[1]):]))

    def test_a_refused_command_leaves_the_board(self):
        board = Board()
        board.reply(parse(b"sq 61"))
        before = board.number, board.snapshot()
        for command in (Command("sr", (256,)), Command("sw", (7, -1)), Command("sq", ("a",)), Command("cr", (-1, 0))):
            self.assertRaises((TypeError, ValueError), board.reply, command)
            self.assertEqual(before, (board.number, board.snapshot()))

    def test_what_has_bytes_in_memory_is_taken(self):
        port = Serial()
        for data in (b"ab", bytearray(b"cd"), memoryview(b"exfx")[::2]):
            self.assertEqual(2, port.enqueue(data).accepted)
        self.assertEqual(b"abcdef", port.state.in_buffer)

    def test_a_misspelt_attribute_is_refused(self):
        for kind in saved.Saved.__subclasses__():
            if kind is not NamedPort:
                self.assertRaises(AttributeError, setattr, kind(), "stat", None)

    def test_names_of_registers(self):
        """In any case, each is the register that is there, or is refused. The clock's may begin with RTC."""
        def done(kind, state, call, *arguments):
            device = kind.from_state(state)
            return getattr(device, call)(*arguments), device.state

        for name, register in registers.SERIAL.items():
            for spelt, (call, *value), latch in product(spellings(name), (["read"], ["write", 0x9A]), (False, True)):
                state = SerialState(line_control=0x83 if latch else 0x03, in_buffer=b"ab")
                with self.subTest(spelt, call=call, latch=latch):
                    if call[0] in register.access and register.latched in (None, latch):
                        self.assertEqual(*(done(Serial, state, call, at, *value) for at in (spelt, register.offset)))
                        continue
                    self.assertRaises(registers.RegisterError, done, Serial, state, call, spelt, *value)
        for name, register in registers.CLOCK.items():
            names = *spellings(name), *spellings(f"RTC{name}")
            for spelt, (call, *rest) in product(names, (["read", 9], ["write", 9, 9])):
                with self.subTest(spelt, call=call):
                    state = RtcState(lr=1, mr=2, imsc=1, ris=1)
                    self.assertEqual(*(done(Rtc, state, call, at, *rest) for at in (spelt, register.offset)))

    def test_each_device_says_that_there_is_no_library(self):
        with mock.patch.object(devices, "load", side_effect=LibraryError), \
                mock.patch.object(saved, "load", side_effect=LibraryError):
            for kind in DEVICES:
                self.assertRaises(LibraryError, kind)

    def test_where_the_library_is_looked_for(self):
        with mock.patch.object(library, "FILE_NAME", "none.so"), mock.patch.dict(os.environ, {library.VARIABLE: ""}), \
                self.assertRaises(LibraryError) as caught:
            library.open_library()
        folder = Path(library.__file__).resolve().parent
        prebuilt = f"prebuilt/{os.uname().machine}-linux/none.so"
        places = " or ".join(map(str, [folder / "none.so", *(folder.parents[up] / prebuilt for up in (0, 2))]))
        self.assertRegex(str(caught.exception), "^none.so cannot be loaded: .*, nor is it "
                                                f"{re.escape(places)}: set SUPERIO_LIBRARY to its path$")

    def test_which_library_is_loaded(self):
        """The one that the variable names, or the first that is there. An empty variable names none."""
        package = Path(tempfile.mkdtemp(), "bindings", "python", "superio")
        self.addCleanup(shutil.rmtree, package.parents[2])
        prebuilt = f"prebuilt/{os.uname().machine}-linux"
        places = [package / library.FILE_NAME, *(package.parents[up] / prebuilt / library.FILE_NAME for up in (0, 2))]
        for place in places:
            place.parent.mkdir(parents=True, exist_ok=True)
            place.touch()
        for first in [*map(str, places), library.FILE_NAME]:
            for named in (None, "", "/nowhere/lib.so"):
                with self.subTest(first=first, named=named), mock.patch.dict(os.environ), \
                        mock.patch.object(library, "_PACKAGE", package), \
                        mock.patch.object(library, "_loaded", lambda path: path):
                    os.environ.pop(library.VARIABLE, None)
                    os.environ.update({library.VARIABLE: named} if named is not None else {})
                    self.assertEqual(named or first, library.open_library())
            if first != library.FILE_NAME:
                os.unlink(first)


class NamedPort(Serial):
    def __init__(self, name):
        super().__init__()
        self.name = name


class States(unittest.TestCase):
    def test_a_copy_has_the_state_and_goes_its_own_way(self):
        port = NamedPort("COM1")
        port.enqueue(b"abc")
        port.read("RBR")
        clock = Rtc.from_state(RtcState(lr=1, mr=2, imsc=3, ris=4, offset=-5, armed=True))
        for way in WAYS:
            for device, change in ((port, lambda copied: copied.read("RBR")),
                                   (clock, lambda copied: copied.write("LR", 9, 0))):
                before, other = device.state, way(device)
                self.assertEqual((type(device), before), (type(other), other.state))
                change(other)
                self.assertEqual((before, False), (device.state, other.state == before))
            self.assertEqual("COM1", way(port).name)
            self.assertTrue(way(I8042()).write(4, 0xFE).resets)

    def test_equal_states_have_the_same_pickle(self):
        """Whatever the port held before, and wherever its ring begins."""
        port = Serial()
        port.enqueue(b"secret")
        for _ in b"secret":
            port.read("RBR")
        port.enqueue(b"ab")
        self.assertEqual(pickle.dumps(Serial.from_state(SerialState(in_buffer=b"ab", line_status=0x61))),
                         pickle.dumps(port))

    def test_a_state_has_the_held_bytes_wherever_the_ring_begins(self):
        """Its place counts on past the last one."""
        port = Serial()
        for number in range(300):
            port.enqueue(bytes([number % 251, 1]))
            port.read("RBR")
            self.assertEqual(Serial.from_bytes(port.to_bytes()).state, port.state)
            port.read("RBR")

    def test_a_copied_board_goes_on_as_its_original(self):
        """Every part of it, among them what its line has still to refuse. Each line comes twice, so what it writes is
        read."""
        lines = [b"sw 01 03", b"sq 6162", b"sw 00 41", b"sr 02", b"si", b"sw 00 42", b"st", b"se", b"so", b"sb", b"cb"]
        texts = (" ".join([name, *("4" * field.digits or "44" for field in fields)])
                 for name, fields in LINE_FIELDS.items() if name != MASK)
        lines += 2 * [text.encode() for text in texts]
        board = Board()
        for line in (b"refuse 0000000000000055", b"cw 0000000000000000 0004 00000009", *lines):
            board.reply(parse(line, is_first=board.number == 0))
        copies = [way(board) for way in WAYS[1:]]
        calls = [board.run(parse(line)) for line in lines]
        for other in copies:
            self.assertEqual(calls, [other.run(parse(line)) for line in lines])

    def test_each_error_can_be_copied(self):
        """As a pool of processes does that passes one on."""
        errors = [*map(SavedStateError, SAVED_STATE_ERRORS)]
        public = [kind for kind in vars(superio).values() if isinstance(kind, type) and issubclass(kind, Exception)]
        for error in [*errors, *(kind("a") for kind in public if kind is not SavedStateError)]:
            for other in (way(error) for way in WAYS):
                self.assertEqual((type(error), str(error), vars(error)), (type(other), str(other), vars(other)))

    @unittest.skipUnless(ERROR_TEXTS.exists(), "the package's sources have no crates")
    def test_errors_of_saved_states_have_the_texts_of_rattle(self):
        """And the names of its cases, in the words of a script."""
        cases = re.findall(r'SavedStateError::(\w+)(?:\(_\))? => write!\(f, "(.*)"\)', ERROR_TEXTS.read_text("utf-8"))
        words = [(re.sub("(?<!^)(?=[A-Z])", " ", name).lower(), text) for name, text in cases]
        self.assertEqual([*SAVED_STATE_ERRORS.items()], words)
        self.assertEqual(words, [(error.reason, str(error)) for error in map(SavedStateError, SAVED_STATE_ERRORS)])

    def test_a_state_has_the_types_that_it_is_annotated_with(self):
        """Also one that was made of other numbers, such as Booleans, which JSON has as other values."""
        numbers = len(RtcState.kinds()) - 1
        one = [SerialState(*[True] * 9, in_buffer=bytearray(b"a")), RtcState(*[True] * numbers, armed=256)]
        for state in (SerialState(), RtcState(), Serial().state, Rtc().state, *one):
            types = {name: type(value) for name, value in vars(state).items()}
            self.assertEqual(typing.get_type_hints(type(state)), types)

    def test_states_of_vm_superio_come_and_go(self):
        for kind, text in MOVED:
            named = json.loads(text)
            state = type(kind().state).from_vm_superio(named)
            self.assertEqual(json.loads(text), named)
            self.assertEqual(text, json.dumps(kind.from_state(state).state.to_vm_superio(), separators=(",", ":")))

    def test_an_alarm_is_not_lost(self):
        clock = Rtc()
        clock.write("MR", 2000, now=1000)
        with self.assertRaisesRegex(AlarmIsSetError, "an alarm is set"):
            clock.state.to_vm_superio()
        self.assertEqual(2000, dataclasses.replace(clock.state, armed=False).to_vm_superio()["mr"])
        clock.read("DR", now=2000)
        five = clock.state.to_vm_superio()
        self.assertEqual({"lr": 0, "offset": 0, "mr": 2000, "imsc": 0, "ris": 1}, five)
        self.assertFalse(RtcState.from_vm_superio(five).armed)

    def test_other_names_and_values_of_vm_superio_are_refused(self):
        port, clock = SerialState().to_vm_superio(), RtcState().to_vm_superio()
        for kind, named, error in ((SerialState, {**port, "armed": True}, ValueError),
                                   (RtcState, {"lr": 0}, ValueError),
                                   (SerialState, {**port, "in_buffer": [256]}, ValueError),
                                   (SerialState, {**port, "in_buffer": 5}, TypeError),
                                   (SerialState, {**port, "scratch": 256}, ValueError),
                                   (RtcState, {**clock, "offset": "1"}, TypeError)):
            self.assertRaises(error, kind.from_vm_superio, named)

    def test_offsets_of_the_clock(self):
        """Those of the data sheet."""
        names = "DR MR LR CR IMSC RIS MIS ICR".split()
        self.assertEqual([4 * place for place in range(8)], [registers.CLOCK[name].offset for name in names])

    def test_what_is_shown(self):
        for value, name in FORMATS.items():
            self.assertEqual([name], registers.bit_names(registers.SERIAL["LCR"], value), hex(value))
        for register, names in BITS.items():
            self.assertEqual({name: 1 << place for place, name in enumerate(names.split()) if name != "-"},
                             registers.bits_by_name(registers.SERIAL[register]))
        clock = Rtc.from_state(RtcState(lr=0x12345678, mr=0x9ABCDEF0, imsc=1, offset=-5, armed=True))
        self.assertRegex(repr(clock), r"^<Rtc MR=0x9abcdef0 LR=0x12345678 IMSC=0x00000001\(ALARM\) RIS=0x00000000 "
                                      r"(\w+=0x00000000 )*offset=-5 armed=True>$")
        port = Serial.from_state(SerialState(0x34, 0x12, line_control=0x83, in_buffer=b"a"))
        self.assertEqual("<Serial divisor=4660 IER=0x00 IIR=0x01(none) LCR=0x83(8N1|DLAB) LSR=0x60(THRE|TEMT) "
                         "MCR=0x08(OUT2) MSR=0xb0(CTS|DSR|DCD) SCR=0x00 in_buffer=b'a'>", repr(port))
        self.assertEqual([], registers.bit_names(registers.SERIAL["IIR"], 0))  # which no coherent port has

    def test_when_an_alarm_is_due(self):
        clock = Rtc()
        clock.write("MR", 2000, now=1000)
        self.assertEqual((1000, None), (clock.alarm_due(1000), Rtc().alarm_due(1000)))

    def test_coherence(self):
        self.assertTrue(Serial().is_coherent())
        self.assertFalse(Serial.from_state(SerialState(interrupt_identification=0x04)).is_coherent())


def load_tests(loader, tests, ignored):
    tests.addTests(doctest.DocTestSuite(devices))
    tests.addTests(doctest.DocTestSuite(board, extraglobs={"Board": Board, "parse": parse}))
    return tests
