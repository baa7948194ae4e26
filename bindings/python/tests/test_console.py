# SPDX-License-Identifier: Apache-2.0 OR BSD-3-Clause
"""The console: what Python adds to its calls, its saved states, what a monitor reads off its work, and worlds of
guests, monitors, interrupt controllers and readers around it."""
import copy
import dataclasses
import os
import pickle
import random
import unittest
from ctypes import byref

import support  # noqa: F401, which finds the package
from worlds import Machine, World

from superio import (Console, ConsoleRead, ConsoleReceived, ConsoleState, RegisterError, SavedStateError, Serial,
                     SerialState, Wants, Work)
from superio.library import ConsoleStruct

WORLDS, STEPS = 120, 600
IDLE, UP = Work(0, False, False), Work(0, True, False)
# Values of other types than a number has, than bytes have, and than a flag has.
NO_NUMBER, NO_BYTES, NO_FLAG = (None, 1.0, b"1", [1]), (None, 5, "a", [65]), (None, 0, 1, "", b"", [])
OUT_OF_BYTE = -1, 256, 1 << 64
# A console of which each field has a value of its own, and its saved state.
PORT = SerialState(0x11, 0x22, 0x03, 0x06, 0x44, 0x61, 0x08, 0xB5, 0x77, b"\xa1\xa2\xa3")
STATE = ConsoleState(PORT, b"\xb1\xb2", 0x0102030405060708, is_polled=True, is_asleep=True)
VERSION = Serial().to_bytes()[5:6]
PORT_SAVED = b"SIOS\x01" + VERSION + bytes.fromhex("0c00 11 22 03 06 44 61 08 b5 77 a1a2a3")
SAVED = b"SIOS\x03" + VERSION + bytes.fromhex("2100 05 0807060504030201 0200 b1b2") + PORT_SAVED


def ready(**options):
    """A console whose guest's driver is ready."""
    console = Console(**options)
    console.write("IER", 0x01)
    return console


def saved(contents):
    """The saved state of a console with these contents."""
    return SAVED[:6] + len(contents).to_bytes(2, "little") + contents


class Arguments(unittest.TestCase):
    def test_what_is_refused_changes_nothing(self):
        calls = [
            *((name, (value, *more), kind) for name, more in (("read", ()), ("write", (0,)))
              for values, kind in ((NO_NUMBER, TypeError), (OUT_OF_BYTE, ValueError)) for value in values),
            *(("write", (7, value), kind) for values, kind in ((NO_NUMBER, TypeError), (("1",), TypeError),
                                                              (OUT_OF_BYTE, ValueError)) for value in values),
            *(("receive", (value,), TypeError) for value in NO_BYTES),
            *(("consume", (value,), TypeError) for value in (*NO_NUMBER, "1")),
            *(("consume", (value,), ValueError) for value in (-1, 1 << 64)),
            *(("set_polled", (value,), TypeError) for value in NO_FLAG),
            ("read", ("THR",), RegisterError), ("write", ("RBR", 0), RegisterError), ("read", ("DLL",), RegisterError),
            ("read", ("XYZ",), RegisterError),
            *((name, (1,), TypeError) for name in ("turn", "refuse", "reset", "suspend", "wants", "output", "is_full",
                                                   "dropped", "to_bytes")),
            *((name, (), TypeError) for name in ("read", "write", "receive", "consume", "set_polled"))]
        console = Console.from_state(STATE)
        before = bytes(console._struct)
        for name, arguments, kind in calls:
            with self.subTest(name, arguments=arguments):
                self.assertRaises(kind, getattr(console, name), *arguments)
                self.assertEqual(before, bytes(console._struct))
        for value in NO_FLAG:
            self.assertRaises(TypeError, Console, value)
        for value in NO_BYTES:
            self.assertRaises(TypeError, Console.from_bytes, value)
        self.assertRaises(AttributeError, setattr, console, "is_polled", True)

    def test_what_is_taken(self):
        console = ready()
        for data in (b"ab", bytearray(b"cd"), memoryview(b"exfx")[::2]):
            self.assertEqual(2, console.receive(data).accepted)
        self.assertEqual(b"abcdef", console.state.port.in_buffer)
        self.assertEqual(0x61, console.read("lsr").byte)
        console.write(0, True)  # an index, as elsewhere
        self.assertEqual(b"\x01", console.output())

    def test_beyond_what_is_wanted_and_what_waits(self):
        console = ready()
        self.assertEqual(64, console.receive(bytes(100)).accepted)
        self.assertEqual(ConsoleReceived(0, UP), console.receive(b"a"))
        for byte in b"abc":
            console.write("THR", byte)
        console.consume(2)
        self.assertEqual(b"c", console.output())
        console.consume(100)
        self.assertEqual((b"", 0), (console.output(), console.dropped()))


class States(unittest.TestCase):
    def test_each_field_has_its_place(self):
        console = Console.from_state(STATE)
        self.assertEqual((STATE, SAVED), (console.state, console.to_bytes()))
        self.assertEqual(STATE, Console.from_bytes(SAVED).state)
        other = dataclasses.replace(STATE, is_polled=False, is_ready=True, is_asleep=False, is_refused=True)
        self.assertEqual(SAVED[:8] + b"\x0a" + SAVED[9:], Console.from_state(other).to_bytes())
        self.assertEqual(4192, len(bytes(console._struct)))

    def test_new_ones(self):
        self.assertEqual(ConsoleState(), Console().state)
        self.assertEqual(ConsoleState(is_polled=True), Console(polled=True).state)
        self.assertEqual(Serial().state, Console().state.port)

    def test_saved_bytes_that_are_refused_say_why(self):
        eleven = bytes(11)
        for data, reason in (
                (b"", "too short"), (SAVED[:7], "too short"), (b"T" + SAVED[1:], "not a saved state"),
                (PORT_SAVED, "other device"), (SAVED[:5] + b"\xfe" + SAVED[6:], "unknown version"),
                (SAVED + b"\0", "wrong length"), (SAVED[:-1], "wrong length"), (saved(bytes(10)), "wrong length"),
                (saved(bytes(9) + b"\x03\x00ab"), "wrong length"),              # fewer bytes than wait
                (saved(bytes(9) + b"\x01\x10" + bytes(4097)), "wrong length"),  # more than may wait
                *((SAVED[:8] + bytes([flags]) + SAVED[9:], "invalid flags") for flags in (0x10, 0x85, 0xFF)),
                (saved(eleven), "too short"),                                    # and from here on the port in it
                (saved(eleven + PORT_SAVED + b"\0"), "wrong length"), (saved(eleven + SAVED), "other device"),
                (saved(eleven + PORT_SAVED[:6] + b"\x4a\x00" + bytes(74)), "too many bytes")):
            with self.subTest(reason, data=data[:40]), self.assertRaises(SavedStateError) as caught:
                Console.from_bytes(data)
            self.assertEqual(reason, caught.exception.reason)
        self.assertRaises(SavedStateError, Serial.from_bytes, SAVED)

    def test_the_largest(self):
        port = dataclasses.replace(PORT, in_buffer=bytes(64))
        console = Console.from_state(ConsoleState(port, bytes(4096), (1 << 64) - 1))
        self.assertEqual(4196, len(console.to_bytes()))
        console.write(0, 1)
        self.assertEqual((1 << 64) - 1, console.dropped())
        self.assertEqual(4196, len(Console.from_bytes(console.to_bytes()).to_bytes()))

    def test_equal_states_have_the_same_pickle(self):
        """Wherever the rings begin."""
        console = ready()
        for number in range(5000):
            console.write("THR", number % 251)
            console.consume(number % 2)
        for _ in range(3):
            console.receive(b"ab")
            console.read("RBR")
        expected = bytes(number % 251 for number in range(2500, 5000))
        self.assertEqual((expected, b"bab"[-3:]), (console.output(), console.state.port.in_buffer[-3:]))
        for other in (copy.copy(console), copy.deepcopy(console), Console.from_state(console.state)):
            self.assertEqual(pickle.dumps(console), pickle.dumps(other))
            other.consume(1)
            self.assertEqual((expected, expected[1:]), (console.output(), other.output()))

    def test_a_subclass_keeps_its_attributes(self):
        class Named(Console):
            def __init__(self, name):
                super().__init__(polled=True)
                self.name = name

        other = copy.copy(Named("COM1"))
        self.assertEqual(("COM1", True), (other.name, other.state.is_polled))

    def test_any_struct_is_a_console(self):
        """No call fails, whatever the struct has."""
        source = random.Random(os.environ.get("TEST_SEED"))
        for _ in range(50):
            console = Console()
            console._struct = ConsoleStruct.from_buffer_copy(source.randbytes(4192))
            console._pointer = byref(console._struct)
            for offset in range(9):
                console.read(offset)
                console.write(offset, 3)
            accepted = console.receive(bytes(80)).accepted
            self.assertLessEqual(accepted, 64)
            self.assertLessEqual(len(console.output()), 4096)
            console.turn()
            self.assertEqual(console.state, Console.from_bytes(console.to_bytes()).state)

    def test_what_is_shown(self):
        self.assertEqual(
            "<Console divisor=8721 IER=0x03(RDA|THRE) IIR=0x06(RDA|THRE) LCR=0x44(5N2|BREAK) LSR=0x61(DR|THRE|TEMT) "
            "MCR=0x08(OUT2) MSR=0xb5(CTS|DSR|DCD) SCR=0x77 in_buffer=b'\\xa1\\xa2\\xa3' output=2 bytes "
            "dropped=72623859790382856 is_polled=True is_ready=False is_asleep=True is_refused=False>",
            repr(Console.from_state(STATE)))


class Calls(unittest.TestCase):
    def test_input_waits_for_the_driver(self):
        console = Console()
        self.assertEqual((Wants(0, False, False), 0), (console.wants(), console.receive(b"a").accepted))
        self.assertEqual(IDLE, console.write("MCR", 0x1B))        # the driver tests its port
        self.assertEqual(Work(1, True, False), console.write("IER", 0x0F))
        self.assertEqual(IDLE, console.write("IER", 0))
        self.assertEqual(IDLE, console.write("MCR", 0x0B))
        self.assertEqual(0, console.wants().input)
        self.assertEqual(Work(0, False, True), console.write("IER", 0x01))   # and is ready
        self.assertEqual(Wants(64, False, False), console.wants())
        self.assertEqual(Work(0, False, False), console.write("MCR", 0x1B))  # loopback
        self.assertEqual(0, console.wants().input)
        self.assertEqual(Work(0, False, True), console.write("MCR", 0x0B))

    def test_bytes_that_are_left_interrupt_again(self):
        console = ready()
        self.assertEqual(ConsoleReceived(2, Work(1, True, True)), console.receive(b"hi"))
        self.assertEqual(Wants(62, False, True), console.wants())
        self.assertEqual(ConsoleRead(0xC4, IDLE), console.read("IIR"))
        self.assertEqual(ConsoleRead(ord("h"), IDLE), console.read("RBR"))
        self.assertEqual(ConsoleRead(0xC1, Work(1, True, False)), console.read("IIR"))   # nothing pending, but a byte
        self.assertEqual(ConsoleRead(0xC4, IDLE), console.read("IIR"))
        self.assertEqual(Work(1, True, False), console.turn())
        self.assertEqual(UP, console.turn())

    def test_what_was_refused_is_asked_for_again(self):
        console = ready()
        console.receive(b"a")
        console.write("IER", 0)
        self.assertEqual(IDLE, console.refuse())
        self.assertEqual(IDLE, console.turn())
        self.assertEqual(Work(1, True, True), console.write("IER", 0x01))
        self.assertEqual(UP, console.refuse())
        self.assertEqual(Work(1, True, False), console.turn())
        self.assertEqual(UP, console.turn())

    def test_output_that_has_no_room_is_dropped_and_counted(self):
        console = Console()
        self.assertEqual(Work(0, False, True), console.write("THR", 0))
        for number in range(1, 4096):
            self.assertFalse(console.is_full())
            self.assertEqual(IDLE, console.write("THR", number & 0xFF))
        self.assertTrue(console.is_full())
        for _ in range(3):
            console.write("THR", 0xFF)
        self.assertEqual((3, bytes(range(256)) * 16), (console.dropped(), console.output()))
        console.consume(1)
        self.assertFalse(console.is_full())
        console.write("THR", 0xAA)
        output = console.output()
        self.assertEqual((3, b"\x01\x02", b"\xff\xaa"), (console.dropped(), output[:2], output[-2:]))

    def test_a_reset_and_a_suspend(self):
        console = ready()
        console.receive(b"abc")
        console.write("THR", ord("x"))
        console.suspend()
        self.assertEqual(Wants(0, True, True), console.wants())
        self.assertEqual(IDLE, console.reset())
        self.assertEqual(ConsoleState(output=b"x"), console.state)
        console = ready(polled=True)
        console.suspend()
        self.assertEqual(0, console.wants().input)
        self.assertEqual(Work(0, False, True), console.reset())
        self.assertEqual((64, True), (console.wants().input, console.state.is_polled))
        console.suspend()
        self.assertEqual(Work(0, False, True), console.write("IER", 0x01))

    def test_a_loader_that_polls_and_a_kernel_that_does_not(self):
        console = Console(polled=True)
        self.assertEqual(ConsoleReceived(1, IDLE), console.receive(b"a"))
        self.assertEqual((IDLE, 0), (console.set_polled(False), console.wants().input))
        self.assertEqual((Work(0, False, True), 63), (console.set_polled(True), console.wants().input))

    def test_room_wakes_the_event_loop(self):
        console = ready()
        console.receive(bytes(64))
        self.assertEqual(0, console.wants().input)
        self.assertTrue(console.read("RBR").work.wakes)
        self.assertFalse(console.read("RBR").work.wakes)


class ForgetsToWake(Machine):
    def carry_out(self, work):
        super().carry_out(work._replace(wakes=False))


class SleepsWithoutLimit(Machine):
    def make_turn(self):
        super().make_turn()
        self.polled = self.polled._replace(turn=False)


class ForgetsRefusals(Machine):
    def refuse(self):
        """Says nothing of it."""


class ForgetsTurns(Machine):
    def turn(self):
        """Makes none."""


class Worlds(unittest.TestCase):
    def run_worlds(self, kind, number=WORLDS):
        for place in range(number):
            World(random.Random(f"{place} of {os.environ.get('TEST_SEED', 0)}"), kind).run(STEPS)

    def test_each_comes_to_rest_with_every_byte_delivered(self):
        self.run_worlds(Machine)

    def test_a_monitor_that_neglects_a_duty_is_found(self):
        for kind in (ForgetsToWake, SleepsWithoutLimit, ForgetsRefusals, ForgetsTurns):
            with self.subTest(kind.__name__), self.assertRaises(AssertionError):
                self.run_worlds(kind, 200)
