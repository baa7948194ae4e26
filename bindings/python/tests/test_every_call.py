# SPDX-License-Identifier: Apache-2.0 OR BSD-3-Clause
"""What holds of every call, whatever it is for, by random ones: it passes C as much memory as superio.abi says, changes
nothing that it is passed, and what it gives stays. Devices that take turns do what each does alone, states go there and
back by every way, and a session's trace makes it again. The variable TEST_SEED makes the calls others."""
import copy
import ctypes
import dataclasses
import inspect
import io
import json
import os
import pickle
import random
import typing
import unittest
from itertools import product
from unittest import mock

from support import DEVICES, FolderTest, WAYS, contents, members, only_looks, parameters

from superio import (AlarmIsSetError, Console, ConsoleState, I8042, Rtc, RtcState, SavedStateError, Serial,
                     SerialState)
from superio import devices, library, saved
from superio.board import LINES, MASK, PROGRAM_LINES
from superio.recording import replay
from superio.registers import CLOCK, SERIAL, MovableState, State
from superio.session import Session

ROUNDS = 5_000
STATES = {kind: typing.get_type_hints(kind.from_state)["state"] for kind in DEVICES if hasattr(kind, "from_state")}
SAVED = [kind for kind in DEVICES if hasattr(kind, "from_bytes")]
MOST = {"in_buffer": 64, "output": 4096}   # bytes that a field of a state has


class Drawn(random.Random):
    """Arguments that are drawn, by the name of a test and TEST_SEED."""

    def __init__(self, what):
        super().__init__(f"{what} of {os.environ.get('TEST_SEED', 0)}")

    def number(self, bits):
        """A number of so many bits. Small ones are common."""
        return self.choice([self.randrange(min(2_000, 1 << bits)), self.getrandbits(bits)])

    def flag(self):
        return self.random() < 0.5

    def argument(self, kind, parameter):
        """An argument of a call of a device."""
        special = SPECIAL.get((kind, parameter.name))
        if special:
            return special(self)
        if parameter.kind == "bytes":
            return bytearray(self.randbytes(self.randrange(70)))
        return self.flag() if parameter.kind == "bool" else self.number(parameter.kind)

    def state(self, kind):
        """A state of this class, which may be any."""
        return kind(**{field.name: self.value(field) for field in dataclasses.fields(kind)})

    def value(self, field):
        if isinstance(field.default, State):
            return self.state(type(field.default))
        if isinstance(field.default, bytes):
            most = MOST[field.name]
            return self.randbytes(self.choice([self.randrange(9), self.randrange(65), most - self.randrange(9)]))
        if isinstance(field.default, bool):
            return self.flag()
        bits = 8 * ctypes.sizeof(field.metadata["kind"])
        if field.metadata["kind"] is ctypes.c_int64:
            return self.choice([self.randrange(-9, 9), self.getrandbits(64) - (1 << 63)])
        return self.number(bits) if bits == 8 or self.flag() else (1 << bits) - 1 - self.randrange(9)

    def device(self, kind):
        """A device of this class in any state that it may be given, or else in one that some calls bring it to."""
        if kind in STATES:
            return kind.from_state(self.state(STATES[kind]))
        device = kind()
        for _ in range(self.randrange(9)):
            made(device, *drawn_call(self, kind))
        return device


# Arguments that are drawn otherwise than by the type in C: most are where there is a register, of few bytes, or near
# the reset command.
SPECIAL = {
    (Console, "offset"): lambda source: source.randrange(9), (Serial, "offset"): lambda source: source.randrange(9),
    (Console, "count"): lambda source: source.choice([source.randrange(9), source.getrandbits(64)]),
    (Rtc, "offset"): lambda source: source.choice([4 * source.randrange(8), source.getrandbits(16)]),
    (I8042, "offset"): lambda source: source.choice([source.randrange(8), source.randrange(256)]),
    (I8042, "value"): lambda source: 0xFE - source.randrange(2),
}


# Numbers in whose place may be the name of a register.
NAMED = {(kind, "offset"): typing.Union[int, str] for kind in (Console, Serial, Rtc)}


def drawn_call(source, kind, only=None):
    """A member of a device, which may be given, and arguments for it."""
    name = only or source.choice(members(kind))
    return name, tuple(source.argument(kind, parameter) for parameter in parameters(kind, name))


def made(device, name, arguments):
    member = getattr(device, name)
    return member(*arguments) if callable(member) else member


# What each class method that makes a device or a state takes, of another one.
TAKEN = {"from_bytes": lambda device: device.to_bytes(), "from_state": lambda device: device.state,
         "from_vm_superio": lambda state: state.to_vm_superio()}


def makers(kind):
    """The class methods that give one of this class, or of a subclass."""
    found = {name: inspect.getattr_static(kind, name) for name in dir(kind) if name[0] != "_"}
    given = {name: typing.get_type_hints(member.__func__)["return"] for name, member in found.items()
             if isinstance(member, classmethod)}
    return [name for name, each in given.items() if each is kind or isinstance(each, typing.TypeVar)]


class Watched:
    """The library, whose calls are compared with their rows of superio.abi: an array has at least the bytes that the
    row says, and a count is that of the bytes before it, of which C writes no more."""

    def __init__(self, found):
        self.called, self._found = set(), found

    def __getattr__(self, name):
        (words,) = library._found(rf"function \w+ {name}\((.*)\)")

        def call(*arguments):
            self.called.add(name)
            for parameter, argument, following in zip(words.split(", "), arguments, (*arguments[1:], None)):
                if "[" in parameter:
                    size = library._CONSTANTS[parameter.partition("[SUPERIO_")[2].rstrip("]")]
                    assert isinstance(argument, ctypes.Array) and ctypes.sizeof(argument) >= size, name
                if parameter == "const uint8_t *":
                    assert isinstance(argument, bytes) and len(argument) == following, name
                if parameter == "uint8_t *":
                    assert isinstance(argument, ctypes.Array) and ctypes.sizeof(argument) == following, name
            return getattr(self._found, name)(*arguments)
        setattr(self, name, call)   # which is then found at once
        return call


class EveryCall(unittest.TestCase):
    def test_arrays_are_as_large_as_the_table_says(self):
        source, watched = Drawn("arrays"), Watched(library.load())
        with mock.patch.object(devices, "load", lambda: watched), mock.patch.object(saved, "load", lambda: watched):
            objects = [kind() for kind in DEVICES]
            for _ in range(ROUNDS):
                device = source.choice(objects)
                made(device, *drawn_call(source, type(device)))
            for kind in SAVED:
                kind.from_bytes(source.device(kind).to_bytes())
                for count in range(9):
                    self.assertRaises(SavedStateError, kind.from_bytes, bytes(count))
        self.assertEqual({*library.PROTOTYPES} - {"superio_abi"}, watched.called)

    def test_annotations(self):
        """They say what each call takes, and what it gives: each kind of value comes, and no other does."""
        source = Drawn("annotations")
        for kind, name in ((kind, name) for kind in DEVICES for name in members(kind)):
            member = getattr(kind, name)
            hints = typing.get_type_hints(member.fget if isinstance(member, property) else member)
            said = hints.pop("return")
            taken = {one.name: {"bytes": bytes, "bool": bool}.get(one.kind) or NAMED.get((kind, one.name), int)
                     for one in parameters(kind, name)}
            given = [made(source.device(kind), *drawn_call(source, kind, name)) for _ in range(100)]
            with self.subTest(kind, member=name):
                self.assertEqual(taken, hints)
                self.assertEqual({*typing.get_args(said)} or {said}, {*map(type, given)})
                for one in given:
                    fields = one._asdict() if isinstance(one, tuple) else {}
                    self.assertEqual({field: type(value) for field, value in fields.items()},
                                     typing.get_type_hints(type(one)) if fields else {})

    def test_what_a_call_gives_and_takes_is_the_same_after_all_later_calls(self):
        source, kept = Drawn("kept"), []
        objects = [*(kind() for kind in DEVICES), *map(source.device, DEVICES)]
        for _ in range(ROUNDS):
            device = source.choice(objects)
            name, arguments = drawn_call(source, type(device))
            passed = copy.deepcopy(arguments)
            given = made(device, name, arguments)
            kept.append((given, copy.deepcopy(given), arguments, passed))
            hash(given)  # nobody can change it
        for given, before, arguments, passed in kept:
            self.assertEqual((before, passed), (given, arguments))

    def test_devices_that_take_turns_do_what_each_does_alone(self):
        source, kinds = Drawn("turns"), [*DEVICES, *DEVICES]
        order = [source.randrange(len(kinds)) for _ in range(ROUNDS)]
        calls = [(which, *drawn_call(source, kinds[which])) for which in order]
        objects = [kind() for kind in kinds]
        in_turns = [made(objects[which], name, arguments) for which, name, arguments in calls]
        for own, kind in enumerate(kinds):
            device = kind()
            for (which, name, arguments), given in zip(calls, in_turns):
                if which == own:
                    self.assertEqual(given, made(device, name, arguments))

    def test_calls_that_only_look_leave_a_device_as_it_is(self):
        source = Drawn("looks")
        for kind in DEVICES:
            looks = [name for name in members(kind) if only_looks(kind, name)]
            for _ in range(ROUNDS // 20):
                device = source.device(kind)
                before = contents(device)
                for name in looks:
                    made(device, *drawn_call(source, kind, name))
                    self.assertEqual(before, contents(device), name)
                for name in ("__repr__", "__reduce__"):
                    getattr(device, name)()
                    self.assertEqual(before, contents(device), name)

    def test_a_copy_does_what_the_device_does_and_is_another_one(self):
        """Neither notices the calls of the other. The copy has the same calls first."""
        source = Drawn("copies")
        for kind, way in product(DEVICES, WAYS):
            for _ in range(ROUNDS // 500):
                device = source.device(kind)
                other, calls = way(device), [drawn_call(source, kind) for _ in range(9)]
                self.assertEqual((kind, pickle.dumps(device)), (type(other), pickle.dumps(other)))
                self.assertEqual([made(other, *call) for call in calls], [made(device, *call) for call in calls])
                self.assertEqual(pickle.dumps(device), pickle.dumps(other))

    def test_a_subclass_makes_its_own(self):
        """Each class method that gives a device or a state gives one of the class for which it is called."""
        source, tried = Drawn("subclasses"), set()
        for kind in (*DEVICES, *STATES.values()):
            one, own = source.device(kind) if kind in DEVICES else kind(), type("Own", (kind,), {})
            for name in makers(kind):
                tried.add(name)
                with self.subTest(kind, name=name):
                    self.assertIs(own, type(getattr(own, name)(TAKEN[name](one))))
        self.assertEqual({*TAKEN}, tried)

    def test_an_enqueue_takes_the_first_64_bytes_of_any_number(self):
        for count in (63, 64, 65, 1 << 16, (1 << 24) + 1):
            port, console, data = Serial(), Console(polled=True), bytes(range(63)) + bytes(count - 63)
            self.assertEqual([min(count, 64)] * 2, [port.enqueue(data).accepted, console.receive(data).accepted])
            self.assertEqual([data[:64]] * 2, [port.state.in_buffer, console.state.port.in_buffer])


def wrong_values(kind):
    """Values that a field of this kind cannot have."""
    is_signed, bits = kind(-1).value < 0, 8 * ctypes.sizeof(kind)
    most = 1 << bits - is_signed
    return [most, -most - 1 if is_signed else -1, 1 << 64, 0.5, "1", None, b"1", [1]]


class EveryState(unittest.TestCase):
    def drawn(self, seed):
        source = Drawn(seed)
        for kind, state in STATES.items():
            for _ in range(ROUNDS // 20):
                yield kind, source.state(state)

    def test_a_state_goes_there_and_back(self):
        for kind, state in self.drawn("back"):
            device = kind.from_state(state)
            data = device.to_bytes()
            ways = [kind.from_bytes(data), kind.from_bytes(bytearray(data)), copy.copy(device), copy.deepcopy(device),
                    pickle.loads(pickle.dumps(device))]
            self.assertEqual([(state, data)] * 6, [(way.state, way.to_bytes()) for way in (device, *ways)])
            self.assertEqual(state, pickle.loads(pickle.dumps(state)))

    def test_a_state_goes_to_vm_superio_and_back_unless_an_alarm_is_set(self):
        for kind, state in self.drawn("moved"):
            if not isinstance(state, MovableState):   # as of a console, which vm-superio has not
                continue
            new = type(state)()
            known = dataclasses.replace(new, **{name: getattr(state, name) for name in new.to_vm_superio()})
            if known != state:
                self.assertRaises(AlarmIsSetError, state.to_vm_superio)
            named = known.to_vm_superio()
            self.assertEqual(known, type(state).from_vm_superio(json.loads(json.dumps(named))))
            for name in named:
                less = {other: value for other, value in named.items() if other != name}
                self.assertRaises(ValueError, type(state).from_vm_superio, less)
            for further in ("armed", "further", "", 5):
                self.assertRaises(ValueError, type(state).from_vm_superio, {**named, further: 0})

    def test_a_field_that_is_wrong_is_refused(self):
        for kind, state in ((Serial, SerialState()), (Rtc, RtcState())):
            for name, of_c in type(state).kinds().items():
                for value in wrong_values(of_c) if name != "armed" else ():
                    for make in (lambda: dataclasses.replace(state, **{name: value}),
                                 lambda: type(state).from_vm_superio({**state.to_vm_superio(), name: value})):
                        with self.subTest(name, value=value), self.assertRaises((TypeError, ValueError)):
                            make()
            self.assertRaises(TypeError, type(state), further=0)

    def test_a_field_of_a_console_that_is_wrong_is_refused(self):
        others = (None, 5, "a", [b"a"], SerialState(), RtcState())
        wrong = {"port": (*others[:-2], RtcState(), Serial()), "output": (*others, bytes(4097)),
                 "dropped": wrong_values(ctypes.c_uint64)}
        for name, values in wrong.items():
            for value in values:
                with self.subTest(name, value=value), self.assertRaises((TypeError, ValueError)):
                    ConsoleState(**{name: value})
        for other in others:
            self.assertRaises(TypeError, Console.from_state, other)

    def test_saved_bytes_that_are_damaged_are_refused_or_are_another_state(self):
        for kind in SAVED:
            state = Drawn(1).state(STATES[kind])
            less = {"output": b"abc"} if kind is Console else {}   # else it takes long
            data = kind.from_state(dataclasses.replace(state, **less)).to_bytes()
            flipped = [bytes([*data[:place], data[place] ^ 1 << bit, *data[place + 1:]])
                       for place in range(len(data)) for bit in range(8)]
            lengths = [data[:count] for count in range(len(data))] + [data + bytes(count) for count in (1, 9, 65536)]
            refused = []
            for damaged in flipped + lengths:
                try:
                    self.assertEqual(damaged, kind.from_bytes(damaged).to_bytes())
                except SavedStateError:
                    refused.append(damaged)
            self.assertTrue({*flipped[:64], *lengths} <= {*refused})


class EveryTrace(FolderTest):
    def line(self, source, lines, is_first):
        """A line of a script, or words that mean one."""
        name = source.choice([line for line in lines if is_first or line != MASK])
        if source.random() < 0.4:
            register = source.choice([*SERIAL])
            return source.choice([f"read {register}", f"write {register} {source.randrange(256)}", 'type "hi\\x00"',
                                  "drain", "restore", f"clock read {source.choice([*CLOCK])} +5",
                                  f"clock write {source.choice([*CLOCK])} {source.number(32)}", "alarm +5",
                                  f"i8042 write 4 {source.randrange(250, 256)}", "regs", "why", "diff", "trace on"])
        values = (source.getrandbits(4 * field.digits) if field.digits else source.randbytes(source.randrange(1, 129))
                  for field in LINES[name].fields)
        if name in ("sl", "cl") and source.random() < 0.8:
            values = (source.device(Serial if name == "sl" else Rtc).to_bytes(),)
        values = tuple(value & 7 if name in ("sr", "sw") and place == 0 and source.random() < 0.9 else value
                       for place, value in enumerate(values))
        texts = (value.hex() if isinstance(value, bytes) else f"{value:0{field.digits}x}"
                 for field, value in zip(LINES[name].fields, values))
        return " ".join([name, *texts])

    def session(self, lines):
        """A session after these lines, and its calls. One that is refused makes none."""
        session, calls = Session(io.StringIO(), host_time=lambda: 1_000.0), []
        run = session.board.run
        with mock.patch.object(session.board, "run", lambda command: calls.append(run(command)) or calls[-1]):
            for line in lines:
                try:
                    session.carry_out(line.encode())
                except ValueError:
                    pass
        return session, calls

    def test_a_trace_makes_a_session_again(self):
        for number in range(60):
            source, lines = Drawn(f"trace {number}"), PROGRAM_LINES if number % 2 else LINES
            first, calls = self.session(self.line(source, lines, place == 0) for place in range(40))
            first.carry_out(f"trace '{self.path}'".encode())
            rows = self.path.read_text("ascii").splitlines()
            again, same = self.session(rows)
            self.assertEqual([(call.command, call.reply, call.after) for call in calls],
                             [(call.command, call.reply, call.after) for call in same])
            self.assertEqual(first.board.snapshot(), again.board.snapshot())
            replayed = replay("trace", (f"{row}  {call.reply or '(empty)'}".encode() if call.reply is not None
                                        else row.encode() for row, call in zip(rows, calls)))
            self.assertEqual([False] * len(calls), [step.differs for step in replayed])
            if lines is PROGRAM_LINES:
                first.carry_out(f"script '{self.path}'".encode())
                self.assertEqual(rows, self.path.read_text("ascii").splitlines())
