# SPDX-License-Identifier: Apache-2.0 OR BSD-3-Clause
"""What holds of every C function by its row of superio.abi, whatever the function is for.

A call writes where its parameters allow and nowhere else, reads nothing else, leaves what earlier calls gave, and keeps
no state.
"""
import ctypes
import mmap
import re
from pathlib import Path

import pytest
from abi import CONSTANTS, FUNCTIONS, STRUCTS, TYPES, Parameter
from board import fault
from common.facts import KINDS
from console import console_fault
from generators.header import read_header
from generators.libraries import SHARED
from harness import ROOT, at_least, check
from random_calls import Place, call, places, random_calls, random_device, value_of
from seeds import random_source

ROUNDS = 400    # calls of each function
# How many bytes the saved states of each device have at most.
SAVED = {function.name[len("superio_"):-len("_save")]: function.parameters[1].number for function in FUNCTIONS
         if function.name.endswith("_save")}
HEADER = 8      # the bytes of a saved state before its fields
FLAGS = ("armed", "is_polled", "is_ready", "is_asleep", "is_refused")


def writable_pieces(path):
    """Where a loaded library has memory that can be written: the start and the size of each piece. The one in
    `prebuilt` has none."""
    rows = re.findall(rf"^(\w+)-(\w+) rw\S* .* {re.escape(path)}$", Path("/proc/self/maps").read_text("utf-8"), re.M)
    return [(int(start, 16), int(end, 16) - int(start, 16)) for start, end in rows]


@pytest.fixture(scope="module", params=["prebuilt", pytest.param("source", marks=pytest.mark.needs("cargo"))])
def library(request):
    return request.getfixturevalue(f"{request.param}_library")


@pytest.fixture(scope="module")
def made(library):
    """Calls of all functions in turn, with their arguments, results, what they left, and whether the library's own
    memory is as it was."""
    calls, pieces = [], writable_pieces(library._name)
    own_memory = [ctypes.string_at(*piece) for piece in pieces]
    for row in random_calls(library, random_source("abi"), ROUNDS):
        before, own_memory = own_memory, [ctypes.string_at(*piece) for piece in pieces]
        calls.append((*row, before == own_memory))
    return calls


def failures(calls, is_good):
    """The functions of which a call is bad."""
    return {function.name for function, *rest in calls if not is_good(function, *rest)}


def of_header(kind, length):
    """A parameter as the header declares it. How many bytes a pointer leads to, the next parameter says."""
    name = kind.removeprefix("const ").removesuffix(" *")
    number = CONSTANTS[length] if length else None if kind.endswith("uint8_t *") else 1
    return Parameter({**TYPES, **STRUCTS}[name], kind.endswith("*") or bool(length), kind.startswith("const "), number)


def test_parameters():
    """What the calls are made of is what the header declares: behind which pointer how much is, and what may change."""
    header = {name: [of_header(kind, length) for kind, _, length in function.parameters]
              for name, function in read_header().functions.items()}
    assert {function.name: function.parameters for function in FUNCTIONS} == header
    constant = [parameter.is_const for parameters in header.values() for parameter in parameters if parameter.is_pointer]
    assert constant.count(True) >= 10 and constant.count(False) >= 20


@pytest.mark.needs("cc")
def test_name(library):
    """The name under which a program looks for the library ends with the number of its binary interface."""
    names = re.findall(r"\(SONAME\) +Library soname: \[(.*)\]", check(["readelf", "--dynamic", library._name]))
    assert names == [SHARED] == [f"libsuperio.so.{library.superio_abi()}"]


def test_guards(made):
    """Nothing beside what a pointer leads to is written."""
    assert not failures(made, lambda _, arguments, *rest: all(place.is_guarded() for place in places(arguments)))


def test_const(made):
    """What a pointer to const leads to is the same afterwards."""
    assert not failures(made, lambda function, arguments, *rest: all(
        place.content() == place.content_before()
        for place, parameter in zip(arguments, function.parameters) if parameter.is_const))


def test_counts(made):
    """A result that counts the bytes of an array: behind them it is as it was."""
    counted = [row for row in made if row[0].result is ctypes.c_size_t
               and any(parameter.is_pointer and not parameter.is_const for parameter in row[0].parameters)]
    assert counted
    assert not failures(counted, lambda function, arguments, result, left, _:
                        left[-1][result:] == places(arguments)[-1].content_before()[result:])


def test_earlier_results(made):
    """What a call left is the same after all later calls."""
    assert not failures(made, lambda _, arguments, __, left, ___:
                        left == [place.content() for place in places(arguments)])


def test_no_state(made):
    """No call changes memory of the library."""
    assert not failures(made, lambda *row: row[-1])


def fields_left(function, left):
    """What a call left behind each pointer, as values. The bytes between the fields of a struct are nobody's."""
    kinds = [parameter.kind for parameter in function.parameters if parameter.is_pointer]
    return [value_of(kind.from_buffer_copy(content)) if issubclass(kind, ctypes.Structure) else content
            for kind, content in zip(kinds, left)]


def test_same_again(library, made):
    """A call that is made again, between other guards and in the other order, does the same: it reads nothing but what
    it is passed, and devices that take turns do what each does alone."""
    source, different = random_source("again"), set()
    for function, arguments, result, left, _ in reversed(made):
        again = [Place(source, argument.content_before()) if isinstance(argument, Place) else argument
                 for argument in arguments]
        result_again, left_again = call(library, function, again)
        # Bytes that are equal have equal fields.
        is_left = left_again == left or fields_left(function, left_again) == fields_left(function, left)
        if result_again != result or not is_left:
            different.add(function.name)
    assert not different


def level(library, console):
    """Of the port's interrupt line, of a console by its bytes."""
    port = STRUCTS["superio_console"].from_buffer_copy(console).port
    return library.superio_serial_interrupt_line(ctypes.byref(port))


def test_levels(library, made):
    """As superio.h says of a line: the work of a call has the level that the port has then. A call without work leaves
    the level, except for a load, and for a new console, whose line is down."""
    kind, levels = STRUCTS["superio_console_work"], set()
    for function, arguments, result, left, _ in made:
        if not function.name.startswith("superio_console_"):
            continue
        fields = getattr(function.result, "_fields_", ())
        work = result if function.result is kind else result[-1] if (fields or [("", None)])[-1][1] is kind else None
        before, after = level(library, places(arguments)[0].content_before()), level(library, left[0])
        if work is None and not function.name.endswith(("_new", "_load")):
            assert after == before, function.name
        elif work is not None:
            assert after == work[1], function.name
        if function.name.endswith("_new"):
            assert not after
        levels.add((function.name, after))
    assert len(levels) > 25


def test_a_read_of_nothing(library):
    """As superio.h says: RBR shows 0 while no byte is held, and the read reports both events."""
    port = library.superio_serial_new()
    assert value_of(library.superio_serial_read(ctypes.byref(port), 0)) == [0, True, True]


@pytest.mark.needs("cc")
def test_no_writable_section(library):
    """The library has no section that can be written, except what the linker's own files add to a shared one."""
    read = check(["readelf", "--wide", "--section-headers", library._name])
    rows = re.findall(r"^ *\[ *\d+\] (\.\S+) +\S+ +\w+ +\w+ +(\w+) +\w+ +\w*W\w* ", read, re.M)
    assert not [(name, size) for name, size in rows
                if re.match(r"\.(data|bss|tdata|tbss)\b(?!\.rel\.ro)", name) and int(size, 16) > 8]


@pytest.mark.needs("cc")
def test_threads(library, tmp_path):
    """Two threads whose calls overlap in time do what each does alone."""
    program = tmp_path / "threads"
    (tmp_path / SHARED).symlink_to(library._name)
    check(["cc", "-std=c11", "-O2", "-Wall", "-Wextra", "-Werror", "-I", ROOT / "bindings/c",
           Path(__file__).with_name("threads.c"), tmp_path / SHARED, f"-Wl,-rpath,{tmp_path}", "-pthread",
           "-o", program])
    check([program], "both threads did what each did alone\n")


def test_long_input(library):
    """An enqueue takes the first 64 bytes of any number of bytes, even if the number has more than 32 bits."""
    zeros = mmap.mmap(-1, 2 ** 32 + 2)  # pages that nobody reads take no memory
    zeros[:80] = bytes(range(80))
    start = ctypes.addressof((ctypes.c_uint8 * 80).from_buffer(zeros))
    for power in range(6, 33):
        for count in (2 ** power - 1, 2 ** power, 2 ** power + 1):
            port = library.superio_serial_new()
            done = library.superio_serial_enqueue(ctypes.byref(port), start, count)
            fits = min(count, 64)
            assert (done.accepted, port.len, bytes(port.bytes[:fits])) == (fits, fits, bytes(range(fits))), count


def test_long_input_of_a_console(library):
    """A console takes 64 bytes at most, of any number."""
    zeros = mmap.mmap(-1, 2 ** 32 + 2)
    start = ctypes.addressof((ctypes.c_uint8 * 80).from_buffer(zeros))
    console = ctypes.byref(STRUCTS["superio_console"]())
    for count in (65, 2 ** 32 - 1, 2 ** 32, 2 ** 32 + 1):
        library.superio_console_new(console, True)
        assert library.superio_console_receive(console, start, count).accepted == 64
        assert library.superio_console_receive(console, start, count).accepted == 0


def saved(library, kind, device):
    """The saved state of a struct."""
    room = ctypes.create_string_buffer(SAVED[kind])
    count = getattr(library, f"superio_{kind}_save")(ctypes.byref(device), room)
    return room.raw[:SAVED[kind] if count is None else count]


def loaded(library, kind, data):
    """What a load of bytes returns, and the struct, whose bytes were 0xA5 before."""
    struct = STRUCTS[f"superio_{kind}"]
    device = struct.from_buffer_copy(bytes([0xA5]) * ctypes.sizeof(struct))
    return getattr(library, f"superio_{kind}_load")(ctypes.byref(device), data, len(data)), device


def test_kinds(library):
    """The saved states of each kind of device have its number."""
    numbers = {kind: saved(library, kind, STRUCTS[f"superio_{kind}"]())[4] for kind in SAVED}
    assert sorted(numbers.values()) == [*KINDS.values()]
    known = {"serial": KINDS["serial port"], "rtc": KINDS["clock"], "console": KINDS["console"]}
    assert known.items() <= numbers.items()


@pytest.mark.parametrize("kind", at_least(3, SAVED))
def test_there_and_back(library, kind):
    """A state that was loaded has the fields of the saved one, and the same saved state."""
    source, struct = random_source(kind), STRUCTS[f"superio_{kind}"]
    for _ in range(ROUNDS):
        device = struct.from_buffer_copy(random_device(source, struct))
        data = saved(library, kind, device)
        status, other = loaded(library, kind, data)
        assert (status, saved(library, kind, other)) == (0, data)
        assert kept(other) == kept(device)


def in_ring(ring, head, count):
    """The bytes of a ring, the oldest first."""
    start = head % len(ring)
    return (ring[start:] + ring[:start])[:count]


def kept(device):
    """What a saved state keeps of a struct."""
    fields = {name: value_of(getattr(device, name)) for name, _ in device._fields_}
    fields.update({name: bool(fields[name]) for name in FLAGS if name in fields})
    if "port" in fields:
        ring = in_ring(*(fields.pop(f"output_{name}") for name in ("bytes", "head", "len")))
        return {**fields, "port": kept(device.port), "output": ring}
    if "bytes" in fields:
        return {**fields, "bytes": in_ring(device.bytes, device.head, device.len), "head": 0, "len": 0}
    return fields


def status_of(kind, data):
    """What a load of bytes as a kind of device returns, by the first check of docs/SAVED-STATES.md that they fail."""
    words = console_fault(data) if kind == KINDS["console"] else fault(kind, data)
    words = re.sub("(version) ..", r"\1", words)   # without the version
    return CONSTANTS[f"SUPERIO_LOAD_{words.upper().replace(' ', '_')}"]


@pytest.mark.parametrize("kind", SAVED)
def test_damaged(library, kind):
    """Saved bytes that are cut, longer, changed in a bit or of another length load as the state whose saved bytes they
    are, or leave the struct as it was and say which check they fail."""
    source, struct = random_source(kind), STRUCTS[f"superio_{kind}"]
    for _ in range(8):
        device = struct.from_buffer_copy(random_device(source, struct))
        if kind == "console":
            device.output_len %= 21   # with more it takes long, and finds no more
        data = saved(library, kind, device)
        flipped = [bytes([*data[:place], data[place] ^ 1 << bit, *data[place + 1:]])
                   for place in range(len(data)) for bit in range(8)]
        other_lengths = [data[:count] for count in range(len(data))] + [data + bytes(count) for count in (1, 9, 65536)]
        with_length = [data[:6] + count.to_bytes(2, "little") + bytes(count) for count in (0, 8, 9, 25, 73, 74, 65535)]
        for damaged in flipped + other_lengths + with_length:
            status, device = loaded(library, kind, damaged)
            assert status == status_of(data[4], damaged)
            if status == 0:
                assert saved(library, kind, device) == damaged
            else:
                assert bytes(device) == bytes([0xA5]) * ctypes.sizeof(struct)
        refused = sum(loaded(library, kind, changed)[0] != 0 for changed in flipped[:8 * HEADER] + other_lengths)
        assert refused == 8 * HEADER + len(other_lengths)
