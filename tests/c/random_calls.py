# SPDX-License-Identifier: Apache-2.0 OR BSD-3-Clause
"""Random calls of each C function by its row of superio.abi, through ctypes. The devices have any bytes in them: most
are none that a guest leads to."""
import ctypes

from abi import FUNCTIONS

GUARD = 64      # bytes before and behind what a pointer leads to


class Place:
    """Memory that a pointer leads to, between guards."""

    def __init__(self, source, content):
        self.before = source.randbytes(GUARD) + content + source.randbytes(GUARD)
        self.memory = ctypes.create_string_buffer(self.before, len(self.before))
        self.pointer = ctypes.addressof(self.memory) + GUARD

    def content(self):
        return self.memory.raw[GUARD:-GUARD]

    def content_before(self):
        return self.before[GUARD:-GUARD]

    def is_guarded(self):
        now = self.memory.raw
        return now[:GUARD] == self.before[:GUARD] and now[-GUARD:] == self.before[-GUARD:]


def random_device(source, kind):
    """A struct of any bytes. Half of the ports hold no more bytes than they may, and in half of the consoles no more
    bytes of output wait than may."""
    device = kind.from_buffer_copy(source.randbytes(ctypes.sizeof(kind)))
    port = getattr(device, "port", device)
    if hasattr(port, "len") and source.random() < 0.5:
        port.len %= 65
    if hasattr(device, "output_len") and source.random() < 0.5:
        device.output_len %= 4097
    return bytes(device)


def random_number(source, kind):
    """A small number, any, or one at an edge of what the type has."""
    most = 2 ** (8 * ctypes.sizeof(kind)) - 1
    half = most // 2
    return source.choice([source.randrange(10), source.randint(0, most),
                          source.choice([0, half, half + 1, most - 1, most])])


def arguments_of(source, function, states):
    """Arguments for a call: the places of pointers, and numbers. Every other list of bytes is a saved state."""
    arguments, count = [], None
    for parameter in function.parameters:
        if parameter.is_pointer and parameter.number is None:
            content = source.choice([source.randbytes(source.randrange(100)), source.choice(states[-4:])])
            count = len(content)
            arguments.append(Place(source, content))
        elif parameter.is_pointer and parameter.kind is ctypes.c_uint8:
            arguments.append(Place(source, source.randbytes(parameter.number)))
        elif parameter.is_pointer:
            arguments.append(Place(source, random_device(source, parameter.kind)))
        elif count is not None:
            arguments.append(count)
            count = None
        else:
            arguments.append(random_number(source, parameter.kind))
    return arguments


def places(arguments):
    return [argument for argument in arguments if isinstance(argument, Place)]


def value_of(result):
    """A result as a value. The bytes between the fields of a struct are nobody's."""
    if isinstance(result, ctypes.Structure):
        return [value_of(getattr(result, name)) for name, _ in result._fields_]
    return bytes(result) if isinstance(result, ctypes.Array) else result


def call(library, function, arguments):
    """The result of a call, as a value, and what it left behind each pointer."""
    pointers = [argument.pointer if isinstance(argument, Place) else argument for argument in arguments]
    result = getattr(library, function.name)(*pointers)
    return value_of(result), [place.content() for place in places(arguments)]


def random_calls(library, source, rounds):
    """Calls of all functions in turn: each with its arguments, its result and what it left."""
    states = [b""]
    for _ in range(rounds):
        for function in FUNCTIONS:
            arguments = arguments_of(source, function, states)
            result, left = call(library, function, arguments)
            if function.name.endswith("_save"):
                states.append(left[-1][:result])
            yield function, arguments, result, left
