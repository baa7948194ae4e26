# SPDX-License-Identifier: Apache-2.0 OR BSD-3-Clause
"""Random calls and scripts from a seed, broken lines, damaged saved states, and the fewest of some calls that still
differ. A call is a name of board.Board and its arguments."""
import random
from functools import partial

from board import BYTES, CLOCK, CLOCK_CONTENTS, OFTEN, REGISTERS, SERIAL, WEIGHTS
from common.facts import FIFO_SIZE, saved
from facts import CLOCK_AT, CLOCK_FIELDS
from script import LINES, MASK, PROGRAM_LINES, line_of, script_of, syntax_of
from seeds import random_source

from superio.recording import EMPTY

MOST_CALLS = 36
# What a script shows of its devices at its end, by the program's lines: all that reads show, before and after the
# pending interrupts are asked for again, with the divisor, and then the bytes.
ENDS = [("sent",), ("interrupts",), ("events",), ("capacity",)]
# Of each other device, all that lines without fields show.
OTHERS_SHOWN = [(call,) for name, (call, *kinds) in PROGRAM_LINES.items() if name[0] not in "sc" and not kinds]
CLOCK_SHOWN = [("clock_read", 5, offset) for offset in CLOCK_AT]
SHOWN = [*ENDS, ("serial_read", 3), ("serial_write", 3, 0x03), *(("serial_read", offset) for offset in (1, 4, 5, 6, 7)),
         ("restore",), ("interrupts",), ("serial_read", 2), ("serial_write", 3, 0x83), ("serial_read", 0),
         ("serial_read", 1), ("serial_write", 3, 0x03), ("drain",), ("events",), *CLOCK_SHOWN,
         ("clock_read", 2**32 - 1, 0x18), ("clock_read", 0, 0x00), *OTHERS_SHOWN]
SAVED = [*ENDS, ("save",), ("clock_save",), *OTHERS_SHOWN]


# Numbers and bytes

def byte(source):
    return source.getrandbits(8)   # which takes a fifth of what `randrange` does


def number(source):
    """A number of 32 bits. Those at the ends are common."""
    return source.choice([source.getrandbits(32), source.getrandbits(2), 2**32 - 1 - source.getrandbits(2)])


def moment(source):
    """A moment, which mostly moves a clock about the ends of 32 bits."""
    return source.choice([0, 0, 1, source.getrandbits(32)]) << 32 | number(source)


def data(source):
    return source.randbytes(source.choice([0, 1, 2, 3, 3, source.randrange(80)]))


def mostly_without(source, bits):
    """A byte in which these bits are mostly clear."""
    return byte(source) & ~source.choice([0, bits, bits])


def port_state(source):
    """Any registers, with DLAB and loopback mostly clear, and bytes that are held, which may be too many."""
    registers = bytearray(source.randbytes(REGISTERS))
    registers[4], registers[6] = mostly_without(source, 0x80), mostly_without(source, 0x10)
    return bytes(registers), source.randbytes(source.choice([0, 1, 2, FIFO_SIZE, source.randrange(FIFO_SIZE + 2)]))


def clock_state(source):
    """Any state of a clock, by the formats of its fields."""
    offset = source.choice([number(source) - number(source), source.getrandbits(64) - 2**63,
                            2**63 - 1 - number(source)])
    return {name: {"I": number(source), "q": offset, "b": source.getrandbits(1)}[kind]
            for name, kind in CLOCK_FIELDS.items()}


def saved_port(source):
    return saved(SERIAL, b"".join(port_state(source)))


def saved_clock(source):
    return saved(CLOCK, CLOCK_CONTENTS.pack(*clock_state(source).values()))


def spoilt(source):
    """A saved state, which may have a byte changed, be cut short or longer, or have random or other contents."""
    good, more = source.choice([saved_port, saved_clock])(source), source.randbytes(source.randrange(80))
    place = source.choice([source.getrandbits(3), source.randrange(len(good))])
    changed = good[:place] + source.randbytes(1) + good[place + 1:]
    size = source.choice([REGISTERS, CLOCK_CONTENTS.size, REGISTERS + FIFO_SIZE]) + source.randrange(-1, 2)
    return source.choice([good, changed, changed, good[:place + 1], good + more[:8], good[:8] + more,
                          saved(good[4], bytes(size))])


def every_load(count=20_800):
    """Each of many spoilt states is loaded as a port and as a clock, which are saved after it."""
    source = random_source("loads")
    for state in dict.fromkeys(spoilt(source) for _ in range(count)):
        yield from (("load", state), ("save",), ("clock_load", state), ("clock_save",))


# Calls

PORT_CALLS = [
    (7, lambda source: ("serial_read", source.choice([0, 0, 2, 2, source.randrange(10), byte(source)]))),
    (3, lambda source: ("serial_write", 0, byte(source))),
    (3, lambda source: ("serial_write", 1, source.randrange(4))),
    (3, lambda source: ("serial_write", *source.choice([(3, 0x03), (3, 0x80), (4, 0x08), (4, 0x1B)]))),
    (2, lambda source: ("serial_write", source.randrange(10), byte(source))),
    (3, lambda source: ("enqueue", data(source))),
]
CLOCK_CALLS = [
    (3, lambda source: ("clock_read", moment(source), 0x00)),
    (6, lambda source: ("clock_read", moment(source), clock_offset(source))),
    (8, lambda source: ("clock_write", moment(source), clock_offset(source), number(source))),
]
# By the letter of a device, with which the names of its lines begin. Those of other devices are drawn as board.py says.
OWN_CALLS = {"s": PORT_CALLS, "c": CLOCK_CALLS}
DEVICES = dict.fromkeys(name[0] for name in LINES if name != MASK)
OTHERS = DEVICES.keys() - OWN_CALLS.keys()


def clock_offset(source):
    return source.choice([*CLOCK_AT, 0xFE3, 0x21, source.getrandbits(16)])


def any_call(call, kinds, source):
    """A call with random numbers, of which some are more often than others, and bytes that may be a saved state."""
    makes = {"load": saved_port, "clock_load": saved_clock}.get(call, data)
    return call, *(makes(source) if digits == BYTES else source.choice([*often, source.getrandbits(4 * digits)])
                   for digits, often in zip(kinds, OFTEN[call]))


def table_of(devices, lines):
    """A table of devices' calls: their own, and each other of their lines."""
    table = [row for device in devices for row in OWN_CALLS.get(device, [])]
    own = {make(random.Random(0))[0] for _, make in table}
    return [*table, *((WEIGHTS[call], partial(any_call, call, kinds)) for name, (call, *kinds) in lines.items()
                      if name[0] in devices and call not in own)]


# Those of the port, of the clock and of the other devices.
SCRIPT_CALLS, BOARD_CALLS = ([table_of(devices, lines) for devices in ("s", "c", OTHERS)]
                             for lines in (PROGRAM_LINES, LINES))


def drawn(source, table, count):
    """So many calls of a table, by how often each is made beside the others."""
    return [make(source) for make in source.choices([make for _, make in table], [often for often, _ in table],
                                                    k=count)]


def port_used(source):
    """How a guest and a monitor bring a new port to any state that they can."""
    return [("serial_write", 3, 0x80), ("serial_write", 0, byte(source)), ("serial_write", 1, byte(source)),
            ("serial_write", 3, 0x03), ("serial_write", 7, byte(source)), ("serial_write", 1, byte(source)),
            ("enqueue", data(source)), ("serial_write", 3, mostly_without(source, 0x80)),
            ("serial_write", 4, mostly_without(source, 0x10))]


def clock_used(source):
    return [("clock_write", moment(source), offset, number(source)) for offset in reversed(CLOCK_AT)]


def random_calls(source, is_for_program=False):
    """The calls of a script, half of them under a mask: from new devices on, from devices in any state, or with an
    output that is nearly full, of the port, of the clock or of all devices."""
    port_start = port_used(source) if is_for_program else [("load", saved_port(source))]
    clock_start = clock_used(source) if is_for_program else [("clock_load", saved_clock(source))]
    port, clock, others = SCRIPT_CALLS if is_for_program else BOARD_CALLS
    others_start = drawn(source, others, source.randrange(16))
    full = (("serial_write", 0, value) for value in source.randbytes(255))
    start, table = source.choices(
        [([], port), (port_start, port), (full, port), ([], clock), (clock_start, clock),
         ([*port_start, *clock_start, *others_start], [*port, *clock, *others, *others])], [8, 8, 1, 4, 4, 4])[0]
    mask = source.getrandbits(64) & source.choice([-1, source.getrandbits(64), 0x3F])
    return [*[("refuse", mask)] * source.randrange(2), *start, *drawn(source, table, source.randint(1, MOST_CALLS))]


def random_script(source, is_for_program=False):
    """Random calls as a script, with a character for each byte. One of eight is cut short, or has a byte changed, taken
    out or put in."""
    script = script_of([*random_calls(source, is_for_program), *(SHOWN if is_for_program else SAVED)])
    if source.randrange(8):
        return script
    place, other = source.randrange(len(script)), chr(source.choice([byte(source), *b" \n\r0f\xFF"]))
    before, after = script[:place], script[place + source.randrange(2):]
    return source.choice([before, before + other + after, before + after])


def broken_lines():
    """A line of each syntax up to each character, and with each lost, doubled or changed. Some are good after all."""
    for name in LINES:
        line = syntax_of(name).replace("..", "HH").replace("H", "0")
        for place, good in enumerate(f"{line} "):
            others = ("", 2 * good, good.upper(), *"g \t\r\0\xFF")
            yield from (line[:place], *(line[:place] + other + line[place + 1:] for other in others))


# The fewest calls

def fewest(calls, differs):
    """As few of these calls as still differ: parts are left out, half of them first, and then the numbers and bytes of
    calls get smaller. Of lines of text, only the first."""
    size = len(calls)
    while size:
        for place in range(len(calls), -1, -1):
            shorter = calls[:place] + calls[place + size:]
            if len(shorter) < len(calls) and differs(shorter):
                calls = shorter
        size //= 2
    for place, call in enumerate(calls):
        for which, value in enumerate(call[1:] if isinstance(call, tuple) else (), 1):
            for smaller in smaller_values(value):
                other = [*calls[:place], (*call[:which], smaller, *call[which + 1:]), *calls[place + 1:]]
                if differs(other):
                    call, calls = other[place], other
                    break
    return calls


def smaller_values(value):
    """Smaller numbers than one, or fewer and plainer bytes, the smallest first."""
    if isinstance(value, int):
        smaller = (0, 1, 2, *(value & (1 << bits) - 1 for bits in range(2, 64)), value - 1)
        return [candidate for candidate in smaller if 0 <= candidate < value]
    return [bytes(size) for size in range(len(value) + 1) if bytes(size) != value]


def shown(calls, got, expected):
    """Calls as a script beside what a side replied, and what the model did. Equal rows stand once."""
    rows, got, expected = [], iter(got), iter(expected)
    for call in calls:
        has_reply = call[0] != "refuse"
        have, want = (next(replies, "no reply") if has_reply else "" for replies in (got, expected))
        have, want = (reply or EMPTY * has_reply for reply in (have, want))
        row = f"{line_of(*call):39}  {have}" + (f"   the model: {want}" if have != want else "")
        if rows and rows[-1][0] == row:
            rows[-1][1] += 1
        else:
            rows.append([row, 1])
    return "\n".join(row + f"   {times} times" * (times > 1) for row, times in rows)
