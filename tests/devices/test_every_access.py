# SPDX-License-Identifier: Apache-2.0 OR BSD-3-Clause
"""The program beside the search of the past, over each write of a port, each three calls of a port whose line refuses
any of them, each four accesses of a clock, and each offset of a clock.

A script has one port and one clock, so it has many cases one after another, and lines after a case bring the device back
to what a new one is. The search begins each case with a new device. After those lines, it has to be as new there, too.
"""
import subprocess
from concurrent.futures import ThreadPoolExecutor
from functools import cache
from itertools import product

import oracle
import pytest
from board import Board
from facts import CLOCK_AT, FRESH
from harness import LIMIT
from made import ENDS
from script import line_of, replies_of
from script_tests import Script, joined

pytestmark = pytest.mark.needs("kit")

OFFSETS = {name: offset for offset, name in CLOCK_AT.items()}
PORT_BACK = [("serial_write", 3, 0x80), ("serial_write", 0, FRESH["DLL"]), ("serial_write", 1, FRESH["DLM"]),
             ("serial_write", 3, FRESH["LCR"]), ("serial_write", 4, FRESH["MCR"]), ("serial_write", 1, FRESH["IER"]),
             ("drain",), ("serial_read", 2), ("serial_write", 7, FRESH["SCR"])]
CLOCK_BACK = [("clock_write", 1_006, OFFSETS[name], value) for name, value in
              [("MR", 0), ("CR", 1), ("IMSC", 0), ("ICR", 1)]]
NEW_PORT, NEW_CLOCK = (bytes(FRESH.values()), b""), oracle.Clock().state()
PORT_SHOWN = [("interrupts",), ("capacity",)]   # beside a reply
READS = [("serial_read", offset) for offset in (*range(9), 255)]
CALLS = [("enqueue", b"ab"), ("enqueue", b"x" * 63), ("serial_read", 0), ("serial_read", 2), ("serial_write", 0, 0x41),
         ("serial_write", 1, 0x00), ("serial_write", 1, 0x01), ("serial_write", 1, 0x03), ("serial_write", 3, 0x03),
         ("serial_write", 3, 0x80), ("serial_write", 4, 0x08), ("serial_write", 4, 0x10)]
MOST_REFUSED = 4   # of the first calls of the line
# Accesses of a clock: an offset, and what is written; and when they are made: the host's clock goes on, back, and past
# 32 bits.
ACCESSES = [(0x000,), (0x004, 1_000), (0x004, 1_005), (0x004, 5_003), (0x008, 5_000), (0x008, 0), (0x008, 2**32 - 1),
            (0x00C, 1), (0x00C, 2), (0x010, 2**32 - 1), (0x010, 2**32 - 2), (0x01C, 1), (0x01C, 2**32 - 2), (0x01C,)]
MOMENTS = [1_000, 1_003, 1_001, 4_294_968_301]
CLOCK_READS = [("clock_read", 1_006, offset) for name, offset in OFFSETS.items() if name != "ICR"]
line = cache(line_of)   # the same calls come again and again


class Cases:
    """The cases of a script, with the replies that the search of the past gives."""

    def __init__(self):
        self.board, self.calls, self.replies = Board(oracle), [], []

    def make(self, calls):
        self.calls += calls
        self.replies += replies_of(self.board, calls)

    def port(self, calls, mask=0):
        """Adds calls of a new port whose line refuses the calls of this mask. Returns how often the line was called."""
        before, self.board.port = self.board.count("TR"), oracle.Port(self.board)
        self.board.mask |= mask << before
        self.make([*calls, *PORT_BACK])
        assert (self.board.port.state(), self.board.port.held()) == NEW_PORT
        return self.board.count("TR") - before

    def clock(self, calls):
        """Adds accesses of a new clock."""
        self.board.clock = oracle.Clock()
        self.make([*calls, *CLOCK_BACK])
        assert self.board.clock.state() == NEW_CLOCK

    def script(self, place):
        """The script of the cases, which at its end shows what was sent and told in all of them."""
        self.make(ENDS)
        lines = [line(*call) for call in [("refuse", self.board.mask), *self.calls]]
        return Script(str(place), joined(lines), joined(self.replies))


def differences(program, scripts):
    """What the program does otherwise. It runs the scripts side by side."""
    def difference(script):
        ran = subprocess.run([program], input=script.script, capture_output=True, timeout=LIMIT)
        return script.difference((ran.returncode, ran.stdout, ran.stderr))
    with ThreadPoolExecutor() as pool:
        return [found for found in pool.map(difference, scripts) if found]


def parts(cases, size):
    """The cases, so many in a script."""
    cases = [*cases]
    return [cases[place:place + size] for place in range(0, len(cases), size)]


def writes_at(held, settings, offset):
    """Each value is written at this offset of a port that holds these bytes, under these settings. Then all is read."""
    cases = Cases()
    for value in range(256):
        cases.port([("enqueue", held), *settings, ("interrupts",), ("serial_write", offset, value), *PORT_SHOWN, *READS,
                    *PORT_SHOWN])
    return cases.script(offset)


@pytest.mark.parametrize("held", [b"", b"a"], ids=["no byte", "a byte"])
@pytest.mark.parametrize("lcr, mcr", [(0x03, 0x08), (0x03, 0x10), (0x80, 0x08), (0x80, 0x10)])
def test_each_write_of_a_port(program, held, lcr, mcr):
    """The offsets from 8 on are one to the search, and are written to the program all the same."""
    settings = [("serial_write", 3, lcr), ("serial_write", 4, mcr)]
    *scripts, beyond = [writes_at(held, settings, offset) for offset in range(9)]
    assert beyond.script.count(b"\nsw 08 ") == 256
    for offset in range(8, 256):
        written = beyond.script.replace(b"\nsw 08 ", b"\nsw %02x " % offset)
        scripts.append(beyond._replace(place=str(offset), script=written))
    assert not differences(program, scripts)


def refused(calls):
    """These calls after IER enabled both conditions, over each line that refuses any of its first four calls; and then
    what is read. A mask whose last call is not made does what it does without that call."""
    calls = [("serial_write", 1, 0x03), *calls, ("serial_read", 0), ("serial_read", 2), ("serial_read", 5)]
    cases, made = Cases(), {}
    for mask in range(1 << MOST_REFUSED):
        without_last = mask & ~(1 << mask.bit_length() >> 1)
        if mask and made[without_last] < mask.bit_length():
            made[mask] = made[without_last]
        else:
            made[mask] = cases.port([step for call in calls for step in (call, *PORT_SHOWN)], mask)
    return cases.script(calls)


def test_each_three_calls_of_a_port(program):
    scripts = [refused(calls) for calls in product(CALLS, repeat=3)]
    assert sum(script.script.count(b"\nsw 07 ") for script in scripts) >= 4_950
    assert not differences(program, scripts)


def access(moment, offset, *value):
    return ("clock_write" if value else "clock_read", moment, offset, *value)


def test_each_four_accesses_of_a_clock(program):
    scripts = []
    for part in parts(product(ACCESSES, repeat=4), 140):
        cases = Cases()
        for made in part:
            cases.clock([*(access(moment, *words) for moment, words in zip(MOMENTS, made)), *CLOCK_READS])
        scripts.append(cases.script(part[0]))
    assert not differences(program, scripts)


@pytest.mark.parametrize("value", [(), (2,)], ids=["read", "write"])
def test_each_offset_of_a_clock(program, value):
    scripts = []
    for offsets in parts(range(1 << 16), 1_900):
        cases = Cases()
        for offset in offsets:
            cases.board.clock = oracle.Clock()
            cases.make([access(1_000, offset, *value)])
        scripts.append(cases.script(f"from {offsets[0]:04x} on"))
    assert not differences(program, scripts)
