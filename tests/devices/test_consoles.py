# SPDX-License-Identifier: Apache-2.0 OR BSD-3-Clause
"""The Python package's console, over both C libraries: the calls of tests/c/console.txt, worked out by hand, and random
ones, whose replies console.py has."""
import re

import pytest
from console import OUTPUT_SIZE, PORT_SIZE, REGISTERS, in_ring, random_runs
from harness import ROOT, at_least
from seeds import seeds

from superio import Console, ConsoleState, SavedStateError, SerialState
from superio.library import VARIABLE, open_library

RUNS = 300
BY_HAND = at_least(200, [row for row in (ROOT / "tests" / "c" / "console.txt").read_text("ascii").splitlines()
                         if " = " in row and row[0] != "#"])


class Made:
    """Makes calls of a console, which have the names of lines."""

    def make(self, call):
        """What stands after ` = `. A refused interrupt is told."""
        name, *fields = call.split(" ")
        refused = [field for field in fields if field in ("1", "2")]
        made = getattr(self, name)(*(field for field in fields if field not in refused))
        reply, work = made if isinstance(made, tuple) else (made, None)
        if work is None:
            return reply
        taken = next((place for place in range(work.interrupts) if str(place + 1) in refused), work.interrupts)
        wakes = work.wakes
        if taken < work.interrupts:
            wakes |= self.console.refuse().wakes
        return " ".join([reply, *["T"] * taken, *["R"] * (taken < work.interrupts), *["up"] * work.is_up,
                         *["wake"] * wakes])

    def ln(self, *polled):
        self.console = Console(polled=bool(polled))
        return "ok"

    def lr(self, offset):
        byte, work = self.console.read(int(offset, 16))
        return f"{byte:02x}", work

    def lw(self, offset, value):
        return "ok", self.console.write(int(offset, 16), int(value, 16))

    def la(self):
        wants = self.console.wants()
        return " ".join([f"{wants.input:02x}", *["output"] * wants.output, *["turn"] * wants.turn])

    def lq(self, data):
        accepted, work = self.console.receive(bytes.fromhex(data.strip("-")))
        return f"{accepted:02x}", work

    def lo(self, count):
        """All that waits, and not only what lies together."""
        return self.console.output()[:int(count, 16)].hex() or "-"

    def lc(self, count):
        self.console.consume(int(count, 16))
        return "ok"

    def li(self):
        return f"{self.console.is_full():02x} {self.console.dropped():x}"

    def lt(self):
        return "ok", self.console.turn()

    def lf(self):
        return "ok", self.console.refuse()

    def lz(self):
        return "ok", self.console.reset()

    def ls(self):
        self.console.suspend()
        return "ok"

    def lp(self, polled):
        return "ok", self.console.set_polled(polled != "00")

    def lb(self):
        data, output = self.console.to_bytes(), self.console.output()
        assert data[19:19 + int.from_bytes(data[17:19], "little")] == output
        return data.hex()

    def ll(self, data):
        try:
            self.console = Console.from_bytes(bytes.fromhex(data.strip("-")))
        except SavedStateError as error:
            return error.reason
        return "ok"

    def lx(self, port, head, count, output, dropped, flags):
        """Rings begin at their first places: no state says where they do."""
        struct, ring = bytes.fromhex(port).ljust(PORT_SIZE, b"\0"), bytes.fromhex(output).ljust(OUTPUT_SIZE, b"\0")
        held = in_ring(struct[REGISTERS + 2:], *struct[REGISTERS:REGISTERS + 2])
        self.console = Console.from_state(ConsoleState(
            SerialState(*struct[:REGISTERS], in_buffer=held), in_ring(ring, int(head, 16), int(count, 16)),
            int(dropped, 16), *map(bool, bytes.fromhex(flags))))
        return ""


def is_same(call, expected, got):
    """Whether a reply is what it should be: nothing is shown of a struct, and all output rather than a part."""
    if call[:2] == "lx":
        return True
    return got.startswith(expected) and (expected != "-" or got == "-") if call[:2] == "lo" else got == expected


def differences(rows):
    made = Made()
    made.ln()
    for call, expected in (row.split(" = ") for row in rows):
        got = made.make(call)
        if not is_same(call, expected, got):
            yield f"{call} = {expected}\ngot: {got}"


@pytest.fixture(scope="module")
def random_rows():
    return random_runs(seeds("consoles", RUNS)).splitlines()


@pytest.fixture(params=["prebuilt", pytest.param("source", marks=pytest.mark.needs("cargo", "cc"))])
def over_library(request, monkeypatch):
    monkeypatch.setenv(VARIABLE, request.getfixturevalue(f"{request.param}_library")._name)
    opened = open_library()
    monkeypatch.setattr("superio.saved.load", lambda: opened)


def test_calls_by_hand(over_library):
    assert not [*differences(BY_HAND)][:3]


def test_random_calls(over_library, random_rows):
    assert not [*differences(random_rows)][:3]


def test_each_call_is_made(random_rows):
    assert {row[:2] for row in random_rows} == {name for name in vars(Made) if len(name) == 2}


def end_of(row):
    """The name of a call, and why bytes don't load, or what is told of interrupts, of the loop and of dropped bytes."""
    name, did = row[:2], row.partition(" = ")[2]
    told = " ".join(re.findall("[TR]|up|wake|output|turn|f{16}", did))
    return name, did if name == "ll" else "" if name in ("lb", "lo", "lx") else told


def test_each_end_is_made():
    """Random calls end in each way in which the calls by hand do."""
    made = random_runs(map(str, range(4000))).splitlines()   # the same in each run: the rarest comes in one of 700
    assert {*map(end_of, BY_HAND)} <= {*map(end_of, made)}
