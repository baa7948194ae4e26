# SPDX-License-Identifier: Apache-2.0 OR BSD-3-Clause
"""The tables of docs/DEVICES.md say what the devices do. Each cell is tried at each of its offsets. It has words that
are known here, and others fail. The numbers of device trees in docs/INTEGRATION.md are those of these tables."""
import re
from dataclasses import replace

import pytest
from documents import Document, table
from harness import at_least
from superio import Rtc, RtcState, Serial, SerialState
from superio.registers import CLOCK_KEPT, DLAB, FIELDS, SERIAL, bits_by_name

PAGE = Document("docs/DEVICES.md").text
# Each register has another value, and the last two bytes are held. Nothing is enabled.
PORT = SerialState(0x11, 0x22, 0x00, 0x01, 0x03, 0x61, 0x0B, 0xB5, 0x77, b"\xa1\xa2")
WRITTEN = 0xFC, 0xA0, 0x00   # which enable neither RDA nor THRE
NUMBERS = "zero one two three four five six seven eight".split()
DLAB_IS = {"clear": [False], "set": [True], "any": [False, True]}
PORT_ROWS = at_least(11, table(PAGE, "Offset | DLAB | Read"))
BIT_ROWS = at_least(6, table(PAGE, "Register | Bits"))
CALLED = {"data ready": "DR", "loopback": "LOOP"}   # bits that the page calls otherwise
NONE_PENDING = 0x01


def offsets_of(cell):
    first, _, last = cell.partition(" to ")
    return range(int(first, 0), int(last or first, 0) + 1)


def places_of(row):
    """The offsets of a row of the port, each with a state of DLAB."""
    return [(offset, is_set) for offset in offsets_of(row[0]) for is_set in DLAB_IS[row[1]]]


def port_with(is_set, state=PORT):
    line_control = state.line_control & ~DLAB | DLAB * is_set
    return Serial.from_state(replace(state, line_control=line_control))


def read_by(words, state):
    """What a read shows, by a cell."""
    if words in ("0", "RBR: the oldest received byte, or 0"):
        return 0 if words == "0" or not state.in_buffer else state.in_buffer[0]
    name, bits = re.fullmatch(r"(\w+)(?:, with (0x\w\w) set)?", words).groups()
    return getattr(state, FIELDS[name]) | int(bits or "0", 0)


def written_by(words, state, value):
    """The state after a write, by a cell, and whether it sends a byte."""
    if words in ("ignored", "THR: a byte to send"):
        return state, words != "ignored"
    name, bits = re.fullmatch(r"(\w+)(?:, low (\w+) bits)?", words).groups()
    return replace(state, **{FIELDS[name]: value & (1 << NUMBERS.index(bits or "eight")) - 1}), False


def test_each_offset_of_the_port_has_a_row():
    assert sorted(place for row in PORT_ROWS for place in places_of(row)) == [
        (offset, is_set) for offset in range(0x100) for is_set in (False, True)]


@pytest.mark.parametrize("row", PORT_ROWS, ids=lambda row: f"{row[0]}, {row[1]}")
def test_access_of_the_port(row):
    _, _, read, write, _ = row
    for offset, is_set in places_of(row):
        for state in (PORT, replace(PORT, in_buffer=b"")):
            port = port_with(is_set, state)
            assert port.read(offset).byte == read_by(read, port_with(is_set, state).state)
        for value in WRITTEN:
            port = port_with(is_set)
            wanted = written_by(write, port.state, value)
            assert (port.write(offset, value).sends, port.state) == (wanted[1], wanted[0])


@pytest.mark.parametrize("row", PORT_ROWS, ids=lambda row: f"{row[0]}, {row[1]}")
def test_new_port(row):
    offset, dlab, read, _, fresh = row
    port = Serial()
    if dlab == "set":
        port.write("LCR", DLAB)
    if fresh in ("", "no byte held"):
        assert (fresh == "") == (read == "0") and not port.state.in_buffer
        return
    kept, shown = re.fullmatch(r"(0x\w\w)(?:, read as (0x\w\w))?", fresh).groups()
    assert getattr(port.state, FIELDS[re.match(r"\w+", read)[0]]) == int(kept, 0)
    assert port.read(int(offset)).byte == int(shown or kept, 0)


@pytest.mark.parametrize("name, words", BIT_ROWS)
def test_bits(name, words):
    """Each number is a bit, and that of the name behind it."""
    bits = bits_by_name(SERIAL[name])
    numbers = {int(digits, 16) for digits in re.findall(r"0x(\w\w)", words)}
    assert numbers <= {*bits.values(), *([NONE_PENDING] if name == "IIR" else [])}
    named = re.findall(r"0x(\w\w) (?:enables )?(data ready|loopback|nothing is pending|[A-Z]+\d?)\b", words)
    for digits, called in at_least(1, named):
        wanted = NONE_PENDING if called == "nothing is pending" else bits[CALLED.get(called, called)]
        assert int(digits, 16) == wanted, called


# ---- The clock

NOW = 1000
CLOCK = RtcState(lr=0x11111111, mr=0x22222222, imsc=0x00000001, ris=0x80000003, offset=0x7000)
GUEST_TIME = NOW + CLOCK.offset
CLOCK_ROWS = at_least(10, table(PAGE, "Offset | Register | A read shows"))
FOUND = re.search(r"The identification bytes are ((?:0x\w\w ?)+), each at four offsets: (0x\w+ to 0x\w+) show the "
                  r"first and (0x\w+ to 0x\w+) the last\.", PAGE)
IDENTIFICATION = [int(digits, 0) for digits in FOUND[1].split()]
IDENTIFIES = "one byte, then three zero bytes"
# What an access does, by the words of a cell. One that is invalid gives nothing, and changes nothing.
READS = {
    "is invalid": lambda state: None,
    "guest time": lambda state: GUEST_TIME,
    "1": lambda state: 1,
    "`ris & imsc`": lambda state: state.ris & state.imsc,
    **{f"`{name}`": lambda state, name=name: getattr(state, name) for name in map(str.lower, CLOCK_KEPT)},
}
WRITES = {
    "is invalid": lambda state, value: None,
    "stores v in `mr`, and sets [the alarm](#the-alarm)": lambda state, value: replace(
        state, mr=value, armed=value > GUEST_TIME, ris=state.ris | (value == GUEST_TIME)),
    "stores v in `lr`, and sets `offset` to v less the host's time, so that guest time is v":
        lambda state, value: replace(state, lr=value, offset=value - NOW),
    "sets `lr` and `offset` to 0 if v is 1, and otherwise changes nothing":
        lambda state, value: replace(state, lr=0, offset=0) if value == 1 else state,
    "stores bit 0 of v in `imsc`": lambda state, value: replace(state, imsc=value & 1),
    "clears in `ris` the bits that v has": lambda state, value: replace(state, ris=state.ris & ~value),
    **{stored[0]: lambda state, value, name=stored[1]: replace(state, **{name: value})
       for *_, write in CLOCK_ROWS if (stored := re.fullmatch(r"stores v in `(\w+)`", write))},
}


def offsets_of_clock(row):
    if row[0] != "every other":
        return offsets_of(row[0])
    listed = {offset for other in CLOCK_ROWS if other[0] != "every other" for offset in offsets_of(other[0])}
    return sorted({*range(0x10000)} - listed)


@pytest.mark.parametrize("row", CLOCK_ROWS, ids=lambda row: row[0])
def test_access_of_the_clock(row):
    _, _, read, write = row
    offsets = offsets_of_clock(row)
    values = (1, 0, 2, GUEST_TIME - 1, GUEST_TIME, GUEST_TIME + 1, 2**32 - 1)[:None if len(offsets) < 100 else 1]
    for number, offset in enumerate(offsets):
        wanted = IDENTIFICATION[number // 4] if read == IDENTIFIES else READS[read](CLOCK)
        assert Rtc.from_state(CLOCK).read(offset, NOW) == (wanted or 0, wanted is None), hex(offset)
        for value in values:
            clock = Rtc.from_state(CLOCK)
            wanted = WRITES[write](CLOCK, value)
            assert (clock.write(offset, value, NOW).invalid_write, clock.state) == (wanted is None, wanted or CLOCK)


def test_each_known_word_is_there():
    """No row is passed over."""
    assert {row[2] for row in CLOCK_ROWS} == {*READS, IDENTIFIES} and {row[3] for row in CLOCK_ROWS} == {*WRITES}


@pytest.mark.parametrize("offsets, wanted", [(FOUND[2], IDENTIFICATION[0]), (FOUND[3], IDENTIFICATION[-1])])
def test_identification(offsets, wanted):
    offsets = offsets_of(offsets)
    assert len(offsets) == 4 and {Rtc().read(offset, NOW).value for offset in offsets} == {wanted}
    assert {Rtc().read(offset, NOW).value == wanted for offset in (offsets[0] - 1, offsets[-1] + 1)} == {False}


# ---- Device trees

TREE = {row[0]: row[1:]
        for row in at_least(5, table(Document("docs/INTEGRATION.md").text, "Property | The serial port"))}
REGISTERS = 1 + max(int(row[0]) for row in PORT_ROWS if row[0].isdigit())


def test_sizes_in_a_device_tree():
    """A port has all its registers at each stride, and a clock its identification, with which it ends."""
    port, clock = TREE["`reg`"]
    sizes = re.findall(r"(\d+)(?: bytes)? at a stride of (\d+)", port)
    assert [(int(size), int(stride)) for size, stride in sizes] == [(REGISTERS * stride, stride) for stride in (1, 4)]
    assert int(re.search(r"([\d,]+) bytes", clock)[1].replace(",", "")) == offsets_of(FOUND[3])[-1] + 1


def test_strides_in_a_device_tree():
    """A register's offset is shifted to its place, and an access has its bytes."""
    port, _ = TREE["`reg-shift`, `reg-io-width`"]
    [(bits, stride)] = re.findall(r"For (\d+)-bit accesses at a stride of (\d+)", port)
    shift, width = re.findall(r"`reg-(?:shift|io-width) = <(\d+)>`", port)
    assert (1 << int(shift), int(width) * 8) == (int(stride), int(bits))
