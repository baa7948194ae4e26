# SPDX-License-Identifier: Apache-2.0 OR BSD-3-Clause
"""The encoding and the errors of interface.toml are those of the definitions of which the proofs speak. The numbers of
docs/SAVED-STATES.md are those of what devices save: how long it is, where each field is, and which flags and errors
there are. Each number of a table is read here, so that another one there fails."""
import itertools
import re
from dataclasses import fields, replace

import pytest
from common.facts import (BYTES, CLOCK, CONSOLE, ENCODING, ERRORS, FIFO_SIZE, HEADER_SIZE, KINDS, MAGIC, OUTPUT_SIZE,
                          PORT_FIELDS, SERIAL, told, word_of)
from documents import Document
from harness import ROOT, at_least
from superio import Console, ConsoleState, Rtc, RtcState, SavedStateError, Serial, SerialState
from superio.saved import SAVED_STATE_ERRORS

PAGE = Document("docs/SAVED-STATES.md").text
FULL_PORT = SerialState(in_buffer=b"x" * FIFO_SIZE)
# The least and the most that a device saves.
STATES = {
    "A serial port": (Serial(), Serial.from_state(FULL_PORT)),
    "A clock": (Rtc(), Rtc()),
    "A console": (Console(), Console.from_state(ConsoleState(port=FULL_PORT, output=b"y" * OUTPUT_SIZE))),
}
SHOWN = re.findall(r"^\| `(\w+)` \| (\d+) \| `([a-z ]+)` \|", PAGE, re.M)


CRATES = ROOT / "crates"
CORE, CONSOLE_CRATE = CRATES / "superio_core", CRATES / "superio_console"


def words(path):
    """The words of a file of a crate."""
    return " ".join(path.read_text(encoding="utf-8").split())


SPECS, DECLARED = words(CORE / "specs/Saved.antt"), (CORE / "src/saved.rt").read_text(encoding="utf-8")


def definition(name, text=SPECS):
    """What stands behind the sign of a definition, up to the next one."""
    return re.search(rf"\b{name}(?: \w+)* = (.*?)(?: -- | abbrev | pub record |$)", text)[1]


def section(title):
    """The text below a heading."""
    return re.search(rf"^## {title}\n(.*?)(?=^## |\Z)", PAGE, re.M | re.S)[1]


def rows(title):
    """Of each row of the first table: its place, the least and the most of its size, and the words."""
    table = re.findall(r"^\| ([^|]*) \| (\d[\d,]*)(?: to (\d[\d,]*))? \| (.*) \|$", section(title), re.M)
    return [(place, number(least), number(most or least), words) for place, least, most, words in table]


def number(text):
    return int(text.replace(",", ""))


@pytest.mark.parametrize("title", STATES)
def test_sizes(title):
    """In the sentence above the table, and by the sizes in it."""
    sizes = [len(device.to_bytes()) for device in STATES[title]]
    sentence = r"^The encoding has ([\d,]+)(?: to ([\d,]+))? bytes\. The length in the header is (\d+)\b"
    least, most, length = re.search(sentence, section(title), re.M).groups()
    assert [number(least), number(most or least)] == sizes and number(length) == sizes[0] - HEADER_SIZE
    table = rows(title)
    assert [HEADER_SIZE + sum(row[which] for row in table) for which in (1, 2)] == sizes


@pytest.mark.parametrize("title", ["The header", *STATES])
def test_places(title):
    """A field begins where the one before ends."""
    end = 0 if title == "The header" else HEADER_SIZE
    for place, least, most, _ in rows(title):
        assert place == (f"{end}" if end is not None else "after the output")
        end = end + least if end is not None and least == most else None


@pytest.mark.parametrize("title, kind, state", [("A serial port", Serial, SerialState()), ("A clock", Rtc, RtcState())])
def test_fields(title, kind, state):
    """Another value of a field changes what is saved where the page says, and nowhere else. The version is 1."""
    before = kind.from_state(state).to_bytes()
    named = {re.search(r"`(\w+)`", words)[1]: int(place) for place, _, _, words in rows(title)}
    assert {*named} == {field.name for field in fields(state)}
    for name in named.keys() - {"in_buffer"}:
        value = getattr(state, name)
        other = replace(state, **{name: not value if isinstance(value, bool) else value ^ 0x41})
        after = kind.from_state(other).to_bytes()
        changed = [place for place, (one, another) in enumerate(zip(before, after)) if one != another]
        assert changed == [named[name]], name


@pytest.mark.parametrize("kind, title", enumerate(STATES, 1))
def test_header(kind, title):
    saved, head = STATES[title][0].to_bytes(), section("The header")
    assert saved[:4] == bytes(int(one, 16) for one in re.findall(r"0x(\w\w)", head))
    assert re.search(rf"\b{kind} for {title.lower()}\b", head) and saved[4] == kind
    assert saved[5] == int(re.search(r"the version of the encoding: (\d+)", head)[1])


def test_flags():
    flags = [int(one, 16) for one in re.findall(r"^\| 0x(\w\w) \|", section("A console"), re.M)]
    names = ["is_polled", "is_ready", "is_asleep", "is_refused"]
    assert flags == [Console.from_state(ConsoleState(**{name: True})).to_bytes()[HEADER_SIZE] for name in names]


def test_errors():
    assert [(int(status), reason) for _, status, reason in SHOWN] == [*enumerate(SAVED_STATE_ERRORS, 1)]
    assert [name.lower() for name, *_ in SHOWN] == [reason.replace(" ", "") for reason in SAVED_STATE_ERRORS]


def reason_of(kind, length, place=0, value=0):
    """Why a state of this kind is none whose header has this length, above zeros and two bytes at a place."""
    body = bytearray(max(length, place + 2))
    body[place:place + 2] = value.to_bytes(2, "little")
    try:
        kind.from_bytes(kind().to_bytes()[:6] + length.to_bytes(2, "little") + body[:length])
    except SavedStateError as error:
        return error.reason
    return "ok"


def test_lengths():
    """Those that fit a device, and those beside them."""
    text = section("What is invalid")
    least, most = map(int, re.search(r"^\| A port \| At least (\d+) \(a length above (\d+) gives", text, re.M).groups())
    assert [reason_of(Serial, length) for length in (least - 1, least, most, most + 1)] == [
        "wrong length", "ok", "ok", "too many bytes"]
    exact = int(re.search(r"^\| A clock \| Exactly (\d+) \|", text, re.M)[1])
    assert [reason_of(Rtc, exact + more) for more in (-1, 0, 1)] == ["wrong length", "ok", "wrong length"]
    of_console = r"^\| A console \| At least (\d+) \+ n, where n, the number at offset (\d+), is at most ([\d,]+) \|"
    fixed, place, most = map(number, re.search(of_console, text, re.M).groups())
    for waiting, reason in ((0, "too short"), (most, "too short"), (most + 1, "wrong length")):   # without a port
        assert [reason_of(Console, fixed + waiting + more, place - HEADER_SIZE, waiting) for more in (-1, 0)] == [
            "wrong length", reason]


# The devices by the names that their calls have in C, and what CHANGELOG.md says of errors that only one load returns.
LOADED = {"serial": Serial, "rtc": Rtc, "console": Console}
OF_ONE = re.findall(r"`SUPERIO_LOAD_(\w+)`, which only `superio_(\w+)_load` returns",
                    (ROOT / "CHANGELOG.md").read_text("utf-8"))


def reasons_of(kind):
    """Why bytes are no saved state of this kind, of which one byte differs."""
    saved, reasons = kind().to_bytes(), set()
    for place, value in itertools.product(range(len(saved)), range(256)):
        try:
            kind.from_bytes(saved[:place] + bytes([value]) + saved[place + 1:])
        except SavedStateError as error:
            reasons.add(error.reason)
    return reasons


@pytest.mark.parametrize("error, load", at_least(1, OF_ONE))
def test_errors_of_one_load(error, load):
    reason = error.lower().replace("_", " ")
    assert [name for name, kind in LOADED.items() if reason in reasons_of(kind)] == [load]


# ---- The table, and the definitions

def test_header_of_definitions():
    assert bytes(int(digits, 16) for digits in re.findall(r"0x(\w\w)", definition("magic"))) == MAGIC
    assert int(definition("version")) == ENCODING["version"]
    kinds = [int(definition(f"{name}_kind")) for name in ("serial", "clock", "console")]
    assert kinds == [KINDS[name] for name in ("serial port", "clock", "console")]
    assert int(re.search(r"HEADER_SIZE: usize = (\d+);", DECLARED)[1]) == HEADER_SIZE


def test_fields_of_definitions():
    """Their order, and the width of each number."""
    of_port = definition("register_bytes", words(CORE / "specs/Serial.antt"))
    assert re.findall(r"\bs\.(\w+) ∷", of_port) == [field["name"] for field in PORT_FIELDS.values()]
    assert [field["name"] for field in SERIAL["fields"]] == [
        *(field["name"] for field in PORT_FIELDS.values()), "in_buffer"]
    contents = definition("clock_contents")
    of_clock = re.findall(r"(?:to_le_bytes w(\d+)|(flag)) \(?(?:cast_unsigned w\d+ )?state\.(\w+)", contents)
    assert [(name, 1 if flag else int(bits) // 8) for bits, flag, name in of_clock] == [
        (field["name"], BYTES[field["type"]]) for field in CLOCK["fields"]]
    assert re.findall(r"cast_unsigned w\d+ state\.(\w+)", contents) == [
        field["name"] for field in CLOCK["fields"] if field["type"] == "i64"]


def test_struct_of_the_clock():
    """It has the fields of the table, in the order of its struct, with their types there."""
    source = (CORE / "src/rtc_pl031.rt").read_text(encoding="utf-8")
    struct = re.search(r"^pub struct Pl031 \{\n(.*?)^\}", source, re.M | re.S)[1]
    kinds = {field["name"]: field.get("in_struct", field["type"]) for field in CLOCK["fields"]}
    assert re.findall(r"^    pub (\w+): (\w+),$", struct, re.M) == [
        (name, kinds.pop(name)) for name in CLOCK["struct"]["fields"]]
    assert not kinds


def test_struct_of_the_console():
    source = (CONSOLE_CRATE / "src/lib.rt").read_text(encoding="utf-8")
    struct = re.search(r"^pub struct Console \{\n(.*?)^\}", source, re.M | re.S)[1]
    kept = [field for field in CONSOLE["fields"] if field["type"] in BYTES]
    assert re.findall(r"^    pub (\w+): (u\d+),$", struct, re.M) == [
        (field["name"], field["type"].replace("bool", "u8")) for field in kept]
    assert OUTPUT_SIZE == int(re.search(r"OUTPUT_SIZE: usize = (\d+);", words(CONSOLE_CRATE / "src/output_ring.rt"))[1])


def test_flags_of_definitions():
    flags = re.findall(r"bit_if c\.(\w+) (\d+)", definition("flags_of", words(CONSOLE_CRATE / "specs/Saved.antt")))
    assert flags == [(field["name"], str(field["flag"])) for field in CONSOLE["fields"] if "flag" in field]


def test_errors_of_definitions():
    """Their cases, what they hold, and their texts, in the order of their numbers."""
    cases = re.search(r"^pub enum SavedStateError \{\n(.*?)^\}", DECLARED, re.M | re.S)[1]
    assert re.findall(r"^    (\w+)(?:\((\w+)\))?,$", cases, re.M) == [
        (error["case"], error.get("holds", "")) for error in ERRORS]
    texts = re.findall(r'saved_state_error_text \(?(\w+)(?: _\))? = Some \(codes "(.*?)"\)', SPECS)
    assert texts == [(error["case"], told(error["text"])) for error in at_least(8, ERRORS)]
    assert [word_of(error) for error in ERRORS] == [*SAVED_STATE_ERRORS]
