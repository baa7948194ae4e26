# SPDX-License-Identifier: Apache-2.0 OR BSD-3-Clause
"""The saved states in the data of tests. A file NAME.in has them as expressions, and NAME.txt, which is made of it, as
bytes, in hexadecimal digits. tests/page/features.txt has expressions too. refused.rs, for Rust, has invalid ones alone.

An expression stands between < and >, and may have others in it. It begins with the device: `port`, `clock` or
`console`. These words may follow, each number in hexadecimal digits:

- NAME=NUMBER, for a register of a port, a field of a clock, or `flags` and `dropped` of a console. Otherwise it is that
  of a new device. output=BYTES is the output of a console, and count=NUMBER another number for how many bytes it is;
- BYTES, which come after those: what a port holds, or the port of a console;
- less=NUMBER, if that many bytes are missing at the end of what follows the header, and the length says so;
- magic=BYTES, kind=NUMBER, version=NUMBER and length=NUMBER, for another header. version=+1 is the next version;
- cut=NUMBER, if that many bytes are missing at the end, and first=NUMBER, if only that many are there.

A row with <invalid DEVICE> and a <reply> stands for a row of each such device that interface.toml has below its errors.
"""
import re

from common.facts import BYTES, CLOCK, ENCODING, ERRORS, KINDS, MAGIC, PORT_FIELDS, word_of

TEMPLATES = ["tests/c/console.in", "tests/c/shared.in", "tests/data/further/saved_states.in"]
EXPRESSION = re.compile(r"<(port|clock|console)((?: [^\s<>]+)*)>")
INVALID = re.compile("^(.*)<invalid (port|clock|console)>(.*)<reply>$", re.M)
MADE = "# Made by tools/generate from {} and interface.toml.\n"
REFUSED = "rust/superio/tests/all/refused.rs"
REFUSED_HEAD = """\
// SPDX-License-""" """Identifier: Apache-2.0 OR BSD-3-Clause
// Made by tools/generate from interface.toml.
//! Bytes that are no saved device, in hexadecimal digits, each with the case of its error.
"""


def port_contents(words):
    registers = {name: field["fresh"] for name, field in PORT_FIELDS.items()}
    return bytes(int(words.pop(name), 16) if name in words else fresh for name, fresh in registers.items())


def clock_contents(words):
    numbers = ((int(words.pop(field["name"], "0"), 16), field["type"]) for field in CLOCK["fields"])
    return b"".join(number.to_bytes(BYTES[kind], "little", signed=kind == "i64") for number, kind in numbers)


def console_contents(words):
    output = bytes.fromhex(words.pop("output", ""))
    count = int(words.pop("count", f"{len(output):x}"), 16)
    flags, dropped = (int(words.pop(name, "0"), 16) for name in ("flags", "dropped"))
    return bytes([flags]) + dropped.to_bytes(8, "little") + count.to_bytes(2, "little") + output


CONTENTS = {"port": ("serial port", port_contents), "clock": ("clock", clock_contents),
            "console": ("console", console_contents)}


def encoded(found):
    """The digits of an expression."""
    device, (kind, contents_of) = found[1], CONTENTS[found[1]]
    words = dict(word.split("=") for word in found[2].split() if "=" in word)
    contents = contents_of(words) + bytes.fromhex("".join(word for word in found[2].split() if "=" not in word))
    contents = contents[:len(contents) - int(words.pop("less", "0"), 16)]
    version, now = words.pop("version", "+0"), ENCODING["version"]
    head = bytes([int(words.pop("kind", f"{KINDS[kind]:x}"), 16), int(version, 16) + now * (version[0] == "+")])
    length = int(words.pop("length", f"{len(contents):x}"), 16)
    whole = bytes.fromhex(words.pop("magic", MAGIC.hex())) + head + length.to_bytes(2, "little") + contents
    whole = whole[:int(words.pop("first", f"{len(whole):x}"), 16)]
    whole = whole[:len(whole) - int(words.pop("cut", "0"), 16)]
    if words:
        raise ValueError(f"a {device} has no {', '.join(words)}: {found[0]}")
    return whole.hex()


def expanded(text):
    """A text with the digits of its expressions, the inner ones first."""
    count = 1
    while count:
        text, count = EXPRESSION.subn(encoded, text)
    return text


def invalid(device):
    """Each invalid state of a device: its error, its digits, and perhaps what the error holds."""
    return [(error, *expanded(state).split(" ")) for error in ERRORS for state in error["fails"].get(device, [])]


def invalid_rows(found):
    """A row for each invalid state of a device. In a recorded call `-` stands for no bytes."""
    call, device, gap = found.groups()
    none = "-" if gap == " = " else ""
    return "\n".join(f"{call}{digits or none}{gap}{' '.join([word_of(error), *held])}"
                     for error, digits, *held in invalid(device))


def refused():
    """The text of refused.rs: the invalid states for the tests of rust/superio."""
    tables = []
    for device in CONTENTS:
        rows = "".join(f'    ("{error["case"]}", "{digits}"),\n' for error, digits, *_ in invalid(device))
        tables.append(f"\n#[rustfmt::skip]\npub const {device.upper()}S: &[(&str, &str)] = &[\n{rows}];\n")
    return REFUSED_HEAD + "".join(tables)


def made_of(template, text):
    """What is made of a template's text."""
    return MADE.format(template.rpartition("/")[2]) + expanded(INVALID.sub(invalid_rows, text))
