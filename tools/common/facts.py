# SPDX-License-Identifier: Apache-2.0 OR BSD-3-Clause
"""The facts of interface.toml, and the numbers that follow from them."""
import re
import tomllib

from common.commands import ROOT

FACTS = tomllib.loads((ROOT / "interface.toml").read_text(encoding="utf-8"))
VERSION = (ROOT / "VERSION").read_text(encoding="ascii").strip()
ABI, ENCODING, ERRORS = FACTS["abi"], FACTS["encoding"], FACTS["errors"]
DEVICES, SERIAL, CLOCK, CONSOLE = FACTS["devices"], FACTS["serial"], FACTS["clock"], FACTS["console"]
FIFO_SIZE, OUTPUT_SIZE = FACTS["sizes"]["fifo"], FACTS["sizes"]["output"]

# The registers by their names, and the fields of a port that are registers, by the names of these.
PORT_REGISTERS = {register["name"]: register for register in SERIAL["registers"]}
PORT_FIELDS = {field["register"]: field for field in SERIAL["fields"] if "register" in field}
DLAB, LOOPBACK, FIFO_BITS = (PORT_REGISTERS["LCR"]["bits"]["DLAB"], PORT_REGISTERS["MCR"]["bits"]["LOOP"],
                             PORT_REGISTERS["IIR"]["always"])
IDENTIFICATION = bytes(CLOCK["identification"]["bytes"])

# How many bytes a number of a type has in a saved state.
BYTES = {"u8": 1, "bool": 1, "u32": 4, "u64": 8, "i64": 8}
# The parts of a saved state, by the encoding's own rules.
MAGIC, KINDS = ENCODING["magic"].encode("ascii"), {name: kind for kind, name in enumerate(ENCODING["kinds"], 1)}
HEADER_SIZE = len(MAGIC) + 4
CLOCK_CONTENTS = sum(BYTES[field["type"]] for field in CLOCK["fields"])
CONSOLE_PREFIX = sum(part["bytes"] for part in CONSOLE["saved"] if part["bytes"] not in ("output", "port"))
# The least and the most bytes of a saved state.
PORT_SAVED = HEADER_SIZE + len(PORT_FIELDS), HEADER_SIZE + len(PORT_FIELDS) + FIFO_SIZE
CLOCK_SAVED = HEADER_SIZE + CLOCK_CONTENTS
CONSOLE_SAVED = tuple(HEADER_SIZE + CONSOLE_PREFIX + sum(parts) for parts in zip((0, OUTPUT_SIZE), PORT_SAVED))


def title_of(device):
    """The heading of a device's section."""
    return device["name"][0].upper() + device["name"][1:]


def word_of(error):
    """An error in the words of a script."""
    return re.sub("(?<!^)(?=[A-Z])", " ", error["case"]).lower()


def saved(kind, contents):
    """The saved state with these contents."""
    return MAGIC + bytes([kind, ENCODING["version"]]) + len(contents).to_bytes(2, "little") + contents


def told(text, form="", **more):
    """A text of the table, with the numbers that its braces name."""
    numbers = {"version": ENCODING["version"], "header": HEADER_SIZE, "fifo": FIFO_SIZE, "output": OUTPUT_SIZE,
               "port_contents": len(PORT_FIELDS), "clock_contents": CLOCK_CONTENTS}
    return text.format(**{name: format(number, form) for name, number in numbers.items()}, **more)


def told_of_field(field):
    """What the languages say of a field."""
    return (told_of_port(field["about"], field["register"]) if field.get("register") in PORT_FIELDS
            else told(field["about"], ","))


def told_of_port(text, name):
    """A text about a register of the port, which may name its bits, what it holds in a new port, and what it always
    shows."""
    register = PORT_REGISTERS[name]
    bits = {**register.get("bits", {}), **{key: register[key] for key in ("always",) if key in register},
            **({"fresh": PORT_FIELDS[name]["fresh"]} if name in PORT_FIELDS else {})}
    return told(text, **{key: f"0x{bit:02X}" for key, bit in bits.items()})
