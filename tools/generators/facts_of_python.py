# SPDX-License-Identifier: Apache-2.0 OR BSD-3-Clause
"""What the Python package has of interface.toml, as its module _facts.py."""
import textwrap

from common.facts import (CLOCK, CONSOLE, DLAB, ERRORS, FIFO_BITS, FIFO_SIZE, IDENTIFICATION, LOOPBACK, OUTPUT_SIZE,
                          PORT_FIELDS, SERIAL, told, told_of_field, word_of)

HEAD = f'''# {"SPDX-License-"}Identifier: Apache-2.0 OR BSD-3-Clause
# Made by tools/generate from interface.toml.
"""The registers, the fields of states, and the errors of saved states."""
from ctypes import c_int64, c_uint8, c_uint32, c_uint64
from dataclasses import dataclass, field
from typing import Any, Tuple

# A register: its name, its offset, the words about it, its bits, DLAB, the accesses that reach it, and whether a write
# is ignored.
Row = Tuple[str, int, str, Tuple[Tuple[int, str], ...], Any, str, bool]

'''
KINDS = {"u8": "c_uint8", "bool": "c_uint8", "u32": "c_uint32", "u64": "c_uint64", "i64": "c_int64"}
# Fields that are no numbers, with their types and defaults.
OTHERS = {"bytes": 'bytes = b""', "port": "Any = None"}


def bits_of(register):
    """The bits of a register, as a tuple."""
    bits = [f'(0x{bit:02X}, "{name}")' for name, bit in register.get("bits", {}).items()]
    return f"({', '.join(bits)}{',' * (len(bits) == 1)})"


def row(name, offset, about, bits, dlab, reads, writes):
    """The row of a register. `reads` and `writes` are what an access does, and are empty if it does not reach it."""
    latched = {None: None, "clear": False, "set": True}[dlab]
    parts = [f'("{name}", {offset}, "{about}",', f"{bits},",
             f'{latched}, "{"r" * bool(reads)}{"w" * bool(writes)}", {writes == "ignored"}),']
    return textwrap.indent(" ".join(parts) if len(" ".join(parts)) <= 116 else "\n ".join(parts), "    ")


def port_rows():
    return [row(register["name"], register["offset"], register["about"], bits_of(register), register.get("dlab"),
                register.get("read"), register.get("write"))
            for register in SERIAL["registers"]]


def clock_rows():
    first = CLOCK["identification"]["first"]
    return [*(row(register["name"], f'0x{register["offset"]:03X}', register["about"], bits_of(register), None,
                  register.get("read"), register.get("write"))
              for register in CLOCK["registers"]),
            *(row(f"ID{place}", f"0x{first + 4 * place:03X}", "identification", "()", None, True, False)
              for place in range(len(IDENTIFICATION)))]


def field_lines(field):
    """A field of a state, below the words about it. It has a kind if the struct of superio.h has it under its name."""
    yield f"    # {told_of_field(field)}"
    if field["type"] in OTHERS:
        yield f"    {field['name']}: {OTHERS[field['type']]}"
    else:
        default = False if field["type"] == "bool" else f"0x{field['fresh']:02X}" if "fresh" in field else 0
        yield (f"    {field['name']}: {'bool' if field['type'] == 'bool' else 'int'} = "
               f"field(default={default}, metadata={{\"kind\": {KINDS[field.get('in_struct', field['type'])]}}})")


def fields(name, words, them):
    """A class with the fields of a state."""
    return "\n".join(["", "", "@dataclass(frozen=True)", f"class {name}:", f'    """{words}."""', "",
                      *(line for field in them for line in field_lines(field)), ""])


def module():
    """The text of _facts.py."""
    identification = ", ".join(f"0x{byte:02X}" for byte in IDENTIFICATION)
    constants = {
        "FIFO_SIZE": FIFO_SIZE, "OUTPUT_SIZE": OUTPUT_SIZE, "DLAB": f"0x{DLAB:02X}", "LOOPBACK": f"0x{LOOPBACK:02X}",
        "FIFO_BITS": f"0x{FIFO_BITS:02X}", "IDENTIFICATION": f"bytes([{identification}])",
    }
    errors = "".join(f'    "{word_of(error)}": "{told(error["text"])}",\n' for error in ERRORS)
    kept = "".join(f'    "{name}": "{field["name"]}",\n' for name, field in PORT_FIELDS.items())
    tables = {"SERIAL": port_rows(), "CLOCK": clock_rows()}
    return "".join([
        HEAD, *(f"{name} = {value}\n" for name, value in constants.items()),
        *("\n".join(["", f"{name}: Tuple[Row, ...] = (", *table, ")", ""]) for name, table in tables.items()),
        f"\nFIELDS = {{\n{kept}}}\n\nSAVED_STATE_ERRORS = {{\n{errors}}}\n",
        fields("SerialFields", "The fields of a serial port", SERIAL["fields"]),
        fields("RtcFields", "The fields of a clock", CLOCK["fields"]),
        fields("ConsoleFields", "The fields of a console", CONSOLE["fields"])])
