# SPDX-License-Identifier: Apache-2.0 OR BSD-3-Clause
"""Builds the WebAssembly module that the repository holds: Cargo's C library, over the erased proved devices.

Writes prebuilt/wasm32/superio.wasm, its lines in prebuilt/SHA256SUMS and prebuilt/SOURCES, and bindings/js/module.mjs,
which has its bytes and the tables of the Python package. They are the same on every machine. It writes what these
tables have into bindings/js/superio.d.ts: the names of registers, the fields of states, and why bytes are no saved
state. Needs Debian 12's rustc, libstd-rust-dev-wasm32 and lld.
"""
import base64
import ctypes
import json
import re
import shutil
import sys
import tempfile
import textwrap
from pathlib import Path

from common.cargo import DEBIAN_RUSTC
from common.commands import ROOT, run
from common.facts import CLOCK as CLOCK_FACTS, CONSOLE as CONSOLE_FACTS, SERIAL as SERIAL_FACTS, told_of_field
from generators.libraries import PREBUILT, replace_lines, source_line, sums_of
from superio.library import ABI, RTC_SAVED_SIZE, ConsoleStruct, RtcStruct
from superio.registers import CLOCK, OUTPUT_SIZE, SERIAL, ConsoleState, RtcState, SerialState
from superio.saved import SAVED_STATE_ERRORS

TARGET, MODULE = "wasm32-unknown-unknown", "wasm32/superio.wasm"
# The functions of the module, and the crate of the devices.
SOURCES, DEVICES = "bindings/c/from-source/src", "rust/superio/src"
EMBEDDED = ROOT / "bindings" / "js" / "module.mjs"
DECLARED = ROOT / "bindings" / "js" / "superio.d.ts"
# The compiler whose bytes the repository holds, the library of its target, and Debian's packages that have them.
VERSION, LIBRARY = "rustc 1.63.0\n", DEBIAN_RUSTC.parents[1] / "lib" / "rustlib" / TARGET
PACKAGES = "Debian 12's rustc, libstd-rust-dev-wasm32 and lld"
# A small stack, and memory for a device and the longest bytes that a call can be passed. The paths in the module are
# those below the top of the repository, so that its bytes are the same in any folder.
OPTIONS = [*f"--target {TARGET} --edition 2021 -C opt-level=z -C panic=abort -C codegen-units=1".split(),
           f"--remap-path-prefix={ROOT}=."]
MODULE_OPTIONS = """--crate-name superio_c --crate-type cdylib -C lto=fat -C strip=symbols
    -C link-arg=-zstack-size=16384 -C link-arg=--initial-memory=131072""".split()
# Kinds of numbers, as DataView names them, and types of fields, as TypeScript does.
KINDS = {ctypes.c_uint8: "Uint8", ctypes.c_uint32: "Uint32", ctypes.c_int64: "BigInt64", ctypes.c_uint64: "BigUint64"}
TYPES = {"u8": "number", "u32": "number", "u64": "bigint", "i64": "bigint", "bool": "boolean", "bytes": "Uint8Array",
         "port": "SerialState"}


def has_compiler():
    """Whether the compiler of these bytes, its library for the target and the linker are there."""
    is_there = DEBIAN_RUSTC.exists() and LIBRARY.is_dir() and shutil.which("wasm-ld")
    return bool(is_there) and run([DEBIAN_RUSTC, "--version"]).stdout == VERSION


def build(place):
    """Builds the module. Gives the compiler's status and what it printed."""
    with tempfile.TemporaryDirectory() as folder:
        devices = Path(folder) / "libsuperio.rlib"
        built = run([DEBIAN_RUSTC, *OPTIONS, "--crate-name", "superio", "--crate-type", "rlib", "-o", devices,
                     f"{DEVICES}/lib.rs"], cwd=ROOT)
        return built if built.returncode else run(
            [DEBIAN_RUSTC, *OPTIONS, *MODULE_OPTIONS, "--extern", f"superio={devices}", "-o", place,
             f"{SOURCES}/lib.rs"], cwd=ROOT)


def camel(name):
    """A name of Python as JavaScript has it."""
    return re.sub("_(.)", lambda found: found[1].upper(), name)


def fields_of(state, struct):
    """Of each number and flag of a state its name, its place in the struct, its kind, and whether it is a flag."""
    return [(camel(name), getattr(struct, name).offset, KINDS[kind], isinstance(getattr(state, name), bool))
            for name, kind in state.kinds().items()]


def tables():
    """The tables of the Python package, by their names in module.mjs: a register without its text, and with its bits
    from the lowest on; the registers of the port's struct, in their order; the fields of the structs of the clock and
    of the console, and where the console has the count and the bytes of its output."""
    serial, clock = ([one._replace(bits=sorted(one.bits))._asdict() for one in registers.values()]
                     for registers in (SERIAL, CLOCK))
    for row in (*serial, *clock):
        del row["about"]
    port = [camel(name) for name in SerialState.kinds()]
    return {"ABI": ABI, "CLOCK_SIZE": ctypes.sizeof(RtcStruct), "CLOCK_SAVED_SIZE": RTC_SAVED_SIZE,
            "CONSOLE_SIZE": ctypes.sizeof(ConsoleStruct), "OUTPUT_SIZE": OUTPUT_SIZE,
            "OUTPUT_COUNT": ConsoleStruct.output_len.offset, "OUTPUT_BYTES": ConsoleStruct.output_bytes.offset,
            "SAVED_STATE_ERRORS": SAVED_STATE_ERRORS, "PORT_FIELDS": port,
            "CLOCK_STRUCT": fields_of(RtcState, RtcStruct), "CONSOLE_STRUCT": fields_of(ConsoleState, ConsoleStruct),
            "SERIAL_ROWS": serial, "CLOCK_ROWS": clock}


def embedded():
    """The text of module.mjs, which has the module's bytes and the tables."""
    module = base64.b64encode((PREBUILT / MODULE).read_bytes()).decode()
    lines = ["// SPDX-License-" "Identifier: Apache-2.0 OR BSD-3-Clause",
             f"// Made by tools/generate from prebuilt/{MODULE}, whose bytes these are in base 64,",
             "// and from registers.py, library.py and saved.py of bindings/python/superio.",
             f'export default "{module}";']
    for name, value in tables().items():
        rows = [f"  {json.dumps(row)}," for row in value] if isinstance(value, list) else []
        lines.append(f"export const {name} = " + ("\n".join(["[", *rows, "];"]) if rows else f"{json.dumps(value)};"))
    return "\n".join([*lines, ""])


def registers_by_type():
    """The names of registers, by the names of their types."""
    return {"ReadableRegister": [one.name for one in SERIAL.values() if "r" in one.access],
            "WritableRegister": [one.name for one in SERIAL.values() if "w" in one.access],
            "ClockRegister": [*CLOCK]}


def declared():
    """The text of superio.d.ts, with the registers, the fields of states and the reasons by the Python package."""
    text = DECLARED.read_text(encoding="utf-8")
    for state, facts in ("SerialState", SERIAL_FACTS), ("RtcState", CLOCK_FACTS), ("ConsoleState", CONSOLE_FACTS):
        lines = []
        for field in facts["fields"]:
            about = told_of_field(field)
            lines += [f"  /** {about[0].upper()}{about[1:]}. */", f"  {camel(field['name'])}: {TYPES[field['type']]};"]
        text = re.sub(rf"(?<=interface {state} {{\n)[^}}]*", "\n".join([*lines, ""]), text)
    for name, registers in registers_by_type().items():
        union = textwrap.indent(textwrap.fill(" | ".join(f'"{register}"' for register in registers), 110), "  ")
        text = re.sub(rf"(?<=export type {name} =)[^;]*", f"\n{union}", text)
    reasons = "".join(f'\n    | "{reason}"' for reason in SAVED_STATE_ERRORS)
    return re.sub(r"(?<=readonly reason:)[^;]*", reasons, text)


def listed():
    """The module's lines of prebuilt/SHA256SUMS and prebuilt/SOURCES, by the name of the file."""
    return {"SHA256SUMS": sums_of(PREBUILT, [MODULE])[0],
            "SOURCES": source_line([SOURCES, DEVICES], ".rs")}


def main():
    built = has_compiler() and build(PREBUILT / MODULE)
    if not built or built.returncode:
        sys.exit(f"{built.stdout if built else ''}the module needs {PACKAGES}")
    (PREBUILT / MODULE).chmod(0o644)
    EMBEDDED.write_text(embedded(), encoding="ascii")
    DECLARED.write_text(declared(), encoding="utf-8")
    for name, line in listed().items():
        replace_lines(PREBUILT / name, [line])


if __name__ == "__main__":
    main()
