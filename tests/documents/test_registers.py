# SPDX-License-Identifier: Apache-2.0 OR BSD-3-Clause
"""The registers of interface.toml, as the Python package has them, against those of the definitions of which the proofs
speak, of superio.h, and of what DEVICES.md says in sentences. And the offset beside a register's name in any text."""
import re

import pytest
from common.facts import CLOCK as CLOCK_FACTS
from common.facts import PORT_REGISTERS, SERIAL as SERIAL_FACTS
from documents import Document, documents
from harness import ROOT, at_least
from superio import registers
from superio.registers import CLOCK, DLAB, FIELDS, FIFO_BITS, FIFO_SIZE, IDENTIFICATION, LOOPBACK, SERIAL

SPECS = ROOT / "crates" / "superio_core" / "specs"
FRESH = registers.SerialState()


def read(path):
    return " ".join(path.read_text(encoding="utf-8").split())


def numbers(text):
    return [int(digits, 16) for digits in re.findall(r"0x([0-9A-Fa-f]+)", text)]


REGISTER_MAP, STATE, STEP, RTC, SIZES = (read(SPECS / name) for name in (
    "Serial/RegisterMap.antt", "Serial.antt", "Serial/Step.antt", "Rtc.antt", "Sizes.antt"))
HEADER, PAGE = read(ROOT / "bindings" / "c" / "superio.h"), " ".join(Document("docs/DEVICES.md").text.split())


def compare(what, *values):
    """What `what` is in several places: the package's value, and the value of each place."""
    return pytest.param(*values[:1], values[1:], id=what)


def port_registers():
    """Offsets, what reads show and writes change, and the states of a new port."""
    variants = {(int(offset), is_latched): latched if is_latched and latched else clear or only
                for offset, latched, clear, only in re.findall(
                    r"offset == (\d) then (?:\(if dlab then (\w+) else (\w+)\)|(\w+))", REGISTER_MAP)
                for is_latched in (False, True)}
    yield compare("how many registers an access reaches", {(row.offset, latched) for row in SERIAL.values()
                                                           for latched in (False, True)}, {*variants})
    written = {*re.findall(r"\bwrite_step (\w+) \w+", STEP)} - {"_"}
    for name, (_, offset, _, bits, latched, access, ignored) in SERIAL.items():
        variant = {"RBR": "Data", "THR": "Data", "FCR": "Iir"}.get(name, name.capitalize())
        yield compare(f"{name} at {offset}", variant, variants.get((offset, bool(latched))))
        yield compare(f"what is read of {name}", "r" in access, name not in ("THR", "FCR"))
        yield compare(f"whether a write of {name} counts", "w" in access and not ignored,
                      variant in written and name != "RBR")
        if name in FIELDS:
            field, value = FIELDS[name], getattr(FRESH, FIELDS[name])
            yield compare(f"{name} of a new port", value, int(re.search(rf"{field} = 0x(\w+);", STATE)[1], 16))
            stated = {*numbers(re.search(rf"\b{field};\s*/\*(.*?)\*/", HEADER)[1])}
            stated -= {FRESH.interrupt_identification, FIFO_BITS}
            yield compare(f"bits of {name} beside those of the texts", set(), stated - {bit for bit, _ in bits})
    yield compare("the size of the FIFO", FIFO_SIZE, int(re.search(r"fifo_size = (\d+)", SIZES)[1]),
                  int(re.search(r"a receive FIFO of (\d+) bytes", PAGE)[1]))


def is_told(bit, register):
    """Whether DEVICES.md tells what a bit means."""
    return f"{{{bit}}}" in PORT_REGISTERS[register]["told"]


def port_bits():
    """Each bit that the definitions name, and the words of DEVICES.md about them."""
    yield compare("the bits of FIFOs", FIFO_BITS, int(re.search(r"iir_fifo_bits = 0x(\w+)", REGISTER_MAP)[1], 16))
    named = {**{(register.name, name): bit for register in SERIAL.values() for bit, name in register.bits},
             ("LCR", "DLAB"): DLAB, ("MCR", "LOOP"): LOOPBACK}
    stated = re.findall(r"(\w+?)_(\w+)_bit = 0x(\w+)", REGISTER_MAP)
    stated += re.findall(r"(\w+)_bit (\w+) = 0x(\w+)", REGISTER_MAP)
    for register, name, digits in stated:
        register, name = register.upper(), name.upper()
        yield compare(f"bit {name} of {register}", named[register, name], int(digits, 16))
        yield compare(f"bit {name} of {register} in DEVICES.md", True, is_told(name, register))
    yield compare("the bits that IER keeps", sum(bit for bit, _ in SERIAL["IER"].bits),
                  int(re.search(r"ier_bits = 0x(\w+)", REGISTER_MAP)[1], 16))
    for bit, name in SERIAL["IER"].bits:
        yield compare(f"bit {name} of IER in DEVICES.md", True, is_told(name, "IER"))
    outputs = re.findall(r"mcr_(\w+)_bit then msr_(\w+)_bit", REGISTER_MAP)
    yield compare("what loopback shows", SERIAL_FACTS["loopback"],
                  {out.upper(): shown.upper() for out, shown in outputs},
                  dict(re.findall(r"(\w+) as (\w+)", re.search(r"the outputs of MCR above them: (.*?)\.", PAGE)[1])))


def clock_results():
    """Offsets, accesses, the bytes of the identification, and a new clock."""
    variants = {int(offset, 16): name for offset, name in re.findall(r"offset == 0x(\w+) then (\w+)", RTC)}
    yield compare("the offsets of registers", {row["offset"] for row in CLOCK_FACTS["registers"]}, {*variants})
    accesses = {letter: dict(re.findall(rf"is_{kind} (\w+) = (true|false)", RTC))
                for letter, kind in (("r", "readable"), ("w", "writable"))}
    shown = dict(re.findall(r"clock_register_read (\w+) guest state = (?:Some )?(\S+)", RTC))
    for name, register in CLOCK.items():
        if not name.startswith("ID"):
            variant = variants.get(register.offset, "Reserved")
            yield compare(f"the register at {register.offset}", name, variant.upper())
            for letter in "rw":
                stated = accesses[letter].get(variant, accesses[letter]["_"]) == "true"
                yield compare(f"{letter} of {name}", letter in register.access, stated)
            words = next(row for row in CLOCK_FACTS["registers"] if row["name"] == name).get("read", "None").strip("`")
            yield compare(f"what {name} shows", {"guest time": "guest", "ris & imsc": "(bit_and"}.get(words, words),
                          shown[variant].removeprefix("state."))
    first = next(register.offset for name, register in CLOCK.items() if name == "ID0")
    yield compare("the first identification", first, int(re.search(r"nat_le 0x(\w+) offset", RTC)[1], 16))
    yield compare("the last identification", first + 4 * len(IDENTIFICATION) - 1,
                  int(re.search(r"nat_le offset 0x(\w+)", RTC)[1], 16))
    yield compare("the identification", IDENTIFICATION,
                  bytes(numbers(re.search(r"identification_bytes = (.*?) \[\]", RTC)[1])))
    fresh = re.search(r"fresh_clock = record \{ (.*?) \}", RTC)[1].replace("pos ", "").replace("false", "0")
    yield compare("a new clock", registers.RtcState(),
                  registers.RtcState(**{name: int(value) for name, value in re.findall(r"(\w+) = (\d+)", fresh)}))


RESULTS = [*port_registers(), *port_bits(), *clock_results()]


@pytest.mark.parametrize("value, others", at_least(124, RESULTS))
def test_register(value, others):
    assert all(other == value for other in others)


# A register's name and its offset, in each form in which texts have both.
OFFSETS = {name: register.offset for name, register in SERIAL.items()}
OFFSETS.update((f"RTC{name}", register.offset) for name, register in CLOCK.items())
NAME = rf"\b(?P<name>{'|'.join(OFFSETS)})\b"
DIGIT, DIGITS = r"(?P<offset>0x[0-9A-F]{2,4}|\d)\b", r"(?P<offset>0x[0-9A-F]{3})\b"
FORMS = [rf"{NAME},? at offset {DIGIT}", rf"{NAME},? at {DIGITS}", rf"{NAME} = {DIGITS}", rf"{NAME} \(offset {DIGIT}",
         rf"\boffset {DIGIT},? \(?{NAME}", rf"(?<!offset )\b{DIGITS},? \(?{NAME}(?! =)", rf"{NAME} \({DIGITS}\)",
         rf"\bat {DIGIT}, {NAME},", rf"\boffset {DIGIT} (?:that )?leaves {NAME}"]
# Offsets and then their names, as `at 2 and 5 (IIR and LSR)`.
LISTS = re.compile(rf"\bat ((?:\d, )*\d and \d) \(((?:{'|'.join(OFFSETS)}|, | and )+)\)", re.I)
TEXTS = [*documents(), *(Document(path.relative_to(ROOT)) for path in sorted([
    ROOT / "bindings/c/superio.h", ROOT / "bindings/js/superio.d.ts", *(ROOT / "examples").rglob("*.[ch]"),
    *(ROOT / "examples").rglob("*.py"), *(ROOT / "rust").glob("*/src/**/*.rs"),
    *(ROOT / "bindings/c/from-source/src").glob("*.rs"), *(ROOT / "bindings/python/superio").glob("*.py")]))]
WITHOUT_BREAKS = [(str(text), re.sub(r"\s+(?:\* |//[/!]* )?", " ", text.text)) for text in TEXTS]
BESIDE = [(name, found["name"], int(found["offset"], 0)) for name, text in WITHOUT_BREAKS
          for form in FORMS for found in re.finditer(form, text)]
BESIDE += [(name, register, int(offset)) for name, text in WITHOUT_BREAKS for offsets, names in LISTS.findall(text)
           for offset, register in zip(re.findall(r"\d", offsets), re.findall(r"[A-Z]+", names), strict=True)]


@pytest.mark.parametrize("text, name, offset", at_least(25, BESIDE))
def test_offset_beside_a_name(text, name, offset):
    assert offset == OFFSETS[name]
