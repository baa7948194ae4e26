# SPDX-License-Identifier: Apache-2.0 OR BSD-3-Clause
"""What docs/DEVICES.md, docs/DIFFERENCES.md, docs/SAVED-STATES.md and READMEs have of interface.toml: their parts by
the words of their marks, as lines."""
from common.facts import (BYTES, CLOCK, CLOCK_CONTENTS, CLOCK_SAVED, CONSOLE, CONSOLE_PREFIX, CONSOLE_SAVED, DEVICES,
                          ENCODING, ERRORS, FIFO_SIZE, HEADER_SIZE, IDENTIFICATION, KINDS, MAGIC, OUTPUT_SIZE,
                          PORT_FIELDS, PORT_REGISTERS, PORT_SAVED, SERIAL, title_of, told, told_of_port, word_of)
from generators.facts_of_tests import expanded


def table(heads, rows):
    lines = [f"| {' | '.join(cells)} |" for cells in (heads, *rows)]
    return [lines[0], f"|{'---|' * len(heads)}", *lines[1:]]


def hexes(numbers):
    return " ".join(f"0x{number:02X}" for number in numbers)


# ---- READMEs, and docs/DEVICES.md

def devices():
    return [f"- {device['about']}" for device in DEVICES]


def names_of_devices():
    """The names of each device, beside a link to its section."""
    rows = [[f"[{title_of(device)}](#{device['name'].lower().replace(' ', '-')})",
             *(f"`{device[language]}`" for language in ("c", "rust", "python"))] for device in DEVICES]
    return table(["Device", "C", "Rust, Rattle", "Python, JavaScript"], rows)


def fresh_of(register):
    """What a register holds in a new port, and what is read of it if that is something else."""
    if register["name"] not in PORT_FIELDS:
        return register["fresh"]
    fresh = PORT_FIELDS[register["name"]]["fresh"]
    read = f", read as {hexes([fresh | register['always']])}" if "always" in register else ""
    return hexes([fresh]) + read


def port_registers():
    """A row for each offset and state of DLAB: the register that a read reaches, and the one that a write does."""
    rows = []
    for read in (register for register in SERIAL["registers"] if "read" in register):
        place = read["offset"], read.get("dlab", "any")
        write, = (register["write"] for register in SERIAL["registers"]
                  if (register["offset"], register.get("dlab", "any")) == place and "write" in register)
        rows.append([*map(str, place), told_of_port(read["read"], read["name"]), write, fresh_of(read)])
    most = max(register["offset"] for register in SERIAL["registers"])
    heads = ["Offset", "DLAB", "Read", "Write", "In a new port"]
    lines = table(heads, sorted(rows, key=lambda row: row[0]))
    return [*lines, f"| {most + 1} to 0xFF | any | 0 | ignored | |"]


def port_bits():
    return table(["Register", "Bits"], [[name, told_of_port(register["told"], name)]
                                        for name, register in PORT_REGISTERS.items() if "told" in register])


def clock_registers():
    first = CLOCK["identification"]["first"]
    rows = [[f"0x{register['offset']:03X}", f"RTC{register['name']}, {register['about'].split(':')[0]}",
             register.get("read", "is invalid"), register.get("write", "is invalid")]
            for register in CLOCK["registers"]]
    last = first + 4 * len(IDENTIFICATION) - 1
    return table(["Offset", "Register", "A read shows", "A write of v"], [
        *rows, [f"0x{first:03X} to 0x{last:03X}", "identification", "one byte, then three zero bytes", "is invalid"],
        ["every other", "no register", "is invalid", "is invalid"]])


def identification():
    first, count = CLOCK["identification"]["first"], len(IDENTIFICATION)
    last = first + 4 * count
    return [f"The identification bytes are {hexes(IDENTIFICATION)}, each at four offsets: 0x{first:03X} to "
            f"0x{first + 3:03X} show the first and 0x{last - 4:03X} to 0x{last - 1:03X} the last."]


# ---- docs/DIFFERENCES.md

def accesses_of(register):
    """What the accesses of a register of the clock do, in sentences."""
    name = f"RTC{register['name']}"
    read = f"shows {register['read']}" if "read" in register else "is invalid"
    write = f"of v {register['write']}" if "write" in register else "is invalid"
    return f"A read of {name} {read}. A write {write}.".replace("](#", "](DEVICES.md#")


def differences_of_the_clock():
    """The registers that differ from vm-superio's, and the fields that it does not have."""
    registers = [[register.get("vm_superio", f"An access at 0x{register['offset']:03X} is invalid."),
                  accesses_of(register), register["why"]] for register in CLOCK["registers"] if "why" in register]
    fields = [[f"There is no `{field['name']}`.", f"`{field['name']}`: {field['about']}.", field["why"]]
              for field in CLOCK["fields"] if "why" in field]
    return table(["vm-superio 0.8.2", "Here", "Why"], registers + fields)


# ---- docs/SAVED-STATES.md

def header():
    kinds = ", ".join(f"{kind} for a {name}" for name, kind in KINDS.items())
    rows = [(len(MAGIC), f"the magic, the letters `{MAGIC.decode()}`: {hexes(MAGIC)}"),
            (1, f"the kind of the device: {kinds}"),
            (1, f"the version of the encoding: {ENCODING['version']}"), (2, "the length of what follows")]
    return places(rows, 0)


def places(rows, start=HEADER_SIZE):
    """A table of what begins where: the rows have the bytes of each, or the least and the most, and the words."""
    lines, place = [], start
    for size, words in rows:
        least, most = size if isinstance(size, tuple) else (size, size)
        lines.append([str(place), f"{least:,}" if least == most else f"{least:,} to {most:,}", words])
        place = place + least if least == most else "after the output"
    return table(["Offset", "Size", "Contents"], lines)


def saved_words(field, prefix=""):
    """What a field of a saved state is."""
    words = field.get("saved") or f"`{field['name']}`, {prefix}{field['register']}"
    return told_of_port(words, field["register"]) if field.get("register") in PORT_FIELDS else told(words, ",")


def port_contents():
    return places([(BYTES.get(field["type"], (0, FIFO_SIZE)), saved_words(field)) for field in SERIAL["fields"]])


def clock_contents():
    return places([(BYTES[field["type"]], saved_words(field, "RTC")) for field in CLOCK["fields"]])


def console_contents():
    sizes = {"output": (0, OUTPUT_SIZE), "port": PORT_SAVED}
    return places([(sizes.get(part["bytes"], part["bytes"]), told(part["words"], ",")) for part in CONSOLE["saved"]])


def flags():
    return table(["Flag", "Meaning"], [[hexes([field["flag"]]), field["saved"]]
                                       for field in CONSOLE["fields"] if "flag" in field])


def sizes(least, most, more=""):
    """The sentences about the sizes of a saved device."""
    size = f"{least:,}" if least == most else f"{least:,} to {most:,}"
    return [f"The encoding has {size} bytes. The length in the header is {least - HEADER_SIZE}{more}."]


def errors():
    return table(["Error", "C returns", "Reason", "What is checked"], [
        [f"`{error['case']}`", str(number), f"`{word_of(error)}`", told(error["checked"], ",")]
        for number, error in enumerate(ERRORS, 1)])


def lengths():
    least, most = (size - HEADER_SIZE for size in PORT_SAVED)
    return table(["Device", "The length that fits"], [
        ["A port", f"At least {least} (a length above {most} gives `TooManyBytes`)"],
        ["A clock", f"Exactly {CLOCK_CONTENTS}"],
        ["A console", f"At least {CONSOLE_PREFIX} + n, where n, the number at offset "
                      f"{HEADER_SIZE + CONSOLE_PREFIX - 2}, is at most {OUTPUT_SIZE:,}"]])


# ---- The examples there

def block(*rows):
    """A block of lines, with what stands after each at the same column."""
    column = max(len(line) for line, *_ in rows) + 3
    return ["```text", *("".join([line.ljust(column), *reply]) if reply else line for line, *reply in rows), "```"]


PORT = expanded("<port IER=01 IIR=04 LSR=61 SCR=5a 6162>")
CLOCK_SET = expanded("<clock lr=65920080 mr=659200bc imsc=1 offset=-e10 armed=1>")
CONSOLE_READY = expanded("<console flags=02 output=6f6b <port IER=01 IIR=04 LSR=61 78>>")


def port_session():
    return block((f"sl {PORT}", "ok"), ("sr 00", "61"), ("sb", expanded("<port IER=01 LSR=61 SCR=5a 62>")))


def clock_session():
    return block((f"cl {CLOCK_SET}", "ok"), ("cr 0000000065920ecc 0000", "659200bc"),
                 ("cr 0000000065920ecc 0018", "00000001"))


PARTS = {
    "devices": devices,
    "names of the devices": names_of_devices,
    "registers of the port": port_registers,
    "bits": port_bits,
    "registers of the clock": clock_registers,
    "identification": identification,
    "differences of the clock": differences_of_the_clock,
    "header": header,
    "size of a port": lambda: sizes(*PORT_SAVED, " plus the number of held bytes"),
    "port": port_contents,
    "saved port": lambda: block((PORT,)),
    "session with the port": port_session,
    "size of a clock": lambda: sizes(CLOCK_SAVED, CLOCK_SAVED),
    "clock": clock_contents,
    "saved clock": lambda: block((CLOCK_SET,)),
    "session with the clock": clock_session,
    "size of a console": lambda: sizes(*CONSOLE_SAVED, ", plus the number of bytes of output that wait, plus the "
                                                       "number of bytes that the port holds"),
    "console": console_contents,
    "flags": flags,
    "saved console": lambda: block((CONSOLE_READY,)),
    "errors": errors,
    "lengths": lengths,
}
