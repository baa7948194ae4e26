# SPDX-License-Identifier: Apache-2.0 OR BSD-3-Clause
"""A monitor, for whatever driver: the code of docs/PORT.md, also with a rule of it broken, or a console. And what runs,
and proves, a driver's harness with it."""
import re
from pathlib import Path
from typing import NamedTuple

from cbmc import compiler_of
from documents import Document
from harness import ROOT, check, run
from sources import HERE

TIMEOUT = "superio_serial_character_timeout(&port)"
# The variables of the page, which the harness has in a struct, so that a proof can choose them.
VARIABLES = re.compile(r"^ *static (?:superio_serial|bool) \w+;.*\n", re.M)
INTERRUPT = re.compile(r"^static void interrupt\(.*?^}\n", re.M | re.S)
# Rules that a monitor may break: the text of the page, and what stands there instead. The poll's limit while bytes are
# held is one of them for a line that takes levels. For edges it is not, so no other rule may rest on it.
FAULTS = {
    "NO_LIMIT": [("times > 0 || has_waiting_input()", "times > 0"),
                 ("if (has_waiting_input())\n        make_turn_in(5);", "")],
    "NO_TIMEOUT": [(f"interrupt({TIMEOUT});\n    else", "interrupt(0);\n    else"), (f"retry({TIMEOUT})", "retry(0)")],
    "ONLY_IN_TURNS": [(f"interrupt({TIMEOUT});\n    else", "interrupt(0);\n    else")],
    "NO_RETRY": [("is_refused = is_refused || times > 0;", ""), ("if (times > 0)\n        make_turn_in(5);", "")],
    "NO_RETRY_AT_IER": [("retry(written.interrupts)", "interrupt(written.interrupts)")],
    "NO_OFFER": [("if (read.in_buffer_empty)\n        offer_input();\n", "")],
    "DROPS_IER": [("retry(written.interrupts)", "retry(0)")],
    # What no driver gets over: the exchange itself has to fail.
    "RECEIVES_ANOTHER": [("    superio_serial_enqueue_effects offered", "    *(uint8_t *)bytes ^= 1;\n"
                          "    superio_serial_enqueue_effects offered")],
    "SENDS_ANOTHER": [("queue_output(value)", "queue_output(value ^ 1)")],
    "HIDES_DATA": [("    remove_input(", "    port.line_status &= 0xfe;\n    remove_input(")],
    "MAKES_UP_INPUT": [("    read_input();\n", "    read_input();\n    mon.waiting += offered == 0;\n")],
    "CHANGES_IER": [("superio_serial_write(&port, offset, value)",
                     "superio_serial_write(&port, offset, offset == 1 && value == 5 ? 1 : value)")],
}
# What an exchange of any driver says of some of these.
WRONG = {"RECEIVES_ANOTHER": "a byte is received out of order", "SENDS_ANOTHER": "a byte is sent out of order"}


def code(of):
    """The one block of C of the page that has a text."""
    blocks = ["\n".join([*block.lines, ""]) for block in Document("docs/PORT.md").blocks if block.language == "c"]
    [block] = [block for block in blocks if of in block]
    return block


class Monitor(NamedTuple):
    """A monitor whose line takes edges or levels, with a console or, without, by the code of the page with some rules
    broken."""
    has_level: bool
    faults: tuple = ()
    has_console: bool = False

    @property
    def name(self):
        return "-".join(["levels" if self.has_level else "edges", *self.faults, *["console"] * self.has_console])

    def text(self):
        return "" if self.has_console else port_code(self.has_level, self.faults)

    @property
    def options(self):
        return [*["-DLEVELS"] * self.has_level, *["-DCONSOLE"] * self.has_console,
                *["-DLIMIT"] * ("NO_LIMIT" not in self.faults)]


def port_code(has_level, faults):
    """The functions of the page, for a line that takes edges or levels, with some rules broken."""
    text, count = VARIABLES.subn("", code("write_access").replace("#include <superio.h>\n", ""))
    assert count == 4
    if has_level:
        level, count = VARIABLES.subn("", code("set_line"))
        assert count == 1
        text, count = INTERRUPT.subn(lambda _: level, text)
        assert count == 1
    for fault in faults:
        edits = [(old, new) for old, new in FAULTS[fault] if old in text]
        assert edits and all(text.count(old) == 1 for old, _ in edits), fault
        for old, new in edits:
            text = text.replace(old, new)
    return text


class Driver(NamedTuple):
    """A driver in a folder, by its own text, with the folder of its harness and what a compiler of C has to be told. The
    driver is compiled once for all monitors, and each monitor once: for this driver, or for all that share a folder of
    monitors."""
    folder: Path
    harness: Path
    words: list
    proof: list        # what CBMC has to be told beside it
    files: tuple = ()  # of C, beside each program of the harness
    monitors: Path | None = None  # the folder that it shares

    def driver_object(self, compiler, file, *options):
        return compiled_once(compiler, file, self.folder / f"{file.stem}{''.join(options)}", *options, f"-I{self.folder}",
                             f"-I{self.folder}/include", f"-I{self.harness}", f"-I{ROOT}/bindings/c", *self.words)

    def monitor_object(self, compiler, monitor):
        folder = (self.monitors or self.folder) / monitor.name
        folder.mkdir(exist_ok=True)
        (folder / "port.c").write_text(monitor.text(), encoding="utf-8")
        return compiled_once(compiler, HERE / "monitor" / "monitor.c", folder / "monitor", f"-I{folder}",
                             f"-I{ROOT}/bindings/c", *monitor.options)

    def compiled(self, program, library, monitor, *options):
        """A program of the harness over the C library. Its text is mostly the driver's, so no warning of it counts."""
        compiler = ["gcc", "-std=gnu11", "-w", "-O1"]
        objects = [self.driver_object(compiler, file, *options) for file in (self.harness / program, *self.files)]
        built = self.folder / Path(program).stem
        check(["gcc", *objects, self.monitor_object(compiler, monitor), library, "-o", built])
        return built

    def verify(self, cbmc, entry, monitor, *options):
        """What CBMC says of an entry of prove.c, which itself depends on the kind of line and on the poll's limit."""
        compiler = compiler_of(cbmc)
        objects = [self.driver_object(compiler, self.harness / "prove.c", *options, *monitor.options),
                   self.monitor_object(compiler, monitor),
                   self.driver_object(compiler, HERE / "monitor" / "device.c", "-DABSTRACT_BYTES")]
        return assertions([*cbmc, *objects, "--function", entry, *self.proof])


def compiled_once(compiler, file, built, *words):
    """What a compiler makes of a file of C, if it has not made it before."""
    built = built.with_name(f"{built.name}.{Path(compiler[-1]).name}")
    if not built.exists():
        check([*compiler, "-c", file, *words, "-o", built])
    return built


def assertions(command):
    """What CBMC says, told these words: each assertion's text, and whether it holds."""
    said = run([*command, "--drop-unused-functions", "--slice-formula", "--object-bits", "12", "--no-standard-checks",
                "--unwinding-assertions", "--max-field-sensitivity-array-size", "8"])   # the FIFO is one variable
    found = re.findall(r"^\[\S+\] line \d+ (.*): (SUCCESS|FAILURE)$", said.stdout, re.M)
    failed = ["FAILURE" for _, result in found if result == "FAILURE"]
    assert f"VERIFICATION {'FAILED' if failed else 'SUCCESSFUL'}\n" in said.stdout and found, said.stdout
    assert re.search(rf"^\*\* {len(failed)} of {len(found)} failed", said.stdout, re.M), said.stdout
    return [(text, result == "SUCCESS") for text, result in found]
