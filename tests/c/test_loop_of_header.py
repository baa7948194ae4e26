# SPDX-License-Identifier: Apache-2.0 OR BSD-3-Clause
"""The monitor that the comment of superio.h shows, in place of that of examples/c/monitor.c: it compiles, breaks no
rule that rules.c makes, and with either kind of line each byte comes back."""
import re

import pytest
from builds import HOST, prebuilt, run_rules
from harness import ROOT, check

pytestmark = pytest.mark.needs("cc")

# What the header leaves to the reader, as monitor.c has it.
LEFT_OPEN = {
    "&console": "&machine->console",
    "carry_out(": "carry_out(machine, ",
    "unlock()": "pthread_mutex_unlock(&machine->lock)",
    "lock()": "pthread_mutex_lock(&machine->lock)",
    "forget_wake()": "if (files[2].revents && read(machine->wakes[0], bytes, sizeof bytes) == -1)\n"
                     "            warn(\"the event loop\")",
    "wake()": "put(machine->wakes[1])",
    "raise_interrupt()": "put(machine->interrupts[1])",
    "set_line(work.is_up)": "if (work.is_up) put(machine->interrupts[1])",
    "was_up": "machine->was_up",
    "for (;;) {": "for (;;) {\n    struct pollfd files[] = {{.events = POLLIN}, {.events = POLLOUT}, "
                  "{.fd = machine->wakes[0], .events = POLLIN}};",
}
WORDS = re.compile("|".join(rf"(?<!\w){re.escape(words)}" for words in LEFT_OPEN))
AROUND = """static bool carry_out(struct machine *machine, superio_console_work work) {{
{carry_out}
}}

static void guest_writes(struct machine *machine, uint8_t offset, uint8_t value) {{
{write}
}}

static uint8_t guest_reads(struct machine *machine, uint8_t offset) {{
{read}
}}

static void *run_loop(void *argument) {{
    struct machine *machine = argument;
    uint8_t bytes[SUPERIO_CONSOLE_OUTPUT_SIZE];
    int source = machine->line, reader = machine->line;
    superio_console_wanted wanted;
    ssize_t count;
{loop}
    return NULL;
}}

"""
# Of monitor.c, from the first function to the last in whose place those of the header are.
REPLACED = re.compile(r"/\* Does what a call left to do\. .*?(?=/\* The guest's driver receives)", re.S)


def monitor(line, folder):
    """Writes monitor.c with the header's functions, and its `carry_out` for one kind of line. Gives the path."""
    header = (ROOT / "bindings/c/superio.h").read_text("ascii")
    [shown] = re.findall(r"(?<=This is a monitor around it:\n \*\n).*?(?= \* The line of a new)", header, re.S)
    text = re.sub(r"^ \* {0,5}", "", shown, flags=re.M).strip()
    made, write, read, loop, edges, levels = (
        WORDS.sub(lambda found: LEFT_OPEN[found[0]], part) for part in text.split("\n\n"))
    functions = AROUND.format(carry_out=edges if line == "edges" else levels, write=write, read=read, loop=loop)
    example = (ROOT / "examples/c/monitor.c").read_text("ascii")
    assert made.partition(";")[0] in example
    example, count = REPLACED.subn(lambda _: functions, example)
    assert count == 1 and example.count("bool echoes;") == 1
    path = folder / "monitor.c"
    path.write_text(example.replace("bool echoes;", "bool echoes, was_up;"), "ascii")
    return path


def test_rules(tmp_path):
    ran = run_rules(monitor("edges", tmp_path), tmp_path)
    assert ran.returncode == 0, ran.stdout


@pytest.mark.parametrize("line", ["edges", "levels"])
def test_each_byte_comes_back(line, tmp_path):
    check(["cc", "-O1", "-Wall", "-Wextra", "-Werror", "-I", ROOT / "bindings/c", monitor(line, tmp_path),
           prebuilt(HOST), "-pthread", "-o", tmp_path / "monitor"], "")
    check([tmp_path / "monitor"], "3000 bytes came back, 3000 of them in order\n")
