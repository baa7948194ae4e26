# SPDX-License-Identifier: Apache-2.0 OR BSD-3-Clause
"""A number that several files state is the same in all of them.

tests/documents/facts.txt has a block for each fact, such as the offset of a register: lines with a file and a text that
has to stand in it, wherever lines break there. After a change of the number, the block names the other places. The
registers and their bits need no block: test_registers.py compares them. Nor does a size that a sentence states by words
of its own, such as `received bytes`: each sentence with these words states it.
"""
import re
from collections import defaultdict

import pytest
from common.facts import (BYTES, CLOCK_CONTENTS, CLOCK_SAVED, CONSOLE_SAVED, FIFO_SIZE, HEADER_SIZE, OUTPUT_SIZE,
                          PORT_SAVED)
from documents import documents
from harness import ROOT, at_least
from superio import board, program

NUMBER = re.compile(r"\b(?:0x[0-9A-Fa-f]+|\d[\d,_]*)\b")
BLOCKS = [[tuple(line.split(": ", 1)) for line in block.splitlines()]
          for block in (ROOT / "tests/documents/facts.txt").read_text(encoding="utf-8").split("\n\n")[1:]]


def contents(file):
    """The words of a file. Those of a binary are the power of two that its size does not reach."""
    path = ROOT / file
    if path.suffix in (".a", ".wasm"):
        return f"less than {1 << (path.stat().st_size // 1000).bit_length()} kB"
    return " ".join(path.read_text(encoding="utf-8").split())


def numbers_of(block):
    """Beside each number of a block the files that state it."""
    files = defaultdict(set)
    for file, text in block:
        for number in NUMBER.findall(text):
            files[int(number.replace(",", ""), 0)].add(file)
    return files


@pytest.mark.parametrize("file, text", at_least(42, [place for block in BLOCKS for place in block]))
def test_place(file, text):
    assert text in contents(file), f"{file} has no {text!r}"


@pytest.mark.parametrize("number, files", at_least(15, [row for block in BLOCKS for row in numbers_of(block).items()]),
                         ids=lambda value: hex(value) if isinstance(value, int) else ", ".join(sorted(value)))
def test_number(number, files):
    assert len(files) > 1, f"of this block, only {', '.join(files)} has {number}"


# The sizes by the words behind them. A board of scripts keeps less output than a console.
SIZES = [(r"received bytes", {FIFO_SIZE}), (r"bytes of output wait", {OUTPUT_SIZE}),
         (r"(?:bytes )?of output\b", {OUTPUT_SIZE, board.OUTPUT_SIZE})]
SENTENCES = [*map(str, documents()), "bindings/c/superio.h", "bindings/js/superio.d.ts",
             "bindings/python/superio/devices.py"]
STATED = [(file, found[0], int(found[1].replace(",", "")), sizes) for file in SENTENCES
          for words, sizes in SIZES for found in re.finditer(rf"\b(\d[\d,]*) {words}", contents(file))]


@pytest.mark.parametrize("file, text, number, sizes", at_least(15, STATED))
def test_size(file, text, number, sizes):
    assert number in sizes, f"{file} says {text!r}"


# How many bytes what a caller passes or gets can have. A line of a script has up to 128, and one of them if it is typed.
LINE = 128
RANGES = {PORT_SAVED, CONSOLE_SAVED, (0, LINE), (1, LINE)}
COUNTS = {*PORT_SAVED, CLOCK_SAVED, *CONSOLE_SAVED, HEADER_SIZE, CLOCK_CONTENTS, BYTES["u32"], FIFO_SIZE, OUTPUT_SIZE,
          board.OUTPUT_SIZE, LINE, program.LONGEST}
# The sources whose comments and texts tell a caller what a call does.
INTERFACES = [path.relative_to(ROOT).as_posix() for pattern in (
    "rust/*/src/**/*.rs", "bindings/c/superio.h", "bindings/c/from-source/src/*.rs", "bindings/python/superio/*.py",
    "bindings/js/*.d.ts", "bindings/js/[rs]*.mjs", "web/board.mjs") for path in sorted(ROOT.glob(pattern))]
TOLD = [(file, found[0], [int(number.replace(",", "")) for number in found.groups() if number])
        for file in at_least(40, INTERFACES) for found in re.finditer(
            r"\b(?:(\d[\d,]*) to )?(\d(?:[\d,]*\d)?)(?: (?:received|held))? bytes\b", contents(file))]


@pytest.mark.parametrize("file, text, numbers", at_least(50, TOLD))
def test_count_of_bytes(file, text, numbers):
    assert tuple(numbers) in RANGES or len(numbers) == 1 and numbers[0] in COUNTS, f"{file} says {text!r}"
